"""What things are: answers, architectures, tables, constants, syscalls, entries and profiles. It uses base."""
