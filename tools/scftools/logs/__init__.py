"""What logs, traces and cores tell of syscalls, and why these were answered so. It uses what lint uses, and lint."""
