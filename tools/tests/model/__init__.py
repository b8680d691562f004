"""Tests: architectures, constants and syscalls."""
