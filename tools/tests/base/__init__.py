"""Tests: how the tools start, read and print."""
