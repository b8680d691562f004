"""Tests: processes, containers and units."""
