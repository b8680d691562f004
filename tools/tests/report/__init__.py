"""Tests: what is shown of filters and profiles."""
