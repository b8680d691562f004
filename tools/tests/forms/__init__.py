"""Tests: filters and profiles in the forms that users hand over."""
