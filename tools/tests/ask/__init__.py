"""Tests: what the tools ask the proved program, and how often."""
