"""Asks the proved program, and has what it says as values. It uses base and model."""
