"""Tests: the proved program's answers, texts, verdicts and limits."""
