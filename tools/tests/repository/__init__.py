"""Tests: the repository: its gate, builds, packages, pages and modules, and libscf."""
