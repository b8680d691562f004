"""The commands: a module for each, whose docstring is its manual. It uses all packages of scftools."""
