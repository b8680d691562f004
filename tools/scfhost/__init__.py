"""Processes, containers and units of this machine, at which only root may look. It uses scftools."""
