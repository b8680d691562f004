"""The commands for processes, containers and units, as those of scftools. It uses scfhost and scftools."""
