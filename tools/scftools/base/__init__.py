"""What every tool needs: how it starts, reads, prints and ends, and runs something in a child. It uses nothing else."""
