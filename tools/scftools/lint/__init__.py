"""What is odd or dangerous in a profile. It uses what report uses, and report."""
