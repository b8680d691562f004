"""What the tests of the tools share: their cases, made processes and machines, and readings to compare with."""
