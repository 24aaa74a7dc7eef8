"""What tools/fuzz is made of: the calls that it mutates, the mutations, a run, and what a run must be."""
