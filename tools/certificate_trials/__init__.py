"""The parts of tools/test-check-certificate: drawn regions, and damaged certificates."""
