"""What tools/check-docs and tools/definitions are made of."""
