"""What tools/manual is made of: a program's help as it tells it, and what is written of it."""
