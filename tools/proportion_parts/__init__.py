"""What tools/proportion is made of: files of any size, the families of calls over them, and what is measured."""
