"""The parts of tools/serve: resident programs, a region in memory, what is asked and replied by HTTP, and the page."""
