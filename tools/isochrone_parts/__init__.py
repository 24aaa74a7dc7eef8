"""The parts of tools/grid and tools/isochrone: places on a grid, and streets by how soon one is there."""
