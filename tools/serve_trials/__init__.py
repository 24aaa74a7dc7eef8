"""The trials of tools/test-serve: units, the API, the page in a browser, faults, and load."""
