"""The tests of the registrar's tools: `python3 -m unittest` in `registrar/`."""
