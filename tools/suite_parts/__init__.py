"""The parts of tools/suite.

`limits`, `answers` and `work` are what a worker does. They need the standard library alone, and keep
nothing between jobs: a Dask worker gets their functions as values.
"""
