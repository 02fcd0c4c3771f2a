"""Selections of several counties at once: here, or on the workers of a dask.distributed scheduler."""
