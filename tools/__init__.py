"""Tools for the work on this repository."""
