"""The generator of walks: see README.md beside this file."""
