"""Databases that a record store may be kept in, each a module with its rule of a commit."""
