"""The version of this package, which is that of the repository's file VERSION."""

__version__ = "0.2.0"
