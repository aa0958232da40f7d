"""The version that applications see."""

__version__ = "2.0.0"
"""The major version of `google-cloud-datastore` whose members the table has."""
