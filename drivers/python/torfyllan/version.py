"""The version of Torfyllan, in this one place: `./run --version` prints it, and the package is built with it."""
__version__ = "1.1.0"
