"""The parts of `salsa approximate`."""
