"""The tests of the package, which need its library."""
