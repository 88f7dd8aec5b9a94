//! The library of a package with a fault in its features.
