"""Calls of the library for C, from C, Rust and Python."""
