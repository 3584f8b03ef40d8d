"""Mutants: edits that turn the meaning of a function, of which the prover must refuse each."""
