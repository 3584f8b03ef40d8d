"""Random and deep runs of the programs under limits, and the check of what they answer."""
