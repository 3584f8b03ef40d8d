"""The gate of this repository: the parts that `.ci/run` runs, each also a command of `tools/run`."""
