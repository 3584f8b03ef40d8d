"""The files that parse by LR(1) tables, compiled and run on the stored cases."""
