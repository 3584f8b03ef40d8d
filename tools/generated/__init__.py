"""Makes the files that parse by LR(1) tables, from the data of `lrshow FILE START json`."""
