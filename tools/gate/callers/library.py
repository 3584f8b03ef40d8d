"""The archive of the library for C, over the libraries below it as the repository's own run proved them."""
from gate.callers.parts import ran
from gate.files import ROOT, read, write
from gate.mutants.scratch import Libraries, prepared

NAME = "lr1_c"


def proved_archive(room):
    """The path of the archive, which `rt lib` makes in a scratch repository. It proves the crate anew,
    and takes the libraries below it as they are: `rt lib` in the repository would prove them again."""
    crate = prepared(NAME, ROOT, f"{room}/proved", False, Libraries(ROOT, f"{room}/libraries"))
    lines = f"{room}/proved/crates.txt"
    write(lines, read(lines).replace(f"\n{NAME}: ", f"\n{NAME} staticlib: "))
    ran("rt", "lib", folder=crate)
    return f"{crate}/out/lib{NAME}.a"
