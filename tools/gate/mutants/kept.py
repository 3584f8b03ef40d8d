"""What earlier runs on this machine refused, by the checksums of all that a verdict rests on.

A mutant that was refused is an empty file. Its name is the checksum of the mutant's text and of
what its crate was checked with: the toolchain, the modules of a trial, the crate's line and files,
and those of the libraries below it. Only refusals are kept. Nothing becomes stale, since another
text has another name."""
import hashlib
import os
import subprocess

from gate.files import below, files_below, listed
from gate.mutants.scratch import PARTS

HERE = os.path.dirname(os.path.realpath(__file__))
# The modules that decide what is tried, and how a verdict is read.
TRIAL = ("copies", "mutant", "scratch", "trial", "verdicts")


def folder():
    """Where refusals are kept: in a folder of the user, outside each checkout."""
    caches = os.environ.get("XDG_CACHE_HOME") or os.path.expanduser("~/.cache")
    return f"{caches}/lalrpop_lr1/refused"


def sum_of(name, root):
    """The checksum of all but the mutant that a verdict on a mutant of the crate rests on."""
    crates = listed(root)
    crates_read = [*below(name, crates), name]
    version = subprocess.run(["rt", "version"], capture_output=True, check=False).stdout
    made = hashlib.sha256(repr((version, [(it, crates[it]) for it in crates_read])).encode())
    tops = [f"{root}/crates/{it}/{part}" for it in crates_read for part in PARTS]
    paths = [(HERE, f"{HERE}/{it}.py") for it in TRIAL] + [(top, it) for top in tops for it in files_below(top)]
    for top, path in paths:
        with open(path, "rb") as it:
            made.update(repr((os.path.basename(top), os.path.relpath(path, top), it.read())).encode())
    return made.hexdigest()


class Kept:
    """The refusals that are kept of one crate's mutants, or none where all are to be tried."""

    def __init__(self, name, root, anew=False):
        self.sum = None if anew else sum_of(name, root)

    def place(self, mutant):
        own = hashlib.sha256(repr((self.sum, mutant.place, mutant.text)).encode())
        return f"{folder()}/{own.hexdigest()}"

    def has(self, mutant):
        """Whether an earlier run refused the same mutant of the same crate."""
        return self.sum is not None and os.path.isfile(self.place(mutant))

    def keep(self, mutant):
        """Keeps that the mutant was refused, where there is room for it."""
        if self.sum is not None:
            try:
                os.makedirs(folder(), exist_ok=True)
                with open(self.place(mutant), "w", encoding="utf-8"):
                    pass
            except OSError:
                pass
