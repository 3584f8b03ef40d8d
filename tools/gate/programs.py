"""What the commands that run a program have in common."""
import contextlib
import os
import resource
import sys

from gate.files import ROOT

# How many bytes a small stack may grow to.
STACK = 1 << 20


def arguments(words, usage, *defaults):
    """The words of a command, with defaults for missing ones. Too many words exit with status 2."""
    if len(words) > len(defaults):
        print(usage, file=sys.stderr)
        sys.exit(2)
    return [*words, *defaults[len(words) :]]


def program_of(name, given=None):
    """The path of a program, which must be there: the given one, or that of the crate."""
    path = os.path.realpath(f"{ROOT}/crates/{name}/out/{name}" if given is None else given)
    if not os.access(path, os.X_OK):
        sys.exit(f"{path}: no such program (rt ci leaves one, once all is proved)")
    return path


@contextlib.contextmanager
def small_stack():
    """Gives the programs that start meanwhile a stack of at most STACK bytes."""
    limits = resource.getrlimit(resource.RLIMIT_STACK)
    resource.setrlimit(resource.RLIMIT_STACK, (STACK, limits[1]))
    try:
        yield
    finally:
        resource.setrlimit(resource.RLIMIT_STACK, limits)
