"""Files of the repository as texts."""
import os
import re

ROOT = os.path.realpath(f"{os.path.dirname(os.path.realpath(__file__))}/../..")


def read(path):
    """The text of a file, with its line ends as they stand."""
    with open(path, encoding="utf-8", newline="") as it:
        return it.read()


def write(path, text, mode=None):
    """Writes a text to a file, whose folder is made where it is missing."""
    os.makedirs(os.path.dirname(path) or ".", exist_ok=True)
    with open(path, "w", encoding="utf-8", newline="") as it:
        it.write(text)
    if mode is not None:
        os.chmod(path, mode)


def files_below(top):
    """The paths of all files below a folder, in order, without Python's caches."""
    return sorted(f"{at}/{it}" for at, _, names in os.walk(top) for it in names if "__pycache__" not in at)


def named(root):
    """The crates that crates.txt names, lowest first, each with the words behind the colon. Before
    the colon a static library has the word staticlib after its name."""
    rows = [it.partition(":") for it in read(f"{root}/crates.txt").splitlines() if ":" in it and it[0] != "#"]
    return {name.split()[0]: words.split() for name, _, words in rows}


def listed(root):
    """As `named`. But a comment `# waits for A: B C` says that B and C name A only so that A is proved
    first. So A is left out there."""
    waits = re.findall(r"(?m)^# waits for (\w+): (.*)$", read(f"{root}/crates.txt"))
    left_out = {(name, it) for it, names in waits for name in names.split()}
    return {name: [it for it in words if (name, it) not in left_out] for name, words in named(root).items()}


def below(name, crates):
    """The repository's libraries that a crate rests on, lowest first."""
    found = []
    for it in crates[name]:
        if it in crates:
            found += [more for more in [*below(it, crates), it] if more not in found]
    return found
