"""A mutant: an edit of one function, of which the prover must refuse the proof."""
import os

from gate.files import read, write


class Mutant:
    """A file crates/CRATE/mutants/MODULE/NAME.edit: a line 'function: PATH', the function whose
    proof must fail, as a check prints it after the crate's name; a line 'file: src/MODULE.rt'; and
    pairs of lines 'old: TEXT' and 'new: TEXT', where each old text stands once in that file."""

    def __init__(self, crate, place):
        self.crate, self.place = os.path.basename(crate), place
        self.name = f"{self.crate}/{place}"
        self.function = self.file = None
        self.pairs = []
        self.text = read(f"{crate}/mutants/{place}.edit")
        for line in self.text.splitlines():
            key, _, text = line.partition(":")
            if key in ("function", "file"):
                setattr(self, key, text.strip())
            elif key == "old":
                self.pairs.append([text[1:], None])
            elif key == "new" and self.pairs:
                self.pairs[-1][1] = text[1:]

    def applied(self, text):
        """The text with the changes, or None where an old text does not stand there once."""
        for old, new in self.pairs:
            if text.count(old) != 1:
                return None
            text = text.replace(old, new)
        return text

    def fault(self, crate):
        """Why the mutant cannot be applied to the crate in this folder, or None."""
        if not self.function or not self.file or not self.pairs or any(new is None for _, new in self.pairs):
            return "it lacks a function, a file, or a pair of texts"
        if not os.path.isfile(f"{crate}/{self.file}"):
            return f"there is no {self.file}"
        if self.file != f"src/{os.path.dirname(self.place)}.rt":
            return f"it edits {self.file}, so it belongs in mutants/{self.file[4:-3]}/"
        if self.applied(read(f"{crate}/{self.file}")) is None:
            return "an old text does not stand once in the file"
        return None


def mutants_of(crate):
    """The mutants of the crate in this folder, by name."""
    held, found = f"{crate}/mutants", []
    for at, _, names in os.walk(held):
        found += [os.path.relpath(f"{at}/{it}", held)[:-5] for it in names if it.endswith(".edit")]
    return [Mutant(crate, it) for it in sorted(found)]


def apply(crate, mutants):
    """Writes those of the mutants that go together into the crate: one for each function, and none
    whose text another changed. Returns them, and the files as they were."""
    taken, were, functions = [], {}, set()
    for it in mutants:
        path = f"{crate}/{it.file}"
        now = read(path)
        new = None if it.function in functions else it.applied(now)
        if new is not None:
            were.setdefault(path, now)
            write(path, new)
            functions.add(it.function)
            taken.append(it)
    return taken, were


def restore(were):
    """Writes the files back as they were."""
    for path, text in were.items():
        write(path, text)
