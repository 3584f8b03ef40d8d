"""Mutants as functions of their own. A copy of the mutated function stands beside it under another
name, with its contract and its proof files. So one check tries all mutants of a function, and the
callers stay as they are."""
import os
import re
import shutil

from gate.files import read, write
from gate.mutants.mutant import restore


class Copy:
    """A mutant as a copy of its function: the function's path under the copy's name."""

    def __init__(self, mutant, number):
        self.mutant = mutant
        above, _, self.old = mutant.function.rpartition("::")
        self.new = f"{self.old}_mutant_{number}"
        self.function = f"{above}::{self.new}" if above else self.new


def lines_of(text, name, at):
    """The first and the last line of the function of this name that contains the place, or None.
    The function ends at the line that closes its block."""
    lines = text.split("\n")
    number = text.count("\n", 0, at)
    head = rf"\s*(pub(\([a-z]+\))? )?fn {re.escape(name)}\b"
    heads = [it for it in range(number + 1) if re.match(head, lines[it])]
    if not heads:
        return None
    indent = re.match(r"\s*", lines[heads[-1]])[0]
    ends = [it for it in range(heads[-1], len(lines)) if lines[it] == indent + "}"]
    return (heads[-1], ends[0]) if ends and ends[0] >= number else None


def is_of_a_trait(lines, head):
    """Whether the function that begins at this line stands in a trait, or in an impl of one."""
    for line in reversed(lines[:head]):
        if re.match(r"(unsafe )?(impl|(pub(\([a-z]+\))? )?trait)\b", line):
            return lines[head].startswith(" ") and (" for " in line or "trait " in line)
    return False


def marks_above(lines, head):
    """The attributes of the function that begins at this line, a line each."""
    first = head
    while first > 0 and lines[first - 1].lstrip().startswith("#["):
        first -= 1
    return lines[first:head]


def copied(mutant, text, copy, is_edited=True):
    """The copy of the mutated function, and the line after which it goes, or None where there can
    be no copy: in an impl of a trait, of a function that calls itself or has an attribute other
    than `tactic`, and where an old text stands outside the function."""
    found = lines_of(text, copy.old, text.index(mutant.pairs[0][0]))
    if found is None:
        return None
    lines, (head, end) = text.split("\n"), found
    own = "\n".join(lines[head : end + 1])
    opening = "{\n" if lines[head].endswith("{") else f"\n{re.match(' *', own)[0]}{{\n"
    body = own.partition(opening)[2]
    itself = rf"((?<![\w.:])|\b[sS]elf(\.|::)){re.escape(copy.old)}\("
    marks = marks_above(lines, head)
    is_marked = any(not it.lstrip().startswith("#[tactic(") for it in marks)
    if re.search(itself, body) or is_marked or is_of_a_trait(lines, head):
        return None
    if any(own.count(old) != 1 for old, _ in mutant.pairs):
        return None
    for old, new in mutant.pairs if is_edited else []:
        own = own.replace(old, new)
    renamed = re.sub(rf"\bfn {re.escape(copy.old)}\b", f"fn {copy.new}", own, count=1)
    return end, "\n".join([*marks, renamed])


def copy_proofs(crate, copy):
    """Gives the copy the proof files of the function, under its own name."""
    path = copy.mutant.function.replace("::", "/")
    if not os.path.isdir(f"{crate}/proofs/{path}"):
        return None
    made = f"{crate}/proofs/{copy.function.replace('::', '/')}"
    shutil.copytree(f"{crate}/proofs/{path}", made)
    modules = [it.replace("::", ".") for it in (copy.mutant.function, copy.function)]
    old, new = (f"Rattle.{copy.mutant.crate}.proofs.{it}." for it in modules)
    for file in os.listdir(made):
        write(f"{made}/{file}", read(f"{made}/{file}").replace(old, new))
    return made


def put_beside(crate, mutants, is_edited=True):
    """Writes copies of the mutated functions into the crate, where there can be copies. Returns
    them, the files as they were, and the folders that are new."""
    copies, were, folders, parts = [], {}, [], {}
    for number, mutant in enumerate(mutants):
        path, copy = f"{crate}/{mutant.file}", Copy(mutant, number)
        were.setdefault(path, read(path))
        part = copied(mutant, were[path], copy, is_edited)
        if part is not None:
            parts.setdefault(path, []).append(part)
            folders.append(copy_proofs(crate, copy))
            copies.append(copy)
    for path, added in parts.items():
        lines = were[path].split("\n")
        for end, own in sorted(added, reverse=True):
            lines[end + 1 : end + 1] = ["", own]
        write(path, "\n".join(lines))
    return copies, were, [it for it in folders if it]


def take_away(were, folders):
    """Puts the crate back as it was."""
    restore(were)
    for it in folders:
        shutil.rmtree(it)
