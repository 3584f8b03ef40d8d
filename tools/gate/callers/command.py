"""tools/run callers [LIBRARY]

Calls the library for C from C, Rust and Python. LIBRARY is a folder that `tools/build --library`
filled. If none is given, it is made over the libraries that `rt ci` left, and so is proved.

- The names that the library defines are those that its header and the bindings declare, and no others.
- The header compiles as C99 and as C++, and the examples on the pages of the bindings print what the
  pages say. The bindings pass their own tests.
- Each stored case of `lrtab` has the expected answer, by each binding. So have the data of `lrshow`,
  from which the reports of these cases are laid out, and its checks.
- 20,000 random questions, with several rooms, write nothing outside the room, and read nothing outside
  the text and the words. AddressSanitizer looks on if gcc has it.
- Some texts have the numbers of their tables that docs/FORMATS.md gives them, with rooms of each size.
  Some numbers have the verdict of the check that it gives them.
- The tables of each stored grammar, by both methods, are faithful by the check. They are not with
  another number before the first token set, or without the last numbers. They are if the tokens of
  each set descend.
- 100,000 random calls take such numbers, of which half are changed or cut off. None writes outside the
  room, or reads outside the numbers. With numbers that are as they were, the answers are those of a
  parser that follows docs/FORMATS.md. Numbers with another mark or version, and those that end before
  the numbers of state 0 do, have the status of a fault.
- Each allocation of some questions is refused in turn, alone and with all after it. The status is 3,
  and nothing leaks. If one is refused alone, the answer may also be the right one, since a list that
  finds no room to spare grows by less.

A binding is left out, with a line on that, if its compiler or interpreter is not there. The status is
0 if all is as expected.
"""
import concurrent.futures
import functools
import os
import subprocess
import sys
import tempfile

from gate.callers import in_c, in_python, in_rust
from gate.callers.asked import Cases
from gate.callers.library import proved_archive
from gate.callers.parts import Failed
from gate.files import ROOT
from gate.programs import arguments
from gate.replay.lrtab import CASES

# How many faults of a part are printed.
FAULTS = 10


def library_of(given, room):
    """The folder of the library, which is made if none is given."""
    folder = os.path.realpath(given or f"{room}/library")
    if given is None:
        archive = proved_archive(room)
        subprocess.run([f"{ROOT}/tools/build", "--library", "of", archive, folder], check=True)
    for it in ("liblr1.a", "liblr1.so", "lr1.h"):
        if not os.path.isfile(f"{folder}/{it}"):
            sys.exit(f"{folder} has no {it} (tools/build --library makes it)")
    return folder


def parts_of(stored):
    """The parts, the longest first: a name, and a function of the library and a folder."""
    return (
        ("cases from Rust", functools.partial(in_rust.cases, stored=stored)),
        ("random questions", in_c.random),
        ("cases from Python", functools.partial(in_python.cases, stored=stored)),
        ("cases from C", functools.partial(in_c.cases, stored=stored)),
        ("refused allocations", in_c.refused),
        ("examples", in_c.examples),
        ("numbers", in_c.numbers),
        ("checks", in_c.checks),
        ("own tables", functools.partial(in_c.own, stored=stored)),
        ("random calls by numbers", in_c.by_numbers),
        ("names", in_c.names),
    )


def tried(part, library, room):
    """What a part has to say, and its faults. It has a folder of its own."""
    with tempfile.TemporaryDirectory(prefix="part-", dir=room) as folder:
        try:
            return part(library, folder)
        except Failed as failed:
            return "failed", [str(failed)]


def main(words):
    (given,) = arguments(words, __doc__, None)
    with tempfile.TemporaryDirectory(prefix="callers-") as room:
        library = library_of(given, room)
        with concurrent.futures.ThreadPoolExecutor(os.cpu_count()) as pool:
            started = [(name, pool.submit(tried, it, library, room)) for name, it in parts_of(Cases(CASES))]
            ended = [(name, *it.result()) for name, it in started]
    for name, said, faults in ended:
        print(f"{name}: {said}", *faults[:FAULTS], sep="\n    ")
    failed = [name for name, _, faults in ended if faults]
    print(f"callers: {len(ended) - len(failed)} parts agree, {len(failed)} differ")
    return 1 if failed else 0
