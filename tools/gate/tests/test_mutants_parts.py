"""Tests how a check's lines are read, and how a mutated function is copied."""
import os
import tempfile
import unittest

from gate.files import read, write
from gate.mutants import copies, verdicts
from gate.mutants.mutant import Mutant, mutants_of
from gate.mutants.scratch import Libraries, NotProved
from gate.mutants.trial import copies_that_fail

PROVED, REFUSED, WAITS, UNSAID = verdicts.PROVED, verdicts.REFUSED, verdicts.WAITS, verdicts.UNSAID
NOT_PROVED = "`search` did not prove `returns`"
# What a check prints of a function, and the verdict.
LINES = {
    "proved": PROVED,
    "not proved": REFUSED,
    f"no proof: expected answers in ./proofs/f/Answers.antt; {NOT_PROVED}": REFUSED,
    f"no proof: expected answers in ./proofs/f/Answers.antt; {NOT_PROVED}; it calls `one::g`, which is not proved": REFUSED,
    "not proved; it calls `one::g`, which is not proved": WAITS,
    "no proof: it calls `one::g` and `one::h`, which are not proved": WAITS,
    "not proved: see the proof in `one::g`, of this cycle of calls": WAITS,
    "not proved: see the proof in `one::f`, of this cycle of calls": REFUSED,
    "could not tell": UNSAID,
}
# What the start of a proof prints of a function, and the verdict.
STARTS = {
    "note: `one::f` needs no other file: nothing is left to choose or to answer": PROVED,
    "note: `one::f` needs no file: nothing is left to choose or to answer": PROVED,
    "wrote ./proofs/f/Answers.antt": REFUSED,
    "wrote ./proofs/f/Invariants.antt\nwrote ./proofs/f/Answers.antt": UNSAID,
    "wrote ./proofs/f/Proof.antt": UNSAID,
    "wrote ./proofs/g/f/Answers.antt": UNSAID,
    "note: `one::g` needs no file: nothing is left to choose or to answer": UNSAID,
}
FILE = """impl One {
    fn f(&self) -> u8
        ensures { result ≡ 1 }
    {
        1
    }
}

impl Two for One {
    fn g(&self) -> u8 {
        2
    }
}

fn h(n: u8) -> u8 {
    if n == 0 { 3 } else { h(n - 1) }
}

#[tactic(auto, using(crate::proofs::four))]
fn k() -> u8 {
    4
}

#[inline]
fn l() -> u8 {
    5
}
"""
# A function, an old and a new text, and the copy. None: in an impl of a trait, of a function that
# calls itself, and of one with another attribute.
COPIES = {
    ("One::f", "        1", "        7"): "    fn f_mutant_4(&self) -> u8\n        ensures { result ≡ 1 }\n    {\n        7\n    }",
    ("TwoOne::g", "        2", "        7"): None,
    ("h", "3", "7"): None,
    ("k", "    4", "    7"): "#[tactic(auto, using(crate::proofs::four))]\nfn k_mutant_4() -> u8 {\n    7\n}",
    ("l", "    5", "    7"): None,
}


def mutant_of(crate, function, old, new):
    write(f"{crate}/mutants/lib/one.edit", f"function: {function}\nfile: src/lib.rt\nold: {old}\nnew: {new}\n")
    return Mutant(crate, "lib/one")


class Parts(unittest.TestCase):
    def setUp(self):
        room = tempfile.TemporaryDirectory(prefix="parts-test-")
        self.addCleanup(room.cleanup)
        self.crate = f"{room.name}/one"
        write(f"{self.crate}/src/lib.rt", FILE)

    def test_lines_of_a_check(self):
        for line, wanted in LINES.items():
            with self.subTest(line):
                self.assertEqual(verdicts.verdict("one", "f", f"fn one::ff: proved\nfn one::f: {line}\n"), wanted)

    def test_lines_of_a_start(self):
        for line, wanted in STARTS.items():
            said = f"wrote ./proofs/ff/Answers.antt\n{line}\nstarted=2\n"
            with self.subTest(line):
                self.assertEqual(verdicts.verdict_of_start("one", "f", said), wanted)

    def test_copies(self):
        for (function, old, new), wanted in COPIES.items():
            with self.subTest(function):
                mutant = mutant_of(self.crate, function, old, new)
                made = copies.copied(mutant, FILE, copies.Copy(mutant, 4))
                self.assertEqual(made and made[1], wanted)

    def test_copies_are_taken_away(self):
        """The copy has the function's proof files, and nothing of it is left after."""
        write(f"{self.crate}/proofs/k/Answers.antt", "use Rattle.one.proofs.k.Lemma.{four}\n")
        mutant = mutant_of(self.crate, "k", "    4", "    7")
        made, were, folders = copies.put_beside(self.crate, [mutant])
        self.assertEqual([it.function for it in made], ["k_mutant_0"])
        answers = read(f"{self.crate}/proofs/k_mutant_0/Answers.antt")
        self.assertEqual(answers, "use Rattle.one.proofs.k_mutant_0.Lemma.{four}\n")
        copies.take_away(were, folders)
        self.assertEqual((read(f"{self.crate}/src/lib.rt"), os.listdir(f"{self.crate}/proofs")), (FILE, ["k"]))

    def test_a_copy_that_does_not_compile(self):
        """Its mutant is named by the error line, and not the mutants of other functions."""
        mutants = [mutant_of(self.crate, "k", "    4", "    7"), mutant_of(self.crate, "One::f", "        1", "        7")]
        made, were, folders = copies.put_beside(self.crate, mutants)
        at = read(f"{self.crate}/src/lib.rt").split("\n").index("fn k_mutant_0() -> u8 {") + 2
        line = f"src/lib.rt:{at}:5: error: expected u8"
        self.assertEqual(copies_that_fail(self.crate, made, f"some line\n{line}\n"), {made[0]: line})
        copies.take_away(were, folders)

    def test_folders(self):
        """Mutants are found in all folders, by the name of their module."""
        mutant_of(self.crate, "k", "    4", "    7")
        write(f"{self.crate}/mutants/a/b/two.edit", "function: k\n")
        self.assertEqual([it.name for it in mutants_of(self.crate)], ["one/a/b/two", "one/lib/one"])

    def test_libraries_are_copied_once(self):
        with tempfile.TemporaryDirectory() as room:
            rlib = f"{room}/crates/low/out/rlib"
            for name in ("low.rlib/part", "stamp"):
                write(f"{rlib}/{name}", name)
            libraries = Libraries(room, f"{room}/libraries")
            libraries.sums = lambda: {"low": "stamp"}
            for to in ("one", "two"):
                libraries.link("low", f"{room}/{to}/out/rlib")
            nodes = [os.stat(f"{it}/low.rlib/part").st_ino for it in (f"{room}/one/out/rlib", f"{room}/two/out/rlib", rlib)]
            self.assertEqual(nodes[0], nodes[1])
            self.assertNotEqual(nodes[0], nodes[2])
            self.assertEqual(read(f"{room}/two/out/rlib/stamp"), "stamp")
            with self.assertRaises(NotProved):
                libraries.link("high", f"{room}/three")
            changed = Libraries(room, f"{room}/others")
            changed.sums = lambda: {"low": "another"}
            with self.assertRaises(NotProved):
                changed.link("low", f"{room}/four")
