"""Tests what a mutant's checksum covers. In a small repository one text is changed at a time: the
mutant must count as changed, or must not."""
import os
import re
import subprocess
import tempfile
import unittest

from gate.files import read, write
from gate.mutants.basis import Repository
from gate.mutants.command import Mutants
from gate.mutants.mutant import mutants_of
from gate.mutants.since import still_refused

FILES = {
    "crates.txt": "low:\nother:\nhigh: low\n",
    "crates/low/specs/Lists.antt": """-- Lists.
-- the lists that grow
abbrev pub Grows : ℕ → Type 0
Grows n = IsMore n

abbrev pub IsMore : ℕ → Type 0
IsMore n = n > 1

pub data Kind : Type 0 where
  Few : Kind
  Many : Kind

abbrev pub Unused : ℕ
Unused = 0
""",
    "crates/low/specs/Words.antt": "pub use Rattle.low.specs.Lists.{Grows, Many, IsMore}\n",
    "crates/low/src/lib.rt": """ghost use Rattle.low.specs.Lists.{Grows};

/// A number.
pub struct Number {
    value: usize,
}

impl Model for Number {
    ghost use Rattle.low.specs.Lists.{Grows};
    ghost invariant = { λ n. n.value > 0 };
}

pub trait Add {
    fn add(&self, more: usize) -> usize
        ensures sum { result ≡ self.now + more };
}

impl Number {
    pub fn doubled(&self) -> usize
        ensures twice { result ≡ self.now + self.now }
    {
        self.value + self.value
    }
}

pub fn increased(n: usize) -> usize
    ensures more { Grows result }
{
    n + 1
}

pub fn unrelated(n: usize) -> usize
    ensures same { result ≡ n }
{
    n
}
""",
    "crates/other/src/lib.rt": "pub fn increased(n: usize) -> usize\n    ensures { ⊤ }\n{\n    n\n}\n",
    "crates/high/specs/Results.antt": """use Rattle.low.specs.Words.{IsMore as More, Many}
module _ (n : ℕ) where
  abbrev pub IsRight : Kind → Type 0
  IsRight Many = More n

  abbrev pub IsWrong : Kind → Type 0
  IsWrong k = ⊥
""",
    "crates/high/src/part.rt": """//! A part.
ghost use Rattle.high.specs.Results.{IsRight};

use low::{Add, Number, increased};

#[tactic(auto, using(crate::proofs::first))]
fn tried(number: &Number, list: &[usize]) -> usize
    requires some { list.now ≢ [] }
    ensures right { IsRight 3 result }
{
    // The sum.
    let sum = increased(number.doubled());
    Number::helped(sum)
}

impl Number {
    fn helped(n: usize) -> usize
        ensures helps { result ≡ n }
    {
        n
    }
}

impl Add for Number {
    fn add(&self, more: usize) -> usize {
        self.value + more
    }
}

fn beside(n: usize) -> usize
    ensures { ⊤ }
{
    n
}
""",
    "crates/high/proofs/part/tried/Answers.antt": "use Rattle.high.proofs.Lemmas.{first}\nanswer = first\n",
    "crates/high/proofs/part/beside/Answers.antt": "answer = second\n",
    "crates/high/mutants/part/sum.edit": "function: part::tried\nfile: src/part.rt\nold: Number::helped(sum)\nnew: 0\n",
    "crates/high/mutants/part/add.edit": (
        "function: part::NumberAdd::add\nfile: src/part.rt\nold: self.value + more\nnew: self.value\n"
    ),
}
LOW, PART, LISTS = "crates/low/src/lib.rt", "crates/high/src/part.rt", "crates/low/specs/Lists.antt"
RESULTS, SUM = "crates/high/specs/Results.antt", "crates/high/mutants/part/sum.edit"
ANSWERS = "crates/high/proofs/part/tried/Answers.antt"
# A change: a file, an old and a new text. Those of the first table change the mutant `sum`.
COUNTS = {
    "the mutant": (SUM, "new: 0", "new: 1"),
    "the function": (PART, "let sum", "let other"),
    "its contract": (PART, "list.now ≢ []", "list.now ≡ []"),
    "its parameters": (PART, "list: &[usize]", "list: &[u8]"),
    "its attributes": (PART, "proofs::first", "proofs::second"),
    "its proof file": (ANSWERS, "answer = first", "answer = second"),
    "a definition that the contract names": (RESULTS, "IsRight Many = More n", "IsRight Few = More n"),
    "the module around it": (RESULTS, "module _ (n : ℕ)", "module _ (n m : ℕ)"),
    "a definition that this one names, under another name": (LISTS, "IsMore n = n > 1", "IsMore n = n > 2"),
    "a type whose constructor it names": (LISTS, "  Few : Kind\n", ""),
    "the contract of a function that it calls": (LOW, "more { Grows result }", "more { Grows n }"),
    "the contract of a method that it calls": (LOW, "self.now + self.now }", "2 * self.now }"),
    "the contract of a function of a type": (PART, "helps { result ≡ n }", "helps { ⊤ }"),
    "a definition that the contract of a called function names": (LISTS, "Grows n = IsMore n", "Grows n = ⊤"),
    "a type that it uses": (LOW, "value: usize", "value: u64"),
    "the invariant of a type that it uses": (LOW, "n.value > 0", "n.value > 1"),
}
# Those of the second table do not.
COUNTS_NOT = {
    "the body of a function that it calls": (LOW, "    n + 1", "    1 + n"),
    "the body of a method that it calls": (LOW, "self.value + self.value", "2 * self.value"),
    "another function's contract": (PART, "ensures { ⊤ }", "ensures { result ≡ n }"),
    "another function's body": (PART, "{\n    n\n}", "{\n    n + 0\n}"),
    "another function's proof file": ("crates/high/proofs/part/beside/Answers.antt", "second", "third"),
    "a contract below that it does not call": (LOW, "same { result ≡ n }", "same { ⊤ }"),
    "a definition that nothing here names": (LISTS, "Unused = 0", "Unused = 1"),
    "another definition of the same file": (RESULTS, "IsWrong k = ⊥", "IsWrong k = ⊤"),
    "a comment of the function": (PART, "// The sum.", "// A sum."),
    "a comment of a definition": (LISTS, "-- the lists that grow", "-- all lists that grow"),
    "a comment of a type": (LOW, "/// A number.", "/// One number."),
    "an import of a proof file": (ANSWERS, "use Rattle.high.proofs.Lemmas.{first}\n", "use Rattle.high.proofs.More.{first}\n"),
    "an import of a type's model": (LOW, "    ghost use Rattle.low.specs.Lists.{Grows};\n", ""),
    "who sees a function that it calls": (LOW, "pub fn increased", "pub(crate) fn increased"),
    "who sees a field of a type": (LOW, "    value: usize", "    pub value: usize"),
    "a crate that is not below": ("crates/other/src/lib.rt", "ensures { ⊤ }", "ensures { result ≡ n }"),
    "another mutant": ("crates/high/mutants/part/add.edit", "new: self.value", "new: more"),
}


class Bases(unittest.TestCase):
    def setUp(self):
        room = tempfile.TemporaryDirectory(prefix="basis-test-")
        self.addCleanup(room.cleanup)
        self.root = room.name
        for path, text in FILES.items():
            write(f"{self.root}/{path}", text)
        crate = self.crate()
        self.assertEqual(len(crate.changed()), 2)
        crate.record(crate.changed(), set())

    def crate(self):
        return Mutants(self.root, "high", Repository(self.root))

    def changed_by(self, path, old, new):
        """The mutants that count as changed while a text is another."""
        text = read(f"{self.root}/{path}")
        self.assertEqual(text.count(old), 1, old)
        write(f"{self.root}/{path}", text.replace(old, new))
        changed = [it.place for it in self.crate().changed()]
        write(f"{self.root}/{path}", text)
        return changed

    def test_nothing(self):
        self.assertEqual(self.crate().changed(), [])

    def test_what_counts(self):
        for what, change in COUNTS.items():
            with self.subTest(what):
                self.assertIn("part/sum", self.changed_by(*change))

    def test_what_counts_not(self):
        for what, change in COUNTS_NOT.items():
            with self.subTest(what):
                self.assertNotIn("part/sum", self.changed_by(*change))

    def test_a_new_proof_file(self):
        write(f"{self.root}/crates/high/proofs/part/tried/Invariants.antt", "invariant = first\n")
        self.assertEqual([it.place for it in self.crate().changed()], ["part/sum"])

    def test_the_contract_of_a_trait(self):
        """A function in an impl of a trait has the trait's contract."""
        self.assertEqual(self.changed_by(LOW, "sum { result ≡ self.now + more }", "sum { ⊤ }"), ["part/add"])

    def test_another_place(self):
        """A mutant whose function moves to another file as it is has the same checksum."""
        old = {it.place: own for it, own in self.crate().sums.items()}
        for path in (PART, SUM, "crates/high/mutants/part/add.edit", ANSWERS):
            text = read(f"{self.root}/{path}").replace("part::", "whole::").replace("part.rt", "whole.rt")
            write(f"{self.root}/{path.replace('part', 'whole')}", text)
            os.remove(f"{self.root}/{path}")
        new = {it.place: own for it, own in self.crate().sums.items()}
        self.assertEqual({f"whole/{place[5:]}": own for place, own in old.items()}, new)

    def test_a_mutant_of_more_than_its_function(self):
        """The whole file stands for the function."""
        text = "function: part::tried\nfile: src/part.rt\nold: Number::helped(sum)\nnew: 0\nold: //! A part.\nnew: //!\n"
        write(f"{self.root}/{SUM}", text)
        crate = self.crate()
        crate.record(crate.changed(), set())
        self.assertIn("part/sum", self.changed_by(*COUNTS_NOT["another function's body"]))

    def test_faults(self):
        """A mutant that cannot be applied has no checksum, and the reason is reported."""
        write(f"{self.root}/{PART}", read(f"{self.root}/{PART}").replace("Number::helped(sum)", "sum"))
        crate = self.crate()
        self.assertEqual(crate.wrong, ["high/part/sum: an old text does not stand once in the file"])
        self.assertEqual([it.place for it in mutants_of(f"{self.root}/crates/high")], ["part/add", "part/sum"])


class Since(unittest.TestCase):
    """Refusals at an earlier commit, when the crate of the mutants had another name."""

    def setUp(self):
        room = tempfile.TemporaryDirectory(prefix="since-test-")
        self.addCleanup(room.cleanup)
        self.root = room.name
        self.put(FILES)
        crate = Mutants(self.root, "high", Repository(self.root))
        crate.record(crate.changed(), set())
        self.git("init", "-q")
        self.commit()
        os.rename(f"{self.root}/crates/high", f"{self.root}/crates/higher")
        self.put({renamed(path): renamed(text) for path, text in FILES.items()})

    def put(self, files):
        for path, text in files.items():
            write(f"{self.root}/{path}", text)

    def git(self, *words):
        who = ["-c", "user.name=n", "-c", "user.email=e"]
        subprocess.run(["git", "-C", self.root, *who, *words], check=True)

    def commit(self):
        self.git("add", "-A")
        self.git("commit", "-qm", "A commit")

    def kept_while(self, path, old, new):
        """The mutants that are kept while a text is another."""
        path = f"{self.root}/{renamed(path)}"
        text, old = read(path), renamed(old)
        self.assertEqual(text.count(old), 1, old)
        write(path, text.replace(old, renamed(new)))
        mutants = mutants_of(f"{self.root}/crates/higher")
        kept = still_refused(self.root, "HEAD", Repository(self.root), mutants)
        write(path, text)
        return sorted(it.place for it in kept)

    def test_nothing(self):
        self.assertEqual(self.kept_while(LOW, "    n + 1", "    n + 1"), ["part/add", "part/sum"])

    def test_what_counts(self):
        for what, change in COUNTS.items():
            with self.subTest(what):
                self.assertNotIn("part/sum", self.kept_while(*change))

    def test_what_counts_not(self):
        for what, change in COUNTS_NOT.items():
            with self.subTest(what):
                self.assertIn("part/sum", self.kept_while(*change))

    def test_a_function_less(self):
        """A call is resolved by its name. With a function less of that name the refusal holds."""
        gone = """    fn helped(n: usize) -> usize
        ensures helps { result ≡ n }
    {
        n
    }
"""
        self.assertEqual(self.kept_while(PART, gone, ""), ["part/add", "part/sum"])

    def test_a_line_that_does_not_agree(self):
        write(f"{self.root}/crates/higher/mutants/ledger.txt", "part/sum 0 0\n")
        os.rename(f"{self.root}/crates/higher", f"{self.root}/crates/high")
        self.put(FILES)
        self.commit()
        os.rename(f"{self.root}/crates/high", f"{self.root}/crates/higher")
        self.put({renamed(path): renamed(text) for path, text in FILES.items()})
        self.assertEqual(self.kept_while(LOW, "    n + 1", "    n + 1"), [])


def renamed(text):
    """The text with another name of the crate of the mutants."""
    return re.sub(r"\bhigh\b", "higher", text)
