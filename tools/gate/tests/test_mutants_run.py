"""Tests `tools/run mutants` by a repository of three crates and an `rt` that reads them. Each line
`NAME WORD, calls NAMES` of a crate's root file is a function. It is proved where the word is `right`
or `slack` and what it calls is proved. Its proof is started where it has no file of answers."""
import contextlib
import io
import os
import subprocess
import tempfile
import unittest
from unittest import mock

from gate.files import read, write
from gate.mutants import command
from gate.mutants.ledger import seal_of

RT = '''#!/usr/bin/env python3
import os, re, sys
crate = os.path.basename(os.getcwd())
root = "src/main.rt" if os.path.isfile("src/main.rt") else "src/lib.rt"
text = open(root).read()
rows = re.findall(r"(?m)^(\\w+) (\\w+), calls(.*)$", text)
words, calls = {it: word for it, word, _ in rows}, {it: names.split() for it, _, names in rows}
only, started = ([sys.argv[at + 1] for at, it in enumerate(sys.argv) if it == flag] for flag in ("--only", "--start"))
for it in [it for it in only + started if it not in words]:
    sys.exit(f"rattle: error: `{crate}` has no function `{it}`: help: write the name that a check prints")
if "garbled" in text:
    print(f"{root}:{text[:text.index('garbled')].count(chr(10)) + 1}:1: error: this is no function")
    sys.exit(1)
for dep in re.findall(r"(?m)^%s: (.*)$" % crate, open("../../crates.txt").read())[0].split():
    if not os.path.isfile(f"../{dep}/out/rlib/stamp"):
        sys.exit(f"{dep} is not built")
for it in started:
    answers = f"./proofs/{it}/Answers.antt"
    if os.path.exists(answers):
        print(f"note: `{crate}::{it}` has a file")
    elif words[it] in ("right", "slack"):
        print(f"note: `{crate}::{it}` needs no file: nothing is left to choose or to answer")
    elif words[it] != "silent":
        os.makedirs(os.path.dirname(answers), exist_ok=True)
        open(answers, "w").close()
        print(f"wrote {answers}")
if started:
    sys.exit(print(f"started={len(started)}"))
is_proved = lambda it: words[it] in ("right", "slack") and all(is_proved(below) for below in calls[it])
for it in only:
    bad = [f"`{crate}::{below}`" for below in calls[it] if not is_proved(below)]
    said = "proved" if is_proved(it) else f"not proved: it calls {bad[0]}, which is not proved" if bad else "not proved"
    if words[it] != "silent":
        print(f"fn {crate}::{it}: {said}")
print(f"only={len(only)} proved={sum(map(is_proved, only))}")
'''
RTLIB = '''import os
class Crate:
    def __init__(self, root, name):
        self.folder, self.name = f"{root}/crates/{name}", name
    def stamp(self):
        return "built"
def crates_below(root):
    return [Crate(root, it) for it in os.listdir(f"{root}/crates")]
'''
LOWER = "base right, calls\nmiddle right, calls base\nouter right, calls middle\nloose right, calls\nmute right, calls\n"
# The functions of `lower` that have answers by hand.
ANSWERED = ("base", "middle", "outer", "mute")
LEDGER = "crates/lower/mutants/ledger.txt"


def edit(crate, name, function, old, new, file="src/lib.rt"):
    """Adds a mutant to a repository."""
    place, text = f"{file[4:-3]}/{name}", f"function: {function}\nfile: {file}\nold: {old}\nnew: {new}\n"
    return lambda root: write(f"{root}/crates/{crate}/mutants/{place}.edit", text)


def repository(root):
    """A library `lower` with two mutants, one above it with none, and a program above both with one."""
    write(f"{root}/crates.txt", "# The crates.\nlower:\nplain: lower\nupper: plain lower\n")
    write(f"{root}/crates/lower/src/lib.rt", LOWER)
    for it in ANSWERED:
        write(f"{root}/crates/lower/proofs/{it}/Answers.antt", "")
    write(f"{root}/crates/plain/src/lib.rt", "one right, calls\n")
    write(f"{root}/crates/upper/src/main.rt", "top right, calls\n")
    edit("lower", "base_is_wrong", "base", "base right", "base wrong")(root)
    edit("lower", "middle_is_wrong", "middle", "middle right", "middle wrong")(root)
    edit("upper", "top_is_wrong", "top", "top right", "top wrong", "src/main.rt")(root)
    for it in ("lower", "plain"):
        os.makedirs(f"{root}/crates/{it}/out/rlib/{it}.rlib")
    write(f"{root}/bin/rt", RT, 0o755)
    write(f"{root}/bin/rtlib.py", RTLIB)


def printed(root, *words):
    """What the command prints in this repository, and its status."""
    env, out = {"PATH": f"{root}/bin:{os.environ['PATH']}", "XDG_CACHE_HOME": f"{root}/cache"}, io.StringIO()
    with mock.patch.dict(os.environ, env), contextlib.redirect_stdout(out):
        status = command.main([it.replace("ROOT", root) for it in ("--head-start=0", *words)], root)
    return out.getvalue(), status


def after_a_run(change):
    """A repository in which all mutants were refused before, and their ledgers written."""

    def run_and_change(root):
        printed(root, "--write")
        change(root)

    return run_and_change


def beside(printed_by_rt):
    """Has an `rt ci` beside that printed this and ended."""

    def change(root):
        write(f"{root}/beside/said", printed_by_rt)
        write(f"{root}/beside/status", "0\n")

    return change


def waits_for_another(root):
    """A mutant of `outer`, which calls `middle`, and `middle` is never proved."""
    write(f"{root}/crates/lower/src/lib.rt", LOWER.replace("middle right", "middle broken"))
    os.remove(f"{root}/crates/lower/mutants/lib/middle_is_wrong.edit")
    edit("lower", "outer_is_wrong", "outer", "outer right", "outer wrong")(root)


def starts(root):
    """Two mutants of a function without answers by hand. The start prints nothing of the second."""
    edit("lower", "loose_is_silent", "loose", "loose right", "loose silent")(root)
    edit("lower", "loose_is_wrong", "loose", "loose right", "loose wrong")(root)


def in_ledger(change):
    """Has the lines of a ledger changed, after a run that wrote it."""

    def change_lines(root):
        lines = read(f"{root}/{LEDGER}").splitlines(keepends=True)
        write(f"{root}/{LEDGER}", "".join(change(lines)))

    return after_a_run(change_lines)


def newer(path, text, when):
    """Writes a file, with a time."""

    def change(root):
        write(f"{root}/{path}", text)
        os.utime(f"{root}/{path}", (when, when))

    return change


def moved(root):
    """The mutant and its function, moved to another module as they are."""
    for name, text in (("src/part.rt", LOWER), ("src/lib.rt", "mod part;\n")):
        write(f"{root}/crates/lower/{name}", text)
    text = read(f"{root}/crates/lower/mutants/lib/base_is_wrong.edit").replace("src/lib.rt", "src/part.rt")
    write(f"{root}/crates/lower/mutants/part/base_is_wrong.edit", text)
    for it in ("base_is_wrong", "middle_is_wrong"):
        os.remove(f"{root}/crates/lower/mutants/lib/{it}.edit")


SLACK = edit("lower", "loose_is_slack", "loose", "loose right", "loose slack")
NONE = lambda root: None  # noqa: E731
SEALED = f"lib/none 0123456789abcdef {seal_of('lower', 'lib/none', '0123456789abcdef')}\n"
HELP = "(`tools/run mutants --write` tries it and writes the line)"
# What is tried: a change of the repository, the words of the command, its status, and what it prints.
CASES = {
    "a new repository": (
        NONE, "", 1,
        ["of 3 are tried 3 of which something changed\n", f"\nlower/lib/base_is_wrong: the ledger has no line for it {HELP}\n"],
    ),
    "all are refused and written": (
        NONE, "--write", 0, ["lower: 2 mutants, 2 checks", "upper: 1 mutants, 1 checks", "all 3 refused"],
    ),
    "all, after a run": (after_a_run(NONE), "--all --anew", 0, ["mutants: all 3 are tried", "all 3 refused"]),
    "some that did not change": (
        after_a_run(NONE), "--anew", 0, ["0 of which something changed, and 3 others by commit none", "all 3 refused"],
    ),
    "one crate": (after_a_run(NONE), "upper", 0, ["all 1 refused"]),
    "a crate without mutants": (NONE, "plain", 2, ["no crate plain has any; these have: lower, upper"]),
    "one is let through": (SLACK, "--write", 1, ["\nlower/lib/loose_is_slack: NOT REFUSED\nmutants: FAILED"]),
    "one is let through in the gate": (
        after_a_run(SLACK), "", 1, ["\nlower/lib/loose_is_slack: NOT REFUSED\n", "loose_is_slack: the ledger has no line"],
    ),
    "one of a function with answers is let through": (
        edit("lower", "mute_is_slack", "mute", "mute right", "mute slack"), "--write", 1,
        ["\nlower/lib/mute_is_slack: NOT REFUSED\nmutants: FAILED"],
    ),
    "two starts": (
        starts, "--write", 1,
        ["lower: 1 of 4 mutants tried, by 2 checks", "\nlower/lib/loose_is_silent: the check prints nothing of loose: None\n"],
    ),
    "an old text is gone": (
        edit("lower", "old_is_gone", "loose", "loose left", "loose wrong"), "--write", 1,
        ["\nlower/lib/old_is_gone: an old text does not stand once in the file\nmutants: FAILED"],
    ),
    "a mutant in another folder": (
        lambda root: write(
            f"{root}/crates/lower/mutants/other/one.edit", "function: loose\nfile: src/lib.rt\nold: loose right\nnew: x\n"
        ),
        "--write", 1, ["lower/other/one: it edits src/lib.rt, so it belongs in mutants/lib/\n"],
    ),
    "a mutant without a function": (
        lambda root: write(f"{root}/crates/lower/mutants/lib/one.edit", "file: src/lib.rt\nold: loose right\nnew: x\n"),
        "--write", 1, ["lower/lib/one: it lacks a function, a file, or a pair of texts\n"],
    ),
    "the check knows no such function": (
        edit("lower", "none_is_wrong", "none", "loose right", "loose wrong"), "--write", 1,
        ["lower/lib/none_is_wrong: with the mutants of src/lib.rt the check does not end: rattle: error: `lower` has no"],
    ),
    "a mutant does not compile": (
        edit("upper", "top_is_garbled", "top", "top right", "top garbled", "src/main.rt"), "--write", 1,
        ["\nupper/main/top_is_garbled: with the mutants of src/main.rt the check does not end: src/main.rt:1:1: error: this"],
    ),
    "the check prints nothing of the function": (
        edit("lower", "mute_is_wrong", "mute", "mute right", "mute silent"), "--write", 1,
        ["\nlower/lib/mute_is_wrong: the check prints nothing of mute: None\nmutants: FAILED"],
    ),
    "refused since another function is": (
        waits_for_another, "--write", 1, ["\nlower/lib/outer_is_wrong: refused only since another function is\n"],
    ),
    "rt ci beside proved what is below": (
        beside("rt: lower proved\nrt: plain proved\n"), "--write --beside ROOT/beside", 0, ["all 3 refused"],
    ),
    "rt ci beside found it kept": (
        beside("rt: lower is kept: an earlier run on this machine proved the same files over the same libraries\nrt: plain proved\n"),
        "--write --beside ROOT/beside", 0, ["all 3 refused"],
    ),
    "rt ci beside did not": (
        beside("rt: lower proved\nrt: plain NOT PROVED\n"), "--write --beside ROOT/beside", 1, ["rt ci has not proved plain"],
    ),
    "all were refused by an earlier run": (
        after_a_run(NONE), "--all", 0, ["lower: 2 mutants (2 refused by earlier runs on the same files), 0 checks", "all 3 refused"],
    ),
    "a mutant changed since": (
        after_a_run(edit("lower", "base_is_wrong", "base", "base right", "base slack")), "", 1,
        ["tried 1 of which something changed, and 2 others", "lower/lib/base_is_wrong: NOT REFUSED"],
    ),
    "a library below changed since": (
        after_a_run(newer("crates/plain/specs/One.antt", "-- one", 0)), "--all", 0,
        ["lower: 2 mutants (2 refused by earlier runs on the same files), 0 checks", "upper: 1 mutants, 1 checks"],
    ),
    "a library changed since it was proved": (
        newer("crates/plain/src/lib.rt", "one right, calls\n\n", 2e9), "--write", 1, ["plain has changed since it was proved"],
    ),
    "the ledger is older than the sources": (
        after_a_run(newer("crates/upper/src/main.rt", "top right, calls\nmore right, calls\n", 0)), "", 0,
        ["tried 1 of which something changed", "the ledgers are older than 1 mutants", "all 3 refused"],
    ),
    "a line was edited by hand": (
        in_ledger(lambda lines: [lines[0].replace("lib/base_is_wrong ", "lib/base_is_wrong 0"), *lines[1:]]), "", 1,
        [f"\nlower/lib/base_is_wrong: its line in the ledger was edited by hand {HELP}\n"],
    ),
    "a line is missing": (
        in_ledger(lambda lines: lines[1:]), "", 1, [f"\nlower/lib/base_is_wrong: the ledger has no line for it {HELP}\n"],
    ),
    "a line names no mutant": (
        in_ledger(lambda lines: [*lines, SEALED]), "", 1, ["\nlower/lib/none: its line in the ledger names no mutant"],
    ),
    "a line stands twice": (
        in_ledger(lambda lines: [lines[0], *lines]), "", 1, ["\nlower/lib/base_is_wrong: the ledger has two lines for it"],
    ),
    "a line that names no mutant is removed": (
        in_ledger(lambda lines: [*lines, SEALED]), "--write", 0, ["tried 0 of which something changed", "all 0 refused"],
    ),
}


class Runs(unittest.TestCase):
    def in_repository(self, change, words):
        with tempfile.TemporaryDirectory(prefix="mutants-test-") as root:
            repository(root)
            change(root)
            said, status = printed(root, *words.split())
            ledger = f"{root}/{LEDGER}"
            return said, status, read(ledger) if os.path.isfile(ledger) else ""

    def test_cases(self):
        for name, (change, words, wanted, parts) in CASES.items():
            with self.subTest(name):
                said, status, _ = self.in_repository(change, words)
                self.assertEqual((status, [it for it in parts if it not in said]), (wanted, []), said)

    def test_what_is_written(self):
        """A refusal is written, and a mutant that is let through or is not tried is not."""
        _, _, ledger = self.in_repository(SLACK, "--write")
        self.assertEqual([it.split()[0] for it in ledger.splitlines()], ["lib/base_is_wrong", "lib/middle_is_wrong"])
        _, _, without = self.in_repository(NONE, "")
        self.assertEqual(without, "")
        _, _, renewed = self.in_repository(in_ledger(lambda lines: [*lines[1:], SEALED]), "--write")
        self.assertEqual(renewed, ledger)

    def test_moved(self):
        """A mutant that moved with its function keeps its refusal, and is not tried."""
        said, status, ledger = self.in_repository(after_a_run(moved), "--write --anew")
        self.assertEqual([it.split()[0] for it in ledger.splitlines()], ["part/base_is_wrong"], said)
        self.assertIn("tried 0 of which something changed", said)
        self.assertEqual(status, 0)

    def test_others_by_commit(self):
        """Another commit chooses other mutants, and the same commit the same."""
        mutants = [mock.Mock() for _ in range(100)]
        for number, it in enumerate(mutants):
            it.name = f"crate/module/{number}"
        some = [command.some_of(mutants, 60, it) for it in ("a", "a", "b")]
        self.assertEqual((len(some[0]), some[0]), (60, some[1]))
        self.assertNotEqual(some[0], some[2])

    def test_commit(self):
        with tempfile.TemporaryDirectory() as root:
            self.assertEqual(command.commit_of(root), "")
            for words in ("init -q", "-c user.name=a -c user.email=a commit -q --allow-empty -m a"):
                subprocess.run(["git", "-C", root, *words.split()], check=True)
            self.assertRegex(command.commit_of(root), "^[0-9a-f]{40}$")
