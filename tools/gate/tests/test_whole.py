"""Tests the run of the whole gate, by scripts in the place of `rt` and of `tools/run`, and the list
of commands."""
import contextlib
import importlib
import io
import os
import tempfile
import unittest
from unittest import mock

from gate import __main__ as commands
from gate import borrows, whole
from gate.files import below, listed, named, write

# They print their words. One whose name is in `failing` fails, and `mutants` waits for `rt ci`.
RUN = """#!/bin/sh
echo "run $*"
if [ "$1" = mutants ]; then while [ ! -f "$3/status" ]; do sleep 0.05; done; echo "rt said $(cat "$3/said")"; fi
! grep -qx "$1" "$(dirname "$0")/../failing"
"""
RT = '#!/bin/sh\necho "rt $*"\necho "23 passed, 0 failed"\n! grep -qx rt "$FAILING"\n'


def whole_of(*failing):
    """What the gate prints where these parts fail, line by line, and its status."""
    here = os.getcwd()
    with tempfile.TemporaryDirectory(prefix="whole-test-") as root:
        write(f"{root}/tools/run", RUN, 0o755)
        write(f"{root}/bin/rt", RT, 0o755)
        write(f"{root}/failing", "".join(f"{it}\n" for it in failing))
        env = {"PATH": f"{root}/bin:{os.environ['PATH']}", "FAILING": f"{root}/failing"}
        out = io.TextIOWrapper(io.BytesIO(), encoding="utf-8")
        with mock.patch.dict(os.environ, env), contextlib.redirect_stdout(out):
            status = whole.main([], root)
        os.chdir(here)
        out.seek(0)
        return out.read().splitlines(), status


class Whole(unittest.TestCase):
    def test_each_part_runs(self):
        lines, status = whole_of()
        self.assertEqual(status, 0, lines)
        for word in (*(it for _, it in whole.BESIDE), *(it for _, it in whole.AFTER)):
            self.assertIn(f"run {word}", lines)
        self.assertEqual(lines[-1], "23 passed, 0 failed")
        self.assertIn("rt said rt ci", lines)
        ended = [it for it in lines if it.endswith(", ok")]
        self.assertEqual(len(ended), 2 + len(whole.BESIDE) + len(whole.AFTER))

    def test_each_part_may_fail(self):
        for name, word in (("rt ci", "rt"), ("mutants", "mutants"), *whole.BESIDE, *whole.AFTER):
            with self.subTest(word):
                lines, status = whole_of(word)
                self.assertEqual(status, 1)
                self.assertEqual([it.partition(":")[0] for it in lines if it.endswith("FAILED")], [name])

    def test_budget(self):
        for minutes, used, processors, wanted in (
            (109, 199, 4, "whole: 109 minutes on 4 processors, 199 of processor time: within the budget of 110 and 200"),
            (111, 199, 4, "OVER the budget of 110 and 200 minutes"),
            (111, 199, 8, "OVER the budget of 110"),
            (129, 199, 2, "within the budget of 130"),
            (131, 199, 2, "OVER the budget of 130"),
            (10, 201, 4, "OVER the budget of 110 and 200"),
        ):
            with self.subTest(f"{minutes} {used} {processors}"):
                self.assertIn(wanted, whole.budget_line(60 * minutes, used, processors))

    def test_a_signal(self):
        self.assertEqual(whole.run("one", ["sh", "-c", "kill -SEGV $$"]).status, -11)


class Commands(unittest.TestCase):
    def test_each_has_help(self):
        for name, (module, _) in commands.COMMANDS.items():
            with self.subTest(name):
                self.assertTrue(importlib.import_module(module).__doc__.strip().startswith(f"tools/run {name}"))
        for words, wanted in (([], 2), (["help"], 0), (["none"], 2), (["whole", "--help"], 0)):
            with contextlib.redirect_stdout(io.StringIO()) as out:
                self.assertEqual(commands.main(words), wanted)
            self.assertIn("tools/run", out.getvalue())

    def test_each_part_is_a_command(self):
        self.assertEqual({it for _, it in (*whole.BESIDE, *whole.AFTER)} - set(commands.COMMANDS), set())


class Files(unittest.TestCase):
    def test_crates(self):
        with tempfile.TemporaryDirectory() as root:
            write(f"{root}/crates.txt", "# Crates: these.\na: thiserror\nb: a\nc: b a\n")
            crates = listed(root)
        self.assertEqual(crates, {"a": ["thiserror"], "b": ["a"], "c": ["b", "a"]})
        self.assertEqual(below("c", crates), ["a", "b"])

    def test_crates_that_wait(self):
        """A crate that is named only to be waited for is left out, but not by `named`."""
        with tempfile.TemporaryDirectory() as root:
            write(f"{root}/crates.txt", "# Crates.\n# waits for a: c d\na:\nb: a\nc: b a\nd: a\n")
            self.assertEqual(listed(root), {"a": [], "b": ["a"], "c": ["b"], "d": []})
            self.assertEqual(named(root), {"a": [], "b": ["a"], "c": ["b", "a"], "d": ["a"]})


class Borrows(unittest.TestCase):
    def test_what_the_compiler_prints(self):
        """The module must be refused for its borrow, and must compile without its line."""
        refused, right = ("src/a.rt:1:1: error[borrow-e0505]: moved", 1), ("only=0 proved=0", 0)
        for first, second, wanted in (
            (refused, right, 0), (right, right, 1), (("error[type]", 1), right, 1), (refused, refused, 1),
        ):
            with self.subTest(f"{first} {second}"), contextlib.redirect_stdout(io.StringIO()):
                with mock.patch.object(borrows, "compiled", side_effect=[first, second]) as compiled:
                    self.assertEqual(borrows.main([]), wanted)
                modules = [it.args[1] for it in compiled.call_args_list]
                self.assertEqual([borrows.MOVE in it for it in modules], [True, False][: len(modules)])
