"""Tests of gate.case_files, by a shell script in the place of the program."""
import hashlib

from gate.case_files import TRIALS, main
from gate.tests.programs import CommandTest, run_over

# It ends and prints as a file beside it says, by its arguments and the text of a.cases.
PROGRAM = """#!/bin/sh
{ read -r status; cat; } <"$0.$({ echo "$*"; cat a.cases; } | sha256sum | cut -c 1-64)"
exit "$status"
"""


def case_files(name="", old="", new=""):
    """Runs the command. In the result of the trial of that name the first such text is another."""
    files = {"program": PROGRAM}
    for it, (text, printed, status, *words) in TRIALS.items():
        asked = f"{' '.join(words or ['a.cases'])}\n{text}".encode(errors="surrogateescape")
        result = f"{status}\n{printed}"
        files[f"program.{hashlib.sha256(asked).hexdigest()}"] = result.replace(old, new, 1) if it == name else result
    return run_over(files, main, "ROOM/program")


class CaseFiles(CommandTest):
    def test_what_is_printed(self):
        self.check(case_files, (
            ("all as expected", 0, "case files: 13 as expected, 0 not\n"),
            *((it, 1, f"{it}: expected status {TRIALS[it][2]} and\n", it, "differ\n", "more\n") for it in TRIALS),
            ("how many are not", 1, "\ncase files: 12 as expected, 1 not\n", "a wrong head", "a.cases", "b.cases"),
            ("another status", 1, "a wrong head: expected status 2 and\n", "a wrong head", "2", "0"),
            ("a signal's status", 1, "a changed letter: expected status 1 and\n", "a changed letter", "1", "139"),
        ))
        self.check(lambda *words: run_over({}, main, *words), (
            ("no program", 1, "/program: no such program", "ROOM/program"),
            ("two words", 2, "tools/run case-files [PROGRAM]", "ROOM/program", "more"),
        ))
