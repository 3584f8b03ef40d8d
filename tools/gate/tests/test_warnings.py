"""Tests of the comparison of checks with the definitions, by a script in the place of `lrshow`."""
import json

from gate.replay import warnings
from gate.tests.programs import CommandTest, run_over
from gate.tests.test_shown import DATA, TWICE

# A file beside it has its status and its output, by the grammar's file, the start symbol and the form.
LRSHOW = """#!/bin/sh
{ read -r status; cat; } <"$0.$1.$2.$3$4"
[ ! -e "$0.error" ] || cat "$0.error" >&2
exit "$status"
"""
CAUSE = (
    'g:1:1: warning: reduce/reduce conflict on Eof in state 1: reduce S = "x", or reduce S = "x"; '
    "see `lrshow FILE START conflicts`"
)
AGAIN = "g:2:5: warning: the right side is that of line 1; leave one of the two out"
NONE = "g:1:1: warning: `{}` has no production; name another start symbol"
FAULT = 'h:1:1: error: `S` has no "=" after it; a production is a name, "=" and symbols'
GRAMMARS = {"g": 2 * 'S = "x"\n', "h": "S"}


def json_of(line):
    """A line of a check as an object. Of the places in lines, those of `g` have eight bytes for a line."""
    _, number, column, severity, rest = line.split(":", 4)
    message, hint = rest.strip().split("; ")
    start = 8 * (int(number) - 1) + int(column) - 1
    length = 3 if column == "5" else 0 if message.endswith("has no production") else 1
    names = ("severity", "line", "column", "start", "end", "message", "hint")
    return dict(zip(names, (severity.strip(), int(number), int(column), start, start + length, message, hint)))


def files():
    """What the script prints of both grammars."""
    checks = {("g", "S"): (AGAIN, CAUSE), ("g", "Missing"): (NONE.format("Missing"), AGAIN, CAUSE), ("h", "Missing"): (FAULT,)}
    found = {"program": LRSHOW, "cases_g.jsonl": ""}
    grammars = [json.dumps({"file": file, "text": text}) for file, text in GRAMMARS.items()]
    found["grammars.jsonl"] = "".join(f"{it}\n" for it in grammars)
    for (file, start), lines in checks.items():
        status, rows = (2 if file == "h" else 1), json.dumps([*map(json_of, lines)])
        found[f"program.{file}.{start}.check"] = f"{status}\n" + "".join(f"{it}\n" for it in lines)
        found[f"program.{file}.{start}.check--json"] = f"{status}\n{rows}\n"
        data = TWICE.replace('"start":"S"', f'"start":"{start}"')
        found[f"program.{file}.{start}.json"] = "2\n" if file == "h" else f"1\n{data}"
    return found


def by_script(name="program", old="", new=""):
    """Runs the comparison. In one of the files the first such text is another."""
    changed = {**files(), "program.error": ""}
    changed[name] = changed[name].replace(old, new, 1) if old else changed[name] + new
    return run_over(changed, warnings.main, "ROOM/program", "ROOM")


class Warnings(CommandTest):
    def test_comparison(self):
        self.check(by_script, (
            ("all agree", 0, "warnings: 3 agree, 0 differ"),
            ("a line lost", 1, "g S: check: expected [('warning', 2, 5", "program.g.S.check", f"{AGAIN}\n", ""),
            ("no line on a cause", 1, "g S: check: expected one of", "program.g.S.check", f"{CAUSE}\n", ""),
            ("another kind", 1, "g Missing: check: expected one of", "program.g.Missing.check", "reduce/reduce",
             "shift/reduce"),
            ("another state in JSON", 1, "g S: check --json: expected one of", "program.g.S.check--json", "state 1",
             "state 2"),
            ("data without conflicts", 1, "g S: check: expected [], not", "program.g.S.json", f"1\n{TWICE}",
             f"0\n{DATA}"),
            ("other data", 1, "g S: json: no JSON", "program.g.S.json", "[", ""),
            ("no data", 1, "g S: check: there are no data", "program.g.S.json", f"1\n{TWICE}", "3\n"),
            ("another file", 1, "another file than g", "program.g.S.check", "g:2:5", "h:2:5"),
            ("another offset", 1, "g S: check --json: expected", "program.g.S.check--json", '"end": 15', '"end": 12'),
            ("another error", 1, "h Missing: check: expected the errors", "program.h.Missing.check", "1:1", "1:2"),
            ("another status", 1, "h Missing: check: expected status 2", "program.h.Missing.check", "2\n", "1\n"),
            ("text on standard error", 1, "standard error", "program.error", "", "so\n"),
        ))

    def test_no_grammar(self):
        grammars = files()["grammars.jsonl"]
        self.check(by_script, (("no grammar", 1, "warnings: 0 agree, 0 differ", "grammars.jsonl", grammars, ""),))

    def test_start_symbols(self):
        for text, expected in (
            ('S = A B "x"\nA =\n\tinline C\r\n', ["A", "S", "B", "Missing"]), ("S = S", ["S", "Missing"]),
            ("", ["Missing"]), ("inline C\r\n", ["C", "Missing"]), ("1 = 2\n S =", ["S", "Missing"]),
            ('S = "A B"', ["S", "Missing"]),
        ):
            self.assertEqual(warnings.starts_of(text), expected, text)
