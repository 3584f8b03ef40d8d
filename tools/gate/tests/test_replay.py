"""Tests of gate.replay, by shell scripts in the place of the programs, and stored cases."""
import itertools
import json
import os
import subprocess
import sys
from unittest import mock

from gate.files import ROOT
from gate.replay import by_data, lrshow, lrtab, report_of_data
from gate.tests.programs import CommandTest, run_over

# It prints the grammar and the method. For `S loud` it prints an error too. It needs a small stack.
LRTAB = """#!/bin/sh
[ "$(ulimit -s)" = 1024 ] || exit 9
cat "$1"
echo "by ${LALRPOP_LANE_TABLE:-lanes}"
if [ "$3" = loud ]; then echo "$2 is loud" >&2; exit 2; fi
"""
# A file beside it has its status, an error and its output, by the grammar's file and the method.
LRSHOW = """#!/bin/sh
{ read -r status; read -r error; cat; } <"$0.$1.${LALRPOP_LANE_TABLE:-lanes}"
[ -z "$error" ] || echo "$error" >&2
exit "$status"
"""
TEXT = 'S = "é"\r\nS =\r'
TEXTS = {"x": 'S = "x"', "y": 'S = "x"\n' * 3, "z": "S"}
REPORT = (
    f"Lalrpop Report File\n{'=' * 40}\n\nSummary\n{'-' * 40}\n\nConstructed 2 states\n\nState Table\n{'-' * 40}\n"
    '\nState 0 {{\n\n    S -> . "x"\n        lookahead {0}\n\n    "x" shift and goto 1\n\n}}\n'
    '\nState 1 {{\n\n    S -> "x" .\n        lookahead {0}\n\n\n    reduction S -> "x"\n        lookahead Eof\n\n\n}}\n'
)
EXPLAINED = "".join(f"conflict {it} in state 1 on Eof\n" + 2 * '  reduce S -> "x"\n    (*) "x"\n' for it in (1, 2, 3))
EXAMPLE = {"symbols": [{"terminal": "x"}], "place": 0, "reductions": [{"start": 0, "end": 1, "nonterminal": "S"}]}
FAULT = "line 1: not a grammar line\n"


def case(name, status, stdout, stderr=""):
    """A stored case, whose name has its file, its words and its method."""
    file, words, method = name.split("/")
    result = {"status": status, "stdout": stdout, "stderr": stderr}
    return {"name": name, "file": file, "words": words.split(), "method": method, **result}


CASES = [
    case("g/S report/Lane", 0, f"{TEXT}by lanes\n"),
    case("g/S report/Canonical", 0, f"{TEXT}by disabled\n"),
    case("g/S loud/Lane", 2, f"{TEXT}by lanes\n", "S is loud\n"),
]
DATA_CASES = [
    case(f"{name}/{method}", status, stdout.format(tokens), FAULT if status == 2 else "")
    for method, tokens in (("Lane", '"x" Eof'), ("Canonical", "Eof"))
    for name, status, stdout in (
        ("x/S parse 2 x", 0, '[S: "x"]\n'), ("x/S parse 1 x", 1, "limit\n"),
        ("x/S parse 9 y", 1, 'refused at "y"\n'), ("y/S parse 2 x", 1, "conflicts: 3\n"),
        ("x/S report", 0, REPORT), ("x/S explain", 0, "no conflicts\n"), ("y/S explain", 1, EXPLAINED),
        ("z/S parse 2 x", 2, ""), ("z/S report", 2, ""),
    )
]


def data_of(count, lookahead):
    """The data of so many equal productions, each two of which are in conflict."""
    numbers = range(count)
    actions = [{"reduce": it, "items": [{"production": it, "dot": 1, "examples": [EXAMPLE]}]} for it in numbers]
    first, last = ([{"production": it, "dot": dot, "lookahead": lookahead} for it in numbers] for dot in (0, 1))
    reductions = [{"production": it, "lookahead": 0} for it in numbers]
    conflicts = [{"state": 1, "lookahead": 0, "actions": it} for it in itertools.combinations(actions, 2)]
    return json.dumps({
        "format": "lrshow", "version": 3, "start": "S", "terminals": ["x"],
        "productions": [{"number": it, "nonterminal": "S", "symbols": [{"terminal": "x"}]} for it in numbers],
        "sets": [[None]],
        "states": [
            {"number": 0, "items": first, "shifts": {"x": 1}, "gotos": {}, "reductions": []},
            {"number": 1, "items": last, "shifts": {}, "gotos": {}, "reductions": reductions},
        ],
        "conflicts": conflicts,
        "causes": [{"conflicts": [it], "search": "cut", "derivations": []} for it in range(len(conflicts))],
    })


def replay(command, files, texts, cases, name, old, new):
    """Runs a command over stored cases. In one of the files the first such text is another."""
    stored = {"grammars": [{"file": it, "text": text} for it, text in texts.items()], "cases_g": cases}
    files |= {f"{it}.jsonl": "".join(json.dumps(row) + "\n" for row in rows) for it, rows in stored.items()}
    files[name] = files[name].replace(old, new, 1)
    return run_over(files, command.main, "ROOM/program", "ROOM")


def by_lrtab(old="", new=""):
    with mock.patch.dict(os.environ, LALRPOP_LANE_TABLE="x"):
        return replay(lrtab, {"program": LRTAB, "count": "3\n"}, {"g": TEXT}, CASES, "cases_g.jsonl", old, new)


def by_lrshow(command, old="", new="", name="x.lanes"):
    files = {"program": LRSHOW}
    for method, lookahead in (("lanes", None), ("disabled", 0)):
        files[f"program.x.{method}"] = f"0\n\n{data_of(1, lookahead)}"
        files[f"program.y.{method}"] = f"1\n\n{data_of(3, lookahead)}"
        files[f"program.z.{method}"] = f"2\n{FAULT}"
    return replay(command, files, TEXTS, DATA_CASES, f"program.{name}", old, new)


class Replay(CommandTest):
    def test_cases(self):
        letter = r"g/S report/Canonical: stdout, line 2: expected 'S =\rby Disabled', got 'S =\rby disabled'"
        self.check(by_lrtab, (
            ("all agree", 0, "replayed: 3 agree, 0 differ"),
            ("how many of a kind", 0, "report by Canonical: 1 of 1 agree"),
            ("a changed letter", 1, f"differs: {letter}", "by d", "by D"),
            ("a changed line end", 1, "differs: g/S report/Lane: stdout, line 1: expected", r"\r\n", r"\n"),
            ("a lost line", 1, "differs: g/S loud/Lane: stderr, line 1: expected", r"S is loud\n", ""),
            ("a changed status", 1, "g/S loud/Lane: status: expected 1, got 2", '"status": 2', '"status": 1'),
            ("a lost case", 1, "there are 2 cases, but the file count says 3", json.dumps(CASES[2]), ""),
            ("a name twice", 1, "two cases are named g/S report/Lane", "report/Canonical", "report/Lane"),
            ("how many differ", 1, "replayed: 2 agree, 1 differ", "by d", "by D"),
        ))

    def test_cases_of_lrshow(self):
        """The command has its own folder, which is whole. It passes a given program and folder on."""
        cases, grammars = lrtab.read_cases(lrshow.CASES)
        self.assertEqual(lrtab.faults_of(lrshow.CASES, cases), [])
        self.assertEqual({it["file"] for it in cases}, set(grammars))
        files = {"program": LRTAB, "count": "3\n"}
        with mock.patch.dict(os.environ, LALRPOP_LANE_TABLE="x"):
            status, printed = replay(lrshow, files, {"g": TEXT}, CASES, "cases_g.jsonl", "", "")
        self.assertIn("replayed: 3 agree, 0 differ", printed)
        self.assertEqual(status, 0)

    def test_parses(self):
        """Right data, data that parse otherwise, texts that are no data, and other results."""
        data, three = data_of(1, None), data_of(3, None)
        no_shift = """x/S parse 2 x/Lane: stdout, line 1: expected '[S: "x"]', got 'refused at "x"'"""
        no_limit = "x/S parse 1 x/Lane: stdout, line 1: expected 'limit', got ''"
        # (the third conflict and all after it, and the same without that conflict and its cause)
        third = three[three.rindex(', {"state"') :]
        alone = third[third.index('], "causes"') :]
        two = alone[: alone.rindex(', {"conflicts"')] + "]}"
        self.check(lambda *change: by_lrshow(by_data, *change), (
            ("right data", 0, "parse by the data of 6 tables: 10 agree, 0 differ"),
            ("a dropped shift", 1, no_shift, '{"x": 1}', "{}"),
            ("a reduction on another token", 1, "refused at Eof", "[null]", '["x"]'),
            ("one conflict fewer", 1, "expected 'conflicts: 3', got 'conflicts: 2'", third, two, "y.lanes"),
            ("a conflict without a cause", 1, "causes of the conflicts", third, alone, "y.lanes"),
            ("broken JSON", 1, "x/S parse 1 x/Lane: no JSON: ", data, data[:-1]),
            ("a quote too many", 1, "no JSON: ", '"x"', '"x""'),
            ("a control character", 1, "no JSON: ", '"x"', '"\x01"'),
            ("no text at all", 1, "no JSON: ", data, ""),
            ("a status of conflicts", 1, "the status and the data differ", "0", "1"),
            ("text on standard error", 1, "standard error: 'so", "\n\n", "\nso\n"),
            ("a signal's status", 1, no_limit, f"0\n\n{data}", "139\n\n"),
            ("another fault", 1, "z/S parse 2 x/Lane: stderr, line 1: expected 'line 1", "line 1", "line 2", "z.lanes"),
            ("a text beside a fault", 1, "standard output with status 2", FAULT, f"{FAULT}so", "z.lanes"),
        ))

    def test_listings(self):
        """Right data, data that refer to nothing, and data that list something else."""
        items, reductions = '1, "lookahead": null', '[{"production": 0, "lookahead": 0}]'
        canonical, lane, example = data_of(1, 0), data_of(1, None), json.dumps(EXAMPLE)
        self.check(lambda *change: by_lrshow(report_of_data, *change), (
            ("right data", 0, "report and explain by the data of 6 tables: 8 agree, 0 differ"),
            ("another version", 1, "another format", '"version": 3', '"version": 2'),
            ("a member more", 1, "the whole has other members", '"version"', '"more": 2, "version"'),
            ("a member twice", 1, "a member stands twice", '"version"', '"start": 1, "version"'),
            ("a number that is none", 1, "NaN is no JSON", '"number": 1', '"number": NaN'),
            ("another number of a state", 1, "state 1 has number 2", '"number": 1', '"number": 2'),
            ("an edge to no state", 1, "an edge to no state", '"x": 1', '"x": 2'),
            ("a shift of no terminal", 1, "shifts ['x', 'y']", '"x": 1', '"x": 1, "y": 1'),
            ("an item of no production", 1, "no production 7", '0, "dot": 1', '7, "dot": 1'),
            ("a dot after the end", 1, "dot 2 of 1", '"dot": 1', '"dot": 2'),
            ("an unknown token", 1, "tokens ['y']", '[[null]]', '[["y"]]'),
            ("tokens in another order", 1, "tokens [None, 'x']", '[[null]]', '[[null, "x"]]'),
            ("an unknown terminal", 1, "unknown symbol 'y'", '{"terminal": "x"}', '{"terminal": "y"}'),
            ("a number of two productions", 1, "a production's number twice", '"number": 2', '"number": 0', "y.lanes"),
            ("a token fewer", 1, """expected '        lookahead "x" Eof', got""", items, '1, "lookahead": 0'),
            ("a reduction fewer", 1, "stdout, line ", reductions, "[]", "x.disabled"),
            ("a set that nothing names", 1, "sets [0] of nothing", reductions, "[]"),
            ("a number of no set", 1, "no set 1", items, '1, "lookahead": 1'),
            ("another kind of shift", 1, "stdout, line ", '"gotos": {}', '"gotos": {"S": 1}'),
            ("a conflict in no state", 1, "no state 2", '"state": 1', '"state": 2', "y.lanes"),
            ("a conflict in another state", 1, "no reduction by 0", '"state": 1', '"state": 0', "y.lanes"),
            ("four examples", 1, "4 examples", example, ", ".join(4 * [example]), "y.lanes"),
            ("an example moved", 1, "stdout, line 3", '"place": 0', '"place": 1', "y.lanes"),
            ("an example lost", 1, "stdout, line 3", example, "", "y.lanes"),
            ("one method for both", 1, "x/S report/Canonical: stdout, line 15", canonical, lane, "x.disabled"),
        ))

    def test_the_parser_by_itself(self):
        for limit, status, text in (("2", 0, '[S: "x"]\n'), ("1", 1, "limit\n")):
            with self.subTest(limit):
                words = [sys.executable, f"{ROOT}/examples/parse_by_tables.py", limit, "x"]
                ran = subprocess.run(words, input=data_of(1, None), capture_output=True, encoding="utf-8")
                self.assertEqual((status, text), (ran.returncode, ran.stdout), ran.stderr)
