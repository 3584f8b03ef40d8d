"""Tests of the hostile runs, by scripts in the place of programs, and of the check of `lrtab`."""
import unittest

from gate.hostile import trials, verdicts
from gate.hostile.command import main
from gate.hostile.shown_verdicts import LRSHOW
from gate.hostile.verdicts import LRTAB, Answer
from gate.tests.programs import program, ran
from gate.tests.test_shown import CONFLICT, REPORT, TWICE_REPORT

ONE, TWO = 'S = "x"\n', 2 * 'S = "x"\n'
SUMS = 'S = E\nE = E "-" T\nE = T\nT = "N"\nT = "(" E ")"\n'
SUM = '[S: [E: [E: [T: "N"]], "-", [T: "N"]]]'
MARKED = 'S = A "x"\nA = B\ninline A\ninline C\nC = D "y"\ninline D\nD = C\nB = "b"\ninline B\n'
NULLABLE = 'S = E "x"\nE = B E "y"\nE = "z"\nB =\n'
PART = 'conflict {} in state {} on "z"\n  reduce B ->\n    (*) E "y"\n  shift "z"\n'
EXPLAINED = PART.format(1, 0) + PART.format(2, 1) + '    B (*) "z" "y"\n' + PART.format(3, 4) + '    B (*) "z" "y"\n'
# Texts, words, a status, and a text, which is on standard error for status 2 and 3.
RIGHT = (
    ('S = "x\ry" S\nS = "\u00a0" S\nS =', "S parse 9 x\ry \u00a0", 0, '[S: "x\ry", [S: "\u00a0", [S: ]]]'),
    *((SUMS, *it) for it in (
        ("S parse 9 N - N", 0, SUM), ("S parse 8 N - N", 0, SUM), ("S parse 7 N - N", 1, "limit"),
        ("S parse 9 N )", 1, 'refused at ")"'), ("S parse 9 N -", 1, "refused at Eof"),
        ("S parse 9 ?", 1, 'refused at "?"'), ("X parse 9", 1, "refused at Eof"), ("X parse 0 N", 1, 'refused at "N"'),
        ("E parse 9 N - N", 1, "refused at Eof"), ("S explain", 0, "no conflicts"),
        *((words, 2, LRTAB.usage) for words in (
            "S parse", "S parse +2 N", "5 parse 2 N", "S parse 18446744073709551616", "S reports", "S report N", "")),
    )),
    ('S = "x"', "S parse 2 x", 0, '[S: "x"]'), ('S = "x"', "S parse 1 x", 1, "limit"), ("S =", "S parse 1", 0, "[S: ]"),
    ('S = "x"\nS = "x"', "S parse 2 x", 1, "conflicts: 1"),
    ('S = A "x"\nA = "b"\ninline A', "S parse 0003 b x", 0, '[S: "b", "x"]'),
    ('S "x"', "S parse 2 x", 2, "line 1: not a grammar line"),
    ('\nS = x"', "S parse 2 x", 2, "line 2: not a grammar line"),
    (MARKED, "S report", 2, "cyclic inline of D"),
    (ONE, "S report", 0, REPORT), (TWO, "S report", 1, TWICE_REPORT), (NULLABLE, "S explain", 1, EXPLAINED),
    (NULLABLE.replace("z", "\u00a0"), "S explain", 1, EXPLAINED.replace('"z"', '"\u00a0"')),
)
# The same with answers that are not right, and a part of the reason.
SPOILT = (
    *((SUMS, "S parse 8 N - N", *it) for it in (
        (0, SUM.replace('[T: "N"]]]', '[T: "M"]]]'), "no rule has the node"),
        (0, '[S: [E: [T: "N"]]]', "the leaves are"), (0, '[E: [T: "N"]]', "the root is not S"),
        (0, SUM[:-1], "no tree"), (0, f"{SUM}]", "no tree"), (0, SUM.replace(", ", " , "), "no tree"),
        (0, "yes", "no tree"), (1, "limit", "expected a tree"), (1, 'refused at "N"', "expected a tree"),
        (1, "a tree", "expected a tree"), (1, SUM, "expected a tree"),
        (1, "conflicts: 0", "no conflicts, but a number of them"),
    )),
    (SUMS, "S parse 7 N - N", 0, SUM, "the limit is 7"),
    (SUMS, "S parse 9 N - - N", 1, "refused at Eof", 'expected refused at "-"'),
    (SUMS, "E parse 9 N ? N", 1, 'refused at "M"', 'expected limit or refused at "N" or refused at "?"'),
    ("S\nS", "S report", 2, "line 2: not a grammar line", "'line 1: not a grammar line'"),
    (MARKED, "S report", 2, "cyclic inline of A", "'cyclic inline of C' or 'cyclic inline of D'"),
    ('S = "x"', "S explain", 3, "out of memory", "status 0 or 1"),
    ('S = "x"\nS = "y"', "S parse 2 x", 1, "conflicts: 1", "no two productions of a name begin alike"),
    ('S = A\nA = "x"\nS = A', "S explain", 0, "no conflicts", "are the same"),
    *((ONE, "S report", 0, REPORT.replace(old, new), reason) for old, new, reason in (
        ("2 states", "3 states", "the summary is not"), ("Summary", "Sumary", "the summary is not"),
        ("goto 1", "goto 0", "the edge by"), ("goto 1", "goto 2", "edges"),
        ('"x" shift', '"x"  shift', "state 0 is not laid out"), ("lookahead Eof", 'lookahead Eof "x"', "lookahead"),
        ("lookahead Eof\n\n\n}", "lookahead Eof\n\n}", "state 1 is not as it should be"),
        ('. "x"', '. "y"', "no rule has the item"), ("State 1 {", "State 2 {", "state 1 is not as it should be"),
        ("\n\n    reduction", "\n    reduction", "state 1 is not as it should be"),
        ("State Table", "State Tables", "no state table"),
    )),
    *((TWO, "S report", 1, TWICE_REPORT.replace(old, new), reason) for old, new, reason in (
        ("Has 1", "Has 2", "the summary is not"), ("conflicts:  1", "conflicts:  0", "the summary is not"),
        ("    reduce/reduce: 1\n", "", "the summary is not"), (CONFLICT, "}\n", "or has other conflicts"),
    )),
    (TWO, "S report", 0, TWICE_REPORT, "are the same"),
    *((NULLABLE, "S explain", 1, EXPLAINED.replace(old, new), reason) for old, new, reason in (
        ("conflict 2", "conflict 3", "conflict 2 is conflict 3 in state 1"),
        ("state 4", "state 0", "conflict 3 is conflict 3 in state 0"), ("reduce B ->", "reduce B -> E", "no such rule"),
        ("(*) E", "(*) F", "unknown symbol F"), ("    (*) E", "    (*)  E", "conflict 1 is not as it should be"),
        ('    (*) E "y"\n', 4 * '    (*) E "y"\n', "4 examples"),
        ('shift "z"', 'shift "y"', "conflict 1 is on other tokens"),
    )),
)
REFUSED, OTHER, LIMIT = (Answer(1, it, b"") for it in (b"refused at Eof\n", b'refused at "-"\n', b"limit\n"))
NONE = "none ended by a signal, hung, or answered outside docs/FORMATS.md"
CHAIN, PRINTS_X = "--only marked_chain", """printf '[S: "x"]\\n'"""
LIMITED = f'test "$(ulimit -s) $(ulimit -v)" = "1024 4194304" && {PRINTS_X}'


def first_run(prefix, of, is_wanted):
    """The first random run whose expected faults and request are as wanted, and the faults."""
    for run in (f"{prefix}{number}" for number in range(5_000)):
        case = trials.case_of(run)
        lines, request, _ = verdicts.faults_of(of, case.text, case.words)
        if is_wanted(lines, request):
            return run, *lines
    return None


FAULTY, LINE = first_run("", LRTAB, lambda lines, _: lines and lines[0].startswith("line "))
PARSE, = first_run("", LRTAB, lambda lines, request: not lines and request.task == "parse")
SHOWN, = first_run("shown_", LRSHOW, lambda lines, request: not lines and request.task == "json")
# Runs on a text of standard input that is not UTF-8, and of `lrtab` with the same sign, which names no file.
INPUT, _ = first_run("shown_", LRSHOW, lambda lines, request: lines == ["cannot read -"])
SIGN, _ = first_run("", LRTAB, lambda lines, request: lines == ["cannot read -"])
# Scripts, words, a status, and a part of what is printed.
RUNS = (
    (PRINTS_X, CHAIN, 0, f"0 random runs and 2 deep ones: {NONE}"),
    (LIMITED, CHAIN, 0, NONE),
    (LIMITED.replace("1024", "8192"), "--only marked_chain_by_a_large_stack", 0, NONE),
    (f'test "$(ulimit -v)" = 65536 && {PRINTS_X}', "--only empty_lines", 0, NONE),
    ('test "$(ulimit -t)" = 10 && echo "conflicts: 49995000"; exit 1', "--only equal_lines", 0, NONE),
    ("while :; do :; done", "--only 7 --seconds 1", 1, "random run 7 by Lane: "),
    (f"echo '{LINE}' >&2; exit 2", f"--only {FAULTY}", 0, f"2 random runs and 0 deep ones: {NONE}"),
    ("kill -SEGV $$", "--only 7", 1, "random run 7 by Lane: ended by signal 11"),
    ("kill -SEGV $$", CHAIN, 1, "deep run marked_chain by Canonical: ended by signal 11"),
    ("exec sleep 60", "--only 7 --seconds 0.5", 1, "random run 7 by Lane: no end within its time"),
    ("echo yes", f"--only {PARSE}", 1, f"random run {PARSE} by Canonical: "),
    ("exec yes", f"--only {PARSE}", 1, "ended by signal 25"),
    (PRINTS_X.replace("x", "y"), CHAIN, 1, "standard output from place 5 on: expected b'x\"]"),
    ("echo 'line 99999: not a grammar line' >&2; exit 2", f"--only {FAULTY}", 1, repr(LINE)),
    ("exit 9", f"--only {FAULTY}", 1, f"tools/run hostile --show {FAULTY}"),
    (PRINTS_X, "--only shown_long_name_as_json", 1, "deep run shown_long_name_as_json by Lane: no JSON"),
    ("echo 'cyclic inline of a0' >&2; exit 2", "--only shown_marked_ring marked_ring", 0,
     f"0 random runs and 4 deep ones: {NONE}"),
    ("kill -SEGV $$", "--only shown_7", 1, "random run shown_7 by Lane: ended by signal 11"),
    ("echo yes", f"--only {SHOWN}", 1, f"random run {SHOWN} by Canonical: no JSON"),
    (f'test "$LALRPOP_LANE_TABLE" = disabled && exit 9; {PRINTS_X}', CHAIN, 1,
     "0 random runs and 2 deep ones: 1 ended by a signal"),
    ('echo "cannot read $1" >&2; exit 2', f"--only {INPUT}", 0, f"6 random runs and 0 deep ones: {NONE}"),
    ('[ "$1" = g ] || cmp -s - g && echo "cannot read $1" >&2; exit 2', f"--only {INPUT}", 0, NONE),
    ('[ "$1" = - ] && echo "cannot read -" >&2; exit 2', f"--only {INPUT}", 1,
     "for standard input it answers otherwise than for the file"),
    ('echo "cannot read $1" >&2; exit 2', f"--only {SIGN}", 0, f"2 random runs and 0 deep ones: {NONE}"),
    ('[ "$1" = - ] && cat; exit 2', f"--only {SIGN}", 1, "expected status 2 and on standard error 'cannot read -'"),
    ('[ "$1" = - ] && wc -l <&0 | grep -q 5000000 && echo "0 conflicts of 0 causes"',
     "--only shown_empty_lines_of_standard_input", 0, NONE),
    ("exit 0", "--only nothing", 2, "no run is nothing; the deep ones are equal_lines, "),
    ("exit 0", "--show marked_chain", 0, "b'inline a15999\\n'"),
    ("exit 0", f"--show {PARSE}", 0, "words: b'g' "),
)


def fault_of(text, words, status, output, errors):
    given = [it.encode() for it in ["g", *words.split(" ")]]
    return verdicts.fault_of(text.encode(), given, Answer(status, output.encode(), errors.encode()))


class Judgement(unittest.TestCase):
    def test_answers_of_lrtab(self):
        for text, words, status, output, *reason in (*RIGHT, *SPOILT):
            output = output if output.endswith("\n") else f"{output}\n"
            with self.subTest(text=text, words=words, output=output):
                fault = fault_of(text, words, status, *((output, "") if status < 2 else ("", output)))
                self.assertIn(reason[0], fault) if reason else self.assertIsNone(fault)

    def test_streams_and_line_ends(self):
        for words, status, output, errors, reason in (
            ("S parse 8 N - N", 0, f"{SUM}\n", "x", "standard output"),
            ("S parse 8 N - N", 3, f"{SUM}\n", "", "status 0 or 1"), ("S parse 8 N - N", 0, SUM, "", "no line end"),
            ("S parse", 2, f"{LRTAB.usage}\n", "", "expected status 2"),
        ):
            self.assertIn(reason, fault_of(SUMS, words, status, output, errors))

    def test_difference_of_methods(self):
        conflicts = Answer(1, b"conflicts: 2\n", b"")
        for lane, canonical, reason in (
            (REFUSED, REFUSED, None), (LIMIT, REFUSED, None), (REFUSED, LIMIT, "answer differently"),
            (REFUSED, OTHER, "answer differently"), (conflicts, REFUSED, "report different conflicts"),
        ):
            found = verdicts.difference_of(SUMS.encode(), b"g S parse 9 N -".split(), lane, canonical)
            self.assertEqual(found, f"the two methods {reason}" if reason else None)


class Command(unittest.TestCase):
    def test_scripts_in_the_place_of_both_programs(self):
        for script, words, *expected in RUNS:
            with self.subTest(script=script, words=words), program(script) as path:
                status, said = ran(main, path, path, *words.split())
                self.assertEqual(status, expected[0], said)
                self.assertIn(expected[1], said)

    def test_missing_program(self):
        self.assertEqual(ran(main, "/nowhere", "--only", "7")[0], 2)
