"""Tests of the replay by parse tables, by shell scripts in the place of both programs."""
import json

from gate.hostile import deep
from gate.replay import by_table
from gate.tests.programs import CommandTest, run_over
from gate.tests.test_replay import FAULT, case

# Each of both programs: that of `g` has one sentence, `é a`. It needs a small stack.
SCRIPT = """#!/bin/sh
[ "$(ulimit -s)" = 1024 ] || exit 9
case "$1" in
deep) echo '[S: "x"]'; exit ;;
conflicts) echo "conflicts: 3"; exit 1 ;;
right) [ $3 = parse ] || { echo '"a"'; exit; }; echo "refused at Eof"; exit 1 ;;
fault) echo "line 1: not a grammar line" >&2; exit 2 ;;
esac
verb=$3
shift 4
for it in é a; do
    if [ "$#$verb" = 0expected ]; then echo "\\"$it\\""; exit; fi
    [ $# -gt 0 ] || { echo "refused at Eof"; exit 1; }
    [ "$1" = $it ] || { echo "refused at \\"$1\\""; exit 1; }
    shift
done
[ $# = 0 ] || { echo "refused at \\"$1\\""; exit 1; }
[ $verb = parse ] || { echo Eof; exit; }
echo '[S: "é", "a"]'
"""
GRAMMARS = {"g": 'S = "é" "a"\n', "conflicts": 'S = "x"\n' * 3, "right": 'S = "a" S', "fault": "S"}
CASES = [
    case(f"{name}/{method}", status, stdout, FAULT if status == 2 else "")
    for method in ("Lane", "Canonical")
    for name, status, stdout in (
        ("g/S parse 9 é a", 0, '[S: "é", "a"]\n'), ("g/S parse 9 é b", 1, 'refused at "b"\n'),
        ("g/S parse 9 a é", 1, 'refused at "a"\n'), ("g/S report", 0, "a report\n"),
        ("conflicts/S parse 9 x", 1, "conflicts: 3\n"), ("right/S parse 9", 1, "refused at Eof\n"),
        ("fault/S parse 9 x", 2, ""),
    )
]
DEEP = {"one": lambda: deep.trial("", "S parse 9 x", deep.ONE_LEAF, file="deep")}
# What is printed after the shift of the first four words, for the words `é é`.
SECOND = '[ "$*" != "é é" ] || {{ echo \'{}\'; exit 1; }}\n'


def by_scripts(name="program", old="", new=""):
    """Runs the command. In one of the files the first such text is another."""
    rows = {"grammars": [{"file": file, "text": text} for file, text in GRAMMARS.items()], "cases_g": CASES}
    files = {f"{it}.jsonl": "".join(json.dumps(row) + "\n" for row in more) for it, more in rows.items()}
    files |= {"program": SCRIPT, "lrtab": SCRIPT}
    files[name] = files[name].replace(old, new, 1)
    return run_over(files, lambda words: by_table.main(words, DEEP), "ROOM/program", "ROOM/lrtab", "ROOM")


class ByTable(CommandTest):
    def test_right_programs(self):
        self.check(by_scripts, (
            ("the cases", 0, "parse cases by table: 12 agree, 0 differ\n"),
            ("each method", 0, "parse by Canonical: 6 of 6 agree\n"),
            ("the deep run", 0, "deep runs by table: 1 agree, 0 differ\n"),
            ("the expected tokens", 0, "expected tokens by table: 14 agree, 0 differ\n"),
            ("lists", 0, "lists: 8 that are read, 6 others, of 4 tables\n"),
            ("lists without a clause", 0, "start symbol on a right side: 2 lists, of 2 tables\n"),
            ("each parse once", 0, "parses by lrtab: 22\n"),
        ))

    def test_wrong_programs(self):
        """A program that parses otherwise, that expects other tokens, and that prints something else."""
        tree, token, end = '[S: "é", "a"]', 'echo "\\"$it\\""; exit', "echo Eof; exit"
        refused = 'echo "refused at \\"$1\\""'
        self.check(lambda *change: by_scripts("program", *change), (
            ("another tree", 1, "differs: g/S parse 9 é a/Lane: stdout, line 1", tree, '[S: "é" "a"]'),
            ("another refusal", 1, "differs: g/S parse 9 é b/Canonical: stdout", refused, 'echo "refused at Eof"'),
            ("a refusal after the list", 1, "expected by Lane for S of g after é b: stdout", refused, "echo Eof"),
            ("another number", 1, "differs: conflicts/S parse 9 x/Lane: stdout", "conflicts: 3", "conflicts: 2"),
            ("another status", 1, "fault/S parse 9 x/Lane: status: expected 2, got 3", "exit 2", "exit 3"),
            ("another deep tree", 1, "differs: deep run one: standard output from place 5 on", '"x"', '"y"'),
            ("a deep run's signal", 1, "differs: deep run one: expected status 0", "exit ;;", "kill -SEGV $$ ;;"),
            ("no token", 1, "expected by Lane for S of g after nothing: stdout, line 1: expected", token, "exit"),
            ("without a clause", 1, "for S of right after nothing: stdout, line 1: expected '\"a\"', got ''",
             "echo '\"a\"'; exit", "exit"),
            ("a token more", 1, "after é: stdout, line 2: expected '', got 'Eof'", token, f"{token[:-4]} {end}"),
            ("no end", 1, "after é a: stdout, line 1: expected 'Eof', got ''", end, "exit"),
            ("the end twice", 1, "after é a: stdout, line 2: expected '', got 'Eof'", end, f"echo Eof; {end}"),
            ("a status", 1, "after é a: status: expected 0, got 1", end, f"{end} 1"),
            ("an error", 1, "after é a: stderr, line 1: expected '', got 'so'", end, f"echo so >&2; {end}"),
            ("how many differ", 1, "expected tokens by table: 12 agree, 2 differ\n", end, "exit"),
        ))

    def test_wrong_trials(self):
        """Parses by `lrtab` that are others than those by the table, or that say nothing."""
        self.check(lambda *change: by_scripts("lrtab", *change), (
            ("a limit without a clause", 0, "left out: 2 lists of which a trial reaches the limit\n",
             'echo "refused at Eof"', "echo limit"),
            ("a longer sentence", 1, "after é a: stdout, line 1: expected '\"a\"', got 'Eof'", "[ $# = 0 ] ||", ": ||"),
            ("a limit", 1, "after é: lrtab prints b'limit\\n' for ", "shift 4\n", f"shift 4\n{SECOND.format('limit')}"),
            ("an earlier refusal", 1, "after é: lrtab refuses \"a\" before \"é\" after ('é',)", "shift 4\n",
             "shift 4\n" + SECOND.format('refused at "a"')),
            ("a signal", 1, "after é a: lrtab prints b'' for ", "echo '[S: \"é\"", "kill -SEGV $$; echo '[S: \"é\""),
        ))

    def test_other_cases(self):
        """A start symbol that is no longer on a right side, and no cases at all."""
        grammars, cases = GRAMMARS["right"], "".join(json.dumps(it) + "\n" for it in CASES)
        self.check(by_scripts, (
            ("a start symbol on no right side", 0, "start symbol on a right side: 0 lists, of 0 tables\n",
             "grammars.jsonl", json.dumps(grammars), json.dumps('S = "a" T')),
            ("no cases", 1, "parse cases by table: 0 agree, 0 differ\n", "cases_g.jsonl", cases, ""),
            ("no tables", 1, "lists: 0 that are read, 0 others, of 0 tables\n", "cases_g.jsonl", cases,
             json.dumps(case("fault/S parse 9 x/Lane", 2, "", FAULT)) + "\n"),
        ))
