"""Tests of the check of answers of `lrshow`, by answers that are right or spoilt."""
import json
import unittest

from gate.hostile import shown_verdicts
from gate.hostile.shown_verdicts import LRSHOW, asked_of_lrshow
from gate.hostile.verdicts import Answer
from gate.shown import graph, parsers
from gate.tests.test_shown import (
    ACROSS, DATA, GRAPH, PAGE, SPOILT_DATA, SPOILT_GRAPHS, SPOILT_PAGES, TWICE, TWICE_DRAWN, page_of,
)

ONE, TWO, RING = 'S = "x"', 2 * 'S = "x"\n', "S = S\ninline S"
TAG, TAGS = DATA.replace('"x"', '"</script>"'), DATA.replace('"x"', '"</script><script>"')
UNREDUCED = DATA.replace('[{"production":0,"lookahead":0}]', "[]").replace("[[null]]", "[]")
MANY = "1 edges: --around STATE shows one state and its neighbours, --conflicts the paths to conflicts\n"
# What is written in the other forms.
COLLIDES = 'reduce/reduce conflict on Eof in state 1: reduce S = "x", or reduce S = "x"'
CAUSE = f"g:1:1: warning: {COLLIDES}; see `lrshow FILE START conflicts`\n"
WARNED = f"g:2:5: warning: the right side is that of line 1; leave one of the two out\n{CAUSE}"
WARNED_JSON = (
    '[{"severity":"warning","line":2,"column":5,"start":12,"end":15,"message":"the right side is that of line 1",'
    '"hint":"leave one of the two out"},\n{"severity":"warning","line":1,"column":1,"start":0,"end":1,"message":'
    f'{json.dumps(COLLIDES)},"hint":"see `lrshow FILE START conflicts`"}}]\n'
)
FAULT = 'g:1:3: error: `"x"` is in the place of "="; a production is a name, "=" and symbols\n'
CIRCLE = (
    "g:1:1: error: `S` would have to be inlined into itself; leave a mark out\n"
    "g:1:1: warning: `S` derives no list of terminals; write a production without it\n"
    "g:1:1: warning: `S` derives itself: `S` `S`; leave out the production that leads back\n"
    "g:1:5: warning: `S` is on a right side; add a start symbol that is on none\n"
)
CAUSES = (
    "1 conflict of 1 cause\ncause 1: reduce/reduce on Eof in state 1\n" + 2 * '  reduce     S = "x"\n'
    + "  two derivations of S:\n" + 2 * '    [S: "x" (*)]\n'
)
TREE, LATE = 'S\n  "x"\n', 'token 1, "y", is wrong; expected: "x"\n'
TREE_GRAPH = (
    'digraph tree {\n  node [shape=box fontname=monospace];\n  0 [label="S"];\n  1 [label="\\"x\\"" shape=plaintext];\n'
    "  0 -> 1;\n}\n"
)
NO_STATES = ACROSS[: ACROSS.index("  0 [")] + "}\n"
TWICE_ACROSS = TWICE_DRAWN.replace("  0 [", "  rankdir=LR;\n  0 [", 1)
LONE = ACROSS[: ACROSS.index("  1 [")] + "}\n"


def of_file(text, name):
    """The lines of a check, of another file."""
    return "".join(f"{name}{it[1:]}" for it in text.splitlines(True))


def literal(text, shown):
    """A graph for the literal "x", of another one."""
    return text.replace("x&quot;", f"{shown}&quot;")


# Texts, words, a status, what is on standard output and on standard error, the data that are
# written where they are asked for, and a part of the reason where the answer is spoilt.
ANSWERS = (
    (ONE, "S json", 0, DATA, "", DATA), (TWO, "S json", 1, TWICE, "", TWICE),
    (ONE, "S dot", 0, GRAPH, "", DATA), (TWO, "S dot", 1, TWICE_DRAWN, "", TWICE),
    (ONE, "S html", 0, page_of(DATA), "", DATA), (TWO, "S html", 1, page_of(TWICE), "", TWICE),
    (ONE, "S dot --around 0", 0, ACROSS, "", DATA), (ONE, "S dot --around 001", 0, ACROSS, "", DATA),
    (ONE, "S dot --around 002", 2, "", "no state 2\n", DATA),
    ('S = "</script>"', "S dot", 0, literal(GRAPH, "&lt;/script&gt;"), "", TAG),
    ('S = "</script>"', "S html", 0, page_of(TAG), "", TAG),
    ('S = "\\\\N"', "S dot", 0, literal(GRAPH, "\\\\\\\\N"), "", DATA.replace('"x"', r'"\\\\N"')),
    ('S = "\x01\x7f"', "S dot", 0, literal(GRAPH, "\u2401\u2421"), "", DATA.replace('"x"', '"\\u0001\x7f"')),
    *((ONE, words, 2, "", f"{LRSHOW.usage}\n", "") for words in (
        "S", "S svg", "S dot --around", "S dot --around -1", "S html --around 1", "5 json", "S json 1",
        "S dot --around 1 2")),
    ('S "x"', "S html", 2, "", "line 1: not a grammar line\n", ""), (RING, "S dot", 2, "", "cyclic inline of S\n", ""),
    *((ONE, "S json", 0, DATA.replace(old, new), "", DATA.replace(old, new), reason) for old, new, reason in (
        ('"x":1', '"x":0', "the edge by"), ('"start":"S"', '"start":"A"', "the start symbol A"),
        ('"terminals":["x"]', '"terminals":["x","y"]', "the terminals ['x', 'y']"),
    )),
    (ONE, "S json", 0, UNREDUCED, "", UNREDUCED, "the reductions are not the finished items"),
    *((ONE, "S json", 0, text.replace(old, new, 1), "", text.replace(old, new, 1), reason)
      for text, old, new, reason in SPOILT_DATA),
    *((ONE, "S dot --around 0" if text == ACROSS else "S dot", 0, text.replace(old, new, 1), "", DATA, reason)
      for text, old, new, reason in SPOILT_GRAPHS),
    *((ONE, "S html", 0, page_of(DATA).replace(old, new, 1), "", DATA, reason) for old, new, reason in SPOILT_PAGES),
    ('S = "\\N"', "S dot", 0, literal(GRAPH, "\\N"), "", DATA.replace('"x"', r'"\\N"'), "in place of"),
    (ONE, "S dot --around 2", 0, GRAPH, "", DATA, "expected status 2 and 'no state 2\\n' on standard error"),
    (ONE, "S dot --around 2", 2, GRAPH, "no state 2\n", DATA, "a text on standard output"),
    (ONE, "S dot", 0, GRAPH, MANY, DATA, "expected status 0 and ''"),
    (TWO, "S dot", 1, TWICE_DRAWN.replace('"red"', '"blue"'), "", TWICE, "a label with FONT"),
    (TWO, "S dot", 0, TWICE_DRAWN, "", TWICE, "expected status 1"), (TWO, "S json", 1, DATA, "", DATA, "productions"),
    ('S = "</script><script>"', "S html", 0, PAGE.replace("{}", TAGS, 1), "", TAGS, "the page has ["),
    (ONE, "S html", 3, "", "out of memory\n", DATA, "expected status 0"),
    (ONE, "S check", 0, "", "", DATA), (TWO, "S check", 1, WARNED, "", TWICE), ('S "x"', "S check", 2, FAULT, "", ""),
    (RING, "S check", 2, CIRCLE, "", ""), (ONE, "S check --json", 0, "[]\n", "", DATA),
    (TWO, "S check --json", 1, WARNED_JSON, "", TWICE), (TWO, "./g S check", 1, of_file(WARNED, "./g"), "", TWICE),
    (TWO, "- S check", 1, of_file(WARNED, "-"), "", TWICE), (TWO, "- S json", 1, TWICE, "", TWICE),
    (ONE, "none S check", 2, "", "cannot read none\n", ""), (TWO, "S conflicts", 1, CAUSES, "", TWICE),
    (ONE, "S conflicts", 0, "0 conflicts of 0 causes\n", "", DATA), (ONE, "S tree x", 0, TREE, "", DATA),
    (ONE, "S tree --dot x", 0, TREE_GRAPH, "", DATA), (ONE, "S tree y", 1, "", LATE, DATA),
    (ONE, "S tree", 1, "", 'the input ends too early; expected: "x"\n', DATA),
    (TWO, "S tree x", 1, "", "conflicts: 1\n", TWICE),
    (ONE, "S dot --conflicts", 0, NO_STATES, "no conflicts\n", DATA), (TWO, "S dot --conflicts", 1, TWICE_ACROSS, "", TWICE),
    (ONE, "S dot --around 0 --depth 2", 0, ACROSS, "", DATA), (ONE, "S dot --around 0 --depth 0", 0, LONE, "", DATA),
    (ONE, "S dot --around 2 --depth 3", 2, "", "no state 2\n", DATA),
    (TWO, "S check", 1, WARNED.replace(CAUSE, ""), "", TWICE, "expected one of [('warning', 1, 1"),
    (ONE, "S check", 1, CAUSE, "", DATA, "not [('warning', 1, 1"),
    (TWO, "S check", 1, WARNED.replace("state 1", "state 0"), "", TWICE, "expected one of [('warning', 1, 1"),
    (TWO, "S check", 1, WARNED, "", DATA, "productions"), (TWO, "S check", 0, WARNED, "", TWICE, "the status 0"),
    (TWO, "S check", 1, WARNED, "so\n", TWICE, "a text on standard error"),
    (TWO, "- S check", 1, WARNED, "", TWICE, "another file than -"),
    ('S "x"', "S check", 2, FAULT.replace("1:3", "1:1"), "", "", "expected the errors"),
    ('S "x"', "S check", 2, "", "line 1: not a grammar line\n", "", "a text on standard error"),
    (RING, "S check", 2, CIRCLE.replace("1:1: error", "2:1: error"), "", "", "expected one of [('error', 1, 1"),
    (TWO, "S check --json", 1, WARNED_JSON.replace('"end":15', '"end":12'), "", TWICE, "'warning', 2, 5, 12, 15"),
    (TWO, "S check --json", 1, WARNED_JSON[:-3], "", TWICE, "no JSON"),
    (TWO, "S conflicts", 1, CAUSES.replace("derivations of S:", "derivations of A:"), "", TWICE, "another root"),
    (TWO, "S conflicts", 0, CAUSES, "", TWICE, "expected status 1"),
    (ONE, "S conflicts", 0, CAUSES, "", DATA, "expected 0 conflicts"),
    (ONE, "S tree x", 0, TREE_GRAPH, "", DATA, "expected 0, 'S"),
    (ONE, "S tree --dot x", 0, TREE, "", DATA, "expected 0, 'digraph"),
    (ONE, "S tree x", 1, "", LATE, DATA, "expected 0, 'S"), (ONE, "S tree y", 0, TREE, "", DATA, "expected 1, ''"),
    (TWO, "S tree x", 0, TREE, "", TWICE, "expected 1, ''"),
    (ONE, "S tree y", 1, "", LATE.replace("1", "2"), DATA, "is wrong"),
    (ONE, "S dot --conflicts", 0, ACROSS, "no conflicts\n", DATA, "nodes [0, 1]"),
    (TWO, "S dot --conflicts", 1, TWICE_DRAWN, "", TWICE, "another beginning"),
    (ONE, "S dot --around 0 --depth 0", 0, ACROSS, "", DATA, "nodes [0, 1]"),
    (ONE, "S dot --around 0 --depth 2", 0, LONE, "", DATA, "nodes [0]"),
    (ONE, "- S check", 2, "", "cannot read -\n", DATA, "a text on standard error"),
    *((ONE, words, 2, "", f"{LRSHOW.usage}\n", "") for words in (
        "S check 0", "S check --json --json", "S conflicts 0", "S trees", "S dot --depth 1", "S dot --around 0 --depth",
        "S dot --around 0 --depth x", "S dot --depth 1 --around 0", "S dot --conflicts 0")),
)
# Words after FILE and START, and what they ask for.
ASKED = (
    ("json", ("json", None, [])), ("html", ("html", None, [])), ("conflicts", ("conflicts", None, [])),
    ("check", ("check", None, [])), ("check --json", ("check --json", None, [])),
    ("tree", ("tree", None, [])), ("tree a b", ("tree", None, ['"a"', '"b"'])),
    ("tree a --dot", ("tree", None, ['"a"', '"--dot"'])), ("tree --dot", ("tree --dot", None, [])),
    ("tree --dot --dot a", ("tree --dot", None, ['"--dot"', '"a"'])), ("dot", ("dot", None, [])),
    ("dot --conflicts", ("dot", graph.CONFLICTS, [])), ("dot --around 007", ("dot", 7, [])),
    ("dot --around 7 --depth 01", ("dot", 7, [])), ("dot --around 7 --depth 0", ("dot", graph.Near(7, 0), [])),
    ("dot --around 7 --depth 12", ("dot", graph.Near(7, 12), [])),
    ("c", ("c", parsers.Options(), [])), ("rust", ("rust", parsers.Options(), [])),
    ("python", ("python", parsers.Options(), [])), ("c --prefix calc", ("c", parsers.Options("calc"), [])),
    ("rust --augment", ("rust", parsers.Options("lr", True), [])),
    ("c --prefix a --augment", ("c", parsers.Options("a", True), [])),
    ("c --augment --prefix a --prefix b", ("c", parsers.Options("b", True), [])),
    *((words, None) for words in (
        "c calc", "c --prefix", "c --prefix 9", "c --prefix a b", "rust --prefix calc", "python x", "C",
        "c --augment x", "c --augment --prefix", "rust --augment --prefix a", "json --augment",
        "svg", "json x", "html x", "conflicts x", "check x", "check --json x", "check --json --json", "dot x",
        "dot --around", "dot --around x", "dot --around -1", "dot --around 18446744073709551616", "dot --around 7 8",
        "dot --around 7 --depth", "dot --around 7 --depth x", "dot --around 7 --depth 1 2", "dot --around 7 --around 7",
        "dot --depth 1", "dot --depth 1 --around 7", "dot --conflicts 7", "dot --conflicts --around 7",
        "dot --around 7 --conflicts", "Tree a")),
)


class Judgement(unittest.TestCase):
    def test_answers_of_lrshow(self):
        for text, words, status, output, errors, data, *reason in ANSWERS:
            answer = Answer(status, output.encode(), errors.encode())
            data = Answer(1 if '"actions"' in data else 0, data.encode(), b"")
            with self.subTest(text=text, words=words, output=output, errors=errors):
                file = "" if words.split(" ")[0] in ("-", "./g", "none") else "g "
                given = [it.encode() for it in (file + words).split(" ")]
                fault = shown_verdicts.fault_of(text.encode(), given, answer, data)
                self.assertIn(reason[0], fault) if reason else self.assertIsNone(fault)

    def test_words(self):
        for words, expected in ASKED:
            task, *others = words.split(" ")
            self.assertEqual(asked_of_lrshow(task, others), expected, words)

    def test_standard_input(self):
        for words, outputs, errors in (
            ("check", (WARNED, of_file(WARNED, "-")), ("", "")), ("check --json", 2 * (WARNED_JSON,), ("", "")),
            ("json", (DATA, DATA), ("", "")), ("json", ("", ""), ("cannot read g\n", "cannot read -\n")),
            ("tree y", ("", ""), (LATE, LATE)), ("json", ("g:1\n", "g:1\n"), ("", "")),
        ):
            given = [b"-", b"S", *words.encode().split(b" ")]
            file_answer, answer = (Answer(1, *(it.encode() for it in pair)) for pair in zip(outputs, errors))
            wrong = answer._replace(status=0), answer._replace(stdout=b"so"), answer._replace(stderr=b"so")
            found = [shown_verdicts.difference_of_input(given, it, file_answer) for it in (answer, *wrong)]
            self.assertEqual(found, [None, *3 * ["for standard input it answers otherwise than for the file"]])
        same = 2 * [Answer(1, WARNED.encode(), b"")]
        self.assertIsNotNone(shown_verdicts.difference_of_input([b"-", b"S", b"check"], *same))

    def test_difference_of_methods(self):
        one, other, made = Answer(1, b"a", b""), Answer(1, b"b", b""), Answer(0, b"a", b"")
        self.assertIsNone(shown_verdicts.difference_of(one, one))
        for it in (other, made):
            self.assertIn("different conflicts", shown_verdicts.difference_of(one, it))
