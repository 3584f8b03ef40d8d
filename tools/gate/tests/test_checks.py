"""Tests of what a check by `lrshow` must report."""
import json
import unittest

from gate.hostile import grammars, reading
from gate.shown import checks, doubts, faults, places
from gate.shown.data import WrongData
from gate.shown.places import Finding

# Texts with a start symbol, and the warnings that hold: a kind, a name or a line, and a line.
WARNINGS = (
    ('S = "x"', "S", set()),
    ("", "S", {("no start", "S", 1)}), ('A = B\nB = "b"', "S", {("no start", "S", 1)}),
    ('S = A "x"\nA = B', "S", {("undefined", "B", 2), ("unproductive", "S", 1), ("unproductive", "A", 2)}),
    # (the first use is the first by names)
    ("S = X\nB = X\nA =", "A", {
        ("undefined", "X", 2), ("unreachable", "S", 1), ("unreachable", "B", 2), ("unproductive", "S", 1),
        ("unproductive", "B", 2)}),
    ("S =\nA =", "S", {("unreachable", "A", 2)}),
    # (a name that stands alone between names that derive nothing leads on)
    ('S = A\nA = E B E\nB = A\nB = "x"\nE =', "S", {("cyclic", "A", 2), ("cyclic", "B", 3)}),
    ('S = A\nA = E B\nB = A\nB = "x"\nE = "e"', "S", set()),
    ("S = S\nS =", "S", {("cyclic", "S", 1), ("start used", "S", 1)}),
    ("inline A\nS = A", "S", {
        ("nothing to inline", "A", 1), ("undefined", "A", 2), ("unproductive", "S", 2)}),
    ("S =\n\ninline A\nA =", "S", {("never inlined", "A", 3), ("unreachable", "A", 3)}),
    ('S = "x"\nS = "x"\nS = "x"', "S", {("repeated", "1", 2), ("repeated", "1", 3)}),
)
# Lines with a fault: the faulty word, what is wrong with it, its column, and its hint.
FAULTS = (
    ("= S", "=", faults.NO_LEFT_SIDE, 1, 'a production is a name, "=" and symbols'),
    ("é = S", "é", faults.NO_NAME, 1, 'a name has ASCII letters, digits and "_", and begins with no digit'),
    (" \tS", "S", faults.NO_SIGN, 3, 'a production is a name, "=" and symbols'),
    ("T : S", ":", faults.NOT_THE_SIGN, 3, 'write "=" between the left side and the right side'),
    ("inline  a-b", "a-b", faults.NO_NAME, 9, 'write "_" and not "-" in a name'),
    ("inline A B C", "B", faults.TOO_MANY, 10, 'a mark is "inline" and one name'),
    ('S = "é" "" 1', '""', faults.EMPTY, 9, 'an empty right side is a line that ends with "="'),
    ('S = "é"  "é', '"é', faults.NO_SYMBOL, 10, "a literal ends with a quote, and has no blank and no quote in it"),
    ('A = "a" | "b"', "|", faults.NO_SYMBOL, 9, "write the alternative as a production on a line of its own"),
    ("S = A B* C;", "B*", faults.NO_SYMBOL, 7, "write the repetition as productions of a nonterminal"),
    ("S = 1", "1", faults.NO_SYMBOL, 5, "a symbol is a name, or a literal between double quotes"),
    ("\ufeffS = A", "\ufeffS", faults.NO_NAME, 1, "save the file without a byte order mark"),
)
TEXT = "S = Ab\n\nAb = Ac\n"
LINES = (
    "g:1:1: warning: `S` derives no list of terminals; write a production without it",
    "g:3:1: warning: `Ab` derives no list of terminals; write a production without it",
    "g:3:6: warning: `Ac` has no production; perhaps `Ab` is meant",
)
CONFLICTS = "see `lrshow FILE START conflicts`"
RING = "inline S\nS = S\n"
RING_LINES = (
    "g:1:8: error: `S` would have to be inlined into itself; leave a mark out",
    "g:1:8: warning: `S` derives no list of terminals; write a production without it",
    "g:1:8: warning: `S` derives itself: `S` `S`; leave out the production that leads back",
    "g:2:5: warning: `S` is on a right side; add a start symbol that is on none",
)
# A text with words of more bytes than characters, and the members of its findings after `severity`.
WIDE, WIDE_ROWS = 'S = "é" A "é"\r\n  S =\r\nS =\r\n', (
    (1, 9, 9, 10, "`A` has no production", "write one, or mend the name"),
    (3, 1, 24, 27, "the right side is that of line 2", "leave one of the two out"),
    (2, 3, 19, 20, "reduce/reduce conflict on Eof in state 2: reduce S =, or reduce S =", CONFLICTS),
)
WIDE_CAUSES = [[Finding("warning", *WIDE_ROWS[2])]]
# Sums, with two causes: of one the production is in the text, and of the other it was made by inlining.
SUMS = 'S = E\nE = E "+" E\nE = E O E\ninline O\nO = "*"\nE = "n"\n'
SUM_DATA = {
    "terminals": ["*", "+", "n"],
    "productions": [
        {"number": 1, "nonterminal": "E", "symbols": [{"nonterminal": "E"}, {"terminal": "+"}, {"nonterminal": "E"}]},
        {"number": 5, "nonterminal": "E", "symbols": [{"nonterminal": "E"}, {"terminal": "*"}, {"nonterminal": "E"}]},
    ],
    "conflicts": [
        {"state": 7, "tokens": ["+"], "actions": [{"reduce": it}, {"shift": "+", "items": [{"production": 1, "dot": 1}]}]}
        for it in (1, 5)
    ],
    "causes": [{"conflicts": [0]}, {"conflicts": [1]}],
}
SUM_LINES = (
    'g:2:1: warning: shift/reduce conflict on "+" in state 7: reduce E = E "+" E, or shift by E = E (*) "+" E; ' + CONFLICTS,
    'g:3:1: warning: shift/reduce conflict on "+" in state 7: reduce E = E "*" E, or shift by E = E (*) "+" E; ' + CONFLICTS,
)


def lines_of(*lines):
    return "".join(f"{it}\n" for it in lines)


def json_of(*rows):
    names = ("line", "column", "start", "end", "message", "hint")
    return json.dumps([{"severity": "warning", **dict(zip(names, it))} for it in rows])


def is_refused(line):
    """Whether the reader refuses a line."""
    try:
        reading.read(line)
    except reading.FaultyLine:
        return True
    return False


class Checks(unittest.TestCase):
    def refuse(self, reason, check, *given):
        with self.subTest(reason=reason, given=given):
            with self.assertRaises(WrongData) as found:
                check(*given)
            self.assertIn(reason, str(found.exception))

    def refuse_each(self, reason, status, outputs, text, causes=None):
        for output in outputs:
            self.refuse(reason, checks.check, status, output, text, "S", "g", causes)

    def refuse_lines(self, text, lines, causes, rows):
        """Refuses lines in which a part is another, and that have another status."""
        right = lines_of(*lines)
        for reason, old, new, *status in rows:
            self.assertIn(old, right)
            self.refuse(reason, checks.check, *(status or [1]), right.replace(old, new), text, "S", "g", causes)

    def test_definitions(self):
        for text, start, expected in WARNINGS:
            with self.subTest(text=text):
                self.assertEqual(doubts.Numbered(text).expected(start), expected)

    def test_warnings(self):
        right = lines_of(*LINES)
        checks.check(1, right, TEXT, "S", "g", [])
        checks.check(1, right.replace("g:1", "./g:1").replace("g:3", "./g:3"), TEXT, "S", "./g", [])
        checks.check(0, "", 'S = "x"', "S", "g", [])
        self.refuse_lines(TEXT, LINES, [], (
            ("3 lines and the status 0", "g", "g", 0), ("`Ac` has no production", f"{LINES[2]}\n", ""),
            ("`C` has no production", "`Ac`", "`C`"), ("('warning', 2, 1", "g:1:", "g:2:"),
            ("a line in another form", "perhaps `Ab` is meant\n", "perhaps `Ab` is meant\ng:so\n"),
            ("another file than g", "g:3:1", "./g:3:1"), ("another file than g", "g:3:1", "3:1"),
            ("('warning', 3, 1, None, None, '`Ac` has", "3:6", "3:1"), ("derives no lists", "no list", "no lists"),
            ("among 4 lines", f"{LINES[0]}\n", 2 * f"{LINES[0]}\n"), ("error", "1: warning", "1: error"),
        ))
        self.refuse("another file than g", checks.check, 1, f"{right}so\n", TEXT, "S", "g", [])
        self.refuse("not in their order", checks.check, 1, lines_of(*reversed(LINES)), TEXT, "S", "g", [])
        self.refuse("no line end", checks.check, 1, right[:-1], TEXT, "S", "g", [])

    def test_hints(self):
        hint = "write a production without it"
        self.refuse_lines(TEXT, LINES, [], (
            (f"{hint}')], not", f"`Ab` derives no list of terminals; {hint}", "`Ab` derives no list of terminals; use it"),
            ("perhaps `S` is meant", "perhaps `Ab`", "perhaps `S`"),
            ("perhaps `T` is meant", "perhaps `Ab`", "perhaps `T`"),
            ("write one", "perhaps `Ab` is meant", "write one, or mend the name"),
        ))

    def test_nearest_names(self):
        numbered = doubts.Numbered('Expr = "x"\nExpp = "x"\nTerm = "x"\nT = "x"\ninline Exp')
        rows = [
            ("Exp", "Expp"), ("Expr2", "Expr"), ("Trm", "Term"), ("Tm", "T"), ("X", None), ("Statement", None),
            ("Ep", None)]
        self.assertEqual([(it, numbered.nearest(it)) for it, _ in rows], rows)
        self.assertEqual([doubts.distance(*it) for it in (("", "ab"), ("kitten", "sitting"), ("ab", "ba"))], [2, 3, 2])

    def test_causes(self):
        caused = [*checks.caused(SUM_DATA, SUMS)]
        self.assertEqual([len(it) for it in caused], [1, 1])
        checks.check(1, lines_of(*SUM_LINES), SUMS, "S", "g", caused)
        self.refuse("there are no data", checks.check, 0, "", SUMS, "S", "g", None)
        self.refuse("expected one of", checks.check, 1, lines_of(*SUM_LINES[::-1]), SUMS, "S", "g", caused)
        for at, old, new in (
            (0, "g:2:1", "g:3:1"), (1, "g:3:1", "g:2:1"), (0, "2:1", "2:3"), (0, "warning", "error"), (0, "shift/", "reduce/"),
            (0, "state 7", "states 7"), (0, 'on "+"', 'on "*"'), (0, "(*) ", ""), (1, "or shift", "shift"), (1, CONFLICTS, "h"),
        ):
            lines = [line.replace(old, new) if at == place else line for place, line in enumerate(SUM_LINES)]
            self.refuse("expected one of", checks.check, 1, lines_of(*lines), SUMS, "S", "g", caused)
        for lines in (SUM_LINES[:1], SUM_LINES[1:], (), (*SUM_LINES, SUM_LINES[1])):
            self.refuse("", checks.check, 1, lines_of(*lines), SUMS, "S", "g", caused)
        self.refuse("not [('warning', 2, 1", checks.check, 1, lines_of(SUM_LINES[0]), SUMS, "S", "g", [])

    def test_causes_in_any_order_of_items(self):
        one, other = ("E (*) + E", "A (*) + E")
        message = "shift/reduce conflict on + in state 7: reduce E = E"
        row, turned = (Finding("warning", 1, 1, 0, 1, ", or shift by ".join([message, *it]), CONFLICTS)
                       for it in ((one, other), (other, one)))
        self.assertEqual(checks.in_order(row), checks.in_order(turned))

    def test_ways_back(self):
        text = 'S = A\nA = E B E\nB = A\nB = "x"\nE ='
        line = "g:{}:1: warning: `{}` derives itself: {}; leave out the production that leads back"
        lines = line.format(2, "A", "`A` `B` `A`"), line.format(3, "B", "`B` `A` `B`")
        checks.check(1, lines_of(*lines), text, "S", "g", [])
        self.refuse_lines(text, lines, [], (
            ("no way of a name", "`A` `B` `A`;", "`A` `E` `A`;"), ("no way of a name", "`A` `B` `A`;", "`A`;"),
            ("no way of a name", "`A` `B` `A`;", "`B` `A` `B`;"), ("no way of a name", "`A` `B` `A`;", "`A` `B`;"),
            ("no way back", ": `A` `B` `A`;", ";"), ("no way back", ": `A` `B` `A`;", ": `A`, `B`, `A`;"),
            ("no shortest way", ": `A` `B` `A`;", ": `A` `B` `A` `B` `A`;"),
        ))

    def test_faulty_words(self):
        for text, word, reason, column, hint in FAULTS:
            line = f"g:1:{column}: error: `{word}` {reason}; {hint}\n"
            others = (f":{column}:", f":{column + 1}:"), (f"`{word}`", "`x`"), (reason, "is wrong"), (hint, "h")
            with self.subTest(text=text):
                checks.check(2, line, text, "S", "g", None)
                self.refuse_each("expected the errors", 2, [line.replace(*it, 1) for it in others], text)

    def test_faults_are_those_of_the_reader(self):
        for line in (*grammars.ODD_LINES, *(it for it, *_ in FAULTS)):
            is_fault = any(faults.fault_of(it.words) for it in places.lines_of(line))
            with self.subTest(line=line):
                self.assertEqual(is_fault, is_refused(line))

    def test_errors(self):
        text, hint = "S\n\nS =\n= S\n", 'a production is a name, "=" and symbols'
        lines = f'g:1:1: error: `S` has no "=" after it; {hint}', f"g:4:1: error: `=` has no name before it; {hint}"
        checks.check(2, lines_of(*lines), text, "S", "g", None)
        self.refuse("expected status 2", checks.check, 1, lines_of(*lines), text, "S", "g", None)
        changed = lines[1].replace("4:", "3:"), lines[1].replace("error", "warning"), lines[1].replace("g:", "h:")
        wrong = lines[:1], lines[::-1], (*lines, lines[1]), *((lines[0], it) for it in changed[:2])
        self.refuse("another file than g", checks.check, 2, lines_of(lines[0], changed[2]), text, "S", "g", None)
        self.refuse_each("expected the errors", 2, [lines_of(*it) for it in wrong], text)
        # (a control character is shown by its picture, and is as it is in JSON)
        checks.check(2, f"g:1:3: error: `\u2401` is in the place of \"=\"; {hint}\n", "S \x01", "S", "g", None)
        row = json_of((1, 3, 2, 3, '`\x01` is in the place of "="', hint)).replace("warning", "error")
        checks.check_json(2, row, "S \x01", "S", "g", None)

    def test_rings(self):
        checks.check(2, lines_of(*RING_LINES), RING, "S", "g", None)
        self.refuse_lines(RING, RING_LINES, None, (
            ("expected one of", f"{RING_LINES[0]}\n", "", 1), ("expected one of", "1:8: error", "2:8: error", 2),
            ("expected one of", "1:8: error", "1:1: error", 2), ("expected one of", "leave a mark out", "h", 2),
            ("4 lines and the status 1", "g", "g", 1),
        ))
        self.refuse("expected one of", checks.check, 2, lines_of(*RING_LINES[1:], RING_LINES[0]), RING, "S", "g", None)

    def test_json(self):
        text, rows = WIDE, WIDE_ROWS
        checks.check_json(1, json_of(*rows), text, "S", "g", WIDE_CAUSES)
        checks.check_json(0, "[]\n", 'S = "x"', "S", "g", [])
        self.refuse("3 lines and the status 0", checks.check_json, 0, json_of(*rows), text, "S", "g", WIDE_CAUSES)
        # (an empty place, and offsets that are not those of the line and the column, among others)
        for at, member, other in (
            (0, 0, 2), (0, 1, 8), (0, 2, 8), (0, 3, 11), (0, 3, 9), (0, 2, 10), (0, 4, "`A` has a production"),
            (0, 5, "h"), (1, 2, 27), (1, 3, 24), (1, 1, 2), (2, 2, 17), (2, 3, 18), (2, 4, "1 conflict"), (2, 0, 1),
        ):
            wrong = [(*it[:member], other, *it[member + 1 :]) if place == at else it for place, it in enumerate(rows)]
            self.refuse("expected", checks.check_json, 1, json_of(*wrong), text, "S", "g", WIDE_CAUSES)

    def test_texts_that_are_no_findings(self):
        right = json_of(*WIDE_ROWS)
        for reason, wrong in (
            ("no JSON", right[:-1]), ("no array", "{}"), ("other members", right.replace('"line"', '"lines"', 1)),
            ("other members", right.replace('"line": 1', '"line": 1.0', 1)), ("other members", "[1]"),
            ("stands twice", right.replace('"line"', '"line": 1, "line"', 1)), ("no JSON", right.replace("1", "NaN", 1)),
        ):
            self.refuse(reason, checks.check_json, 1, wrong, WIDE, "S", "g", WIDE_CAUSES)
