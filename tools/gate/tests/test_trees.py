"""Tests of the check of trees that `lrshow` draws, by tables that are written down here."""
import unittest
from unittest import mock

from gate.hostile.verdicts import Answer
from gate.shown import tree
from gate.shown.data import WrongData


def state(shifts, gotos, *reductions):
    reductions = [{"production": it, "tokens": tokens} for it, tokens in reductions]
    return {"shifts": shifts, "gotos": gotos, "reductions": reductions}


def production(number, name, *symbols):
    kinds = ["nonterminal" if it.isupper() else "terminal" for it in symbols]
    return {"number": number, "nonterminal": name, "symbols": [{kind: it} for kind, it in zip(kinds, symbols)]}


# The tables of `T = S`, `S = S "a"` and `S =`, and of the same with a literal at the end.
LISTS = {
    "conflicts": [], "terminals": ["a"],
    "productions": [production(0, "T", "S"), production(1, "S", "S", "a"), production(2, "S")],
    "states": [
        state({}, {"S": 1}, (2, ["a", None])), state({"a": 2}, {}, (0, [None])), state({}, {}, (1, ["a", None]))],
}
ENDED = {
    "conflicts": [], "terminals": ["a", "z\""],
    "productions": [production(0, "T", "S", "z\""), production(1, "S", "S", "a"), production(2, "S")],
    "states": [
        state({}, {"S": 1}, (2, ["a", "z\""])), state({"a": 2, "z\"": 3}, {}), state({}, {}, (1, ["a", "z\""])),
        state({}, {}, (0, [None]))],
}
# The tables of `S = "x"`, and of `S = S` and `S = "x"`, of which each parse goes on for ever.
ONE = {
    "conflicts": [], "terminals": ["x"], "productions": [production(0, "S", "x")],
    "states": [state({"x": 1}, {}), state({}, {}, (0, [None]))],
}
ENDLESS = {
    "conflicts": [], "terminals": ["x"], "productions": [production(0, "S", "x"), production(1, "S", "S")],
    "states": [state({"x": 1}, {"S": 2}), state({}, {}, (0, [None])), state({}, {}, (1, [None]))],
}
LINES = 'T\n  S\n    S\n      S =\n      "a"\n    "a"\n'
GRAPH = (
    'digraph tree {\n  node [shape=box fontname=monospace];\n  0 [label="T"];\n  1 [label="S"];\n  0 -> 1;\n'
    '  2 [label="\\"z\\"\\"" shape=plaintext];\n  0 -> 2;\n}\n'
)
# Data, tokens, whether a graph is asked for, a status, and what is on both outputs.
ANSWERS = (
    (LISTS, "a a", False, 0, LINES, ""), (LISTS, "", False, 0, "T\n  S =\n", ""),
    (ENDED, 'z"', True, 0, GRAPH, ""),
    (ONE, "x", False, 0, 'S\n  "x"\n', ""),
    (LISTS, "a b a", False, 1, "", 'token 2, "b", is wrong; expected: "a" Eof\n'),
    (ENDED, "a a", True, 1, "", 'the input ends too early; expected: "a" "z""\n'),
    (ONE, "x x", False, 1, "", 'token 2, "x", is wrong; expected: Eof\n'),
    (ONE, "", False, 1, "", 'the input ends too early; expected: "x"\n'),
    ({"conflicts": [1, 2]}, "x", False, 1, "", "conflicts: 2\n"),
)
SPOILT = (
    (LISTS, "a a", False, 1, LINES, ""), (LISTS, "a a", False, 0, LINES, "so\n"),
    (LISTS, "a a", False, 0, LINES[:-1], ""), (LISTS, "a a", False, 0, LINES.replace("S =", "S"), ""),
    (LISTS, "a a", False, 0, LINES.replace("    S", "  S"), ""), (LISTS, "a a", True, 0, LINES, ""),
    *((ENDED, 'z"', True, 0, GRAPH.replace(*it), "") for it in (("0 -> 2", "1 -> 2"), (" shape=plaintext", ""))),
    (LISTS, "a b a", False, 1, "", 'token 1, "b", is wrong; expected: "a" Eof\n'),
    (LISTS, "a b a", False, 1, "", 'token 2, "b", is wrong; expected: "a"\n'),
    (ENDED, "a a", True, 1, "", 'the input ends too early; expected: "z""\n'),
    (ONE, "x", False, 1, "", "no tree within 1000000 steps\n"),
    ({"conflicts": [1, 2]}, "x", False, 1, "", "conflicts: 3\n"),
)


class Trees(unittest.TestCase):
    def test_answers(self):
        for given, tokens, is_graph, status, output, errors in ANSWERS:
            with self.subTest(tokens=tokens, output=output):
                tree.check(Answer(status, output.encode(), errors.encode()), given, tokens.split(), is_graph)

    def test_spoilt_answers(self):
        for given, tokens, is_graph, status, output, errors in SPOILT:
            with self.subTest(tokens=tokens, output=output), self.assertRaises(WrongData):
                tree.check(Answer(status, output.encode(), errors.encode()), given, tokens.split(), is_graph)

    def test_limit(self):
        """The tree of `x` takes two steps. A refusal that needs no step comes before the limit."""
        leaf = ("S", [('"x"', None)])
        for steps, given, tokens, expected in (
            (1, ONE, ["x"], None), (2, ONE, ["x"], leaf), (1, ONE, ["x", "x"], 1), (0, ONE, ["y"], 0),
            (0, ONE, ["x"], None), (3, LISTS, ["a"], None), (50, ENDLESS, ["x"], None),
            (4, LISTS, ["a"], ("T", [("S", [("S", []), ('"a"', None)])])),
        ):
            with self.subTest(steps=steps, tokens=tokens), mock.patch.object(tree, "STEPS", steps):
                self.assertEqual(tree.Parser(given).run(tokens, True), expected)
        with mock.patch.object(tree, "STEPS", 1):
            self.assertEqual(tree.Parser(ONE).run(["x"], False), True)
            tree.check(Answer(1, b"", b"no tree within 1 steps\n"), ONE, ["x"], False)
            with self.assertRaises(WrongData):
                tree.check(Answer(0, b'S\n  "x"\n', b""), ONE, ["x"], False)

    def test_quotes_and_pictures(self):
        self.assertEqual(tree.quoted('a"b\\c\x01\x7f\u0085&'), 'a\\"b\\\\c\u2401\u2421\ufffd&amp;')
