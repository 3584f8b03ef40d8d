"""Tests of the package."""

import concurrent.futures
import doctest
import pathlib
import unittest

import lr1
from lr1 import Grammar, Literal, Node

README = pathlib.Path(__file__).resolve().parent.parent / "README.md"
SUMS = 'S = E\nE = E "+" "n"\nE = "n"\n'
AMBIGUOUS = 'S = E\nE = E "+" E\nE = "n"\n'
# LR(1), and not LALR(1).
BRACKETS = """S = A
A = "(" E ")"
A = "(" F "]"
A = "[" F ")"
A = "[" E "]"
E = "x"
F = "x"
"""


class Grammars(unittest.TestCase):
    def test_productions(self):
        grammar = Grammar()
        grammar.add_production("S", ["E"])
        grammar.add_production("E", ["E", Literal("+"), Literal("n")])
        grammar.add_production("E", [Literal("n")])
        self.assertEqual(grammar.text, SUMS)

    def test_text_without_a_last_line_end(self):
        grammar = Grammar('S = A "x"')
        grammar.add_production("A", [])
        grammar.inline("A")
        self.assertEqual(grammar.text, 'S = A "x"\nA =\ninline A\n')
        self.assertEqual(str(grammar.tables("S").parse(["x"])), '[S: "x"]')

    def test_wrong_symbols(self):
        grammar = Grammar(SUMS)
        for symbol in ("", "1", "A-B", "é", "n\n", Literal(""), Literal('"'), Literal("a b"), Literal("\t"), Literal("\n")):
            with self.subTest(symbol), self.assertRaises(lr1.GrammarError):
                grammar.add_production("S", [symbol])
        for symbols in ("E", [1], [None]):
            with self.subTest(symbols), self.assertRaises(TypeError):
                grammar.add_production("S", symbols)
        for name in ("", "1", "a b"):
            for call in (grammar.inline, grammar.tables, grammar.check):
                with self.subTest(name), self.assertRaises(lr1.GrammarError):
                    call(name)
        self.assertEqual(grammar.text, SUMS)

    def test_any_literal(self):
        for text in ("é", "🦀", "\\", "=", "inline", "[", ", ", "]", "'", "\r", "Eof"):
            text = text.replace(" ", "")
            with self.subTest(text):
                grammar = Grammar()
                grammar.add_production("S", [Literal(text), Literal("x")])
                tree = grammar.tables("S").parse([text, "x"])
                self.assertEqual(tree.children, [text, "x"])

    def test_faults(self):
        with self.assertRaises(lr1.GrammarError) as caught:
            Grammar('S = "x"\nS -> "y"').tables("S")
        self.assertEqual(caught.exception.line, 2)
        self.assertIsInstance(caught.exception, ValueError)
        with self.assertRaisesRegex(lr1.GrammarError, "cyclic inline of A"):
            Grammar('S = A\nA = A "x"\ninline A').tables("S")

    def test_check(self):
        found = Grammar('S = Exp\nExpr = "n"\n').check("S")
        self.assertEqual(found[0].message, "`Exp` has no production")
        self.assertEqual((found[0].severity, found[0].line, found[0].column), ("warning", 1, 5))
        self.assertEqual(str(found[0]), "1:5: warning: `Exp` has no production; perhaps `Expr` is meant")
        self.assertEqual([it.severity for it in Grammar("S : x").check("S")], ["error"])
        self.assertEqual(Grammar(SUMS).check("S"), [])


class TablesOfGrammars(unittest.TestCase):
    def test_data(self):
        tables = Grammar(SUMS).tables("S")
        self.assertTrue(tables.is_lr1)
        self.assertEqual(tables.terminals, ["+", "n"])
        self.assertEqual([it["nonterminal"] for it in tables.productions], ["E", "E", "S"])
        lookaheads = {tuple(tables.lookahead(it["lookahead"])) for state in tables.states for it in state["reductions"]}
        self.assertEqual(lookaheads, {("+", None), (None,)})

    def test_methods(self):
        lane, canonical = (Grammar(SUMS).tables("S", canonical=it) for it in (False, True))
        self.assertIsNone(lane.states[0]["items"][0]["lookahead"])
        self.assertIsNotNone(canonical.states[0]["items"][0]["lookahead"])
        self.assertEqual(str(Grammar(BRACKETS).tables("S").parse("(x]")), '[S: [A: "(", [F: "x"], "]"]]')

    def test_parses(self):
        tables = Grammar(SUMS).tables("S")
        tree = tables.parse(["n", "+", "n"])
        self.assertEqual((tree.name, tree.terminals()), ("S", ["n", "+", "n"]))
        with self.assertRaises(lr1.RefusedError) as caught:
            tables.parse(["n", "n"])
        self.assertEqual(caught.exception.token, "n")
        with self.assertRaises(lr1.RefusedError) as caught:
            tables.parse(["n", "+"])
        self.assertIsNone(caught.exception.token)
        with self.assertRaises(lr1.LimitError):
            tables.parse(["n", "+", "n"], limit=3)
        with self.assertRaises(ValueError):
            tables.parse(["n\0"])
        for limit in (-1, 1 << 64):
            with self.subTest(limit), self.assertRaisesRegex(ValueError, "the limit"):
                tables.parse(["n"], limit)
        for tokens, limit in (([1], 9), (["n"], 1.5)):
            with self.subTest(tokens), self.assertRaises(TypeError):
                tables.parse(tokens, limit)

    def test_conflicts(self):
        tables = Grammar(AMBIGUOUS).tables("S")
        self.assertFalse(tables.is_lr1)
        (conflict,) = tables.conflicts
        self.assertEqual(tables.lookahead(conflict["lookahead"]), ["+"])
        with self.assertRaises(lr1.ConflictsError) as caught:
            tables.parse(["n"])
        self.assertEqual(caught.exception.count, 1)
        self.assertIn("two derivations of E:", tables.causes())
        self.assertTrue(tables.explain().startswith("conflict 1 in state "))

    def test_texts(self):
        tables = Grammar(SUMS).tables("S")
        self.assertIn("Constructed 5 states", tables.report())
        self.assertTrue(tables.dot().startswith("digraph"))
        self.assertIn("<html", tables.html())
        self.assertLess(len(tables.dot(around=0)), len(tables.dot(around=0, depth=2)))
        with self.assertRaisesRegex(lr1.GrammarError, "no state 9"):
            tables.dot(around=9)
        for words in ({"around": -1}, {"around": 0, "depth": -1}, {"around": 0, "conflicts": True}):
            with self.subTest(words), self.assertRaises(ValueError):
                tables.dot(**words)


class Calls(unittest.TestCase):
    def test_ask(self):
        self.assertEqual(lr1.version(), 1)
        self.assertEqual(lr1.ask(b"S = \xff", ["S", "json"]).status, 2)
        self.assertEqual(lr1.ask("", ["S", "parse", "1"]), (1, "refused at Eof\n"))

    def test_long_answer(self):
        lines = [f'A{it} = "{it}" A{it + 1}' for it in range(3000)]
        text = "\n".join([*lines, "A3000 ="])
        tokens = [str(it) for it in range(3000)]
        tree = Grammar(text).tables("A0").parse(tokens)
        self.assertEqual(tree.terminals(), tokens)
        self.assertEqual(str(tree) + "\n", lr1.ask(text, ["A0", "parse", "9999", *tokens]).text)

    def test_numbers(self):
        # The numbers of `S = "x"`, by docs/FORMATS.md.
        numbers = [1280454996, 1, 0, 1, 1, 1, 1, 2, 13, 15, 20, 0, 1, 1, 1, 1, 0, 1, 0, 0, 0, 0, 1, 0, 0]
        for canonical in (False, True):
            self.assertEqual(lr1.table_numbers('S = "x"', "S", canonical), (0, numbers))
        self.assertEqual(lr1.table_numbers(AMBIGUOUS, "S"), (1, []))
        for text, start in ((b"S = \xff", "S"), ("what", "S"), (SUMS, "T"), (SUMS, "")):
            self.assertEqual(lr1.table_numbers(text, start), (2, []))

    def test_check(self):
        for text in ('S = "x"', SUMS):
            for canonical in (False, True):
                status, numbers = lr1.table_numbers(text, "S", canonical, items=True)
                self.assertEqual((status, lr1.check(text, "S", numbers)), (0, lr1.Answer(0, "")))
        # `S = "x"` has two states, and so two lists of items. The first begins at place 27.
        numbers = lr1.table_numbers('S = "x"', "S", True, items=True)[1]
        self.assertEqual(numbers[27:], [1, 0, 0, 0, 1, 0, 1, 0])
        other = [*numbers[:29], 1, *numbers[30:]]
        self.assertEqual(lr1.check('S = "x"', "S", other), (1, "the tables are not faithful\n"))
        fault = "the tables: place 2: 0 lists of items are not one for each state\n"
        self.assertEqual(lr1.check('S = "x"', "S", lr1.table_numbers('S = "x"', "S")[1]), (2, fault))
        self.assertEqual(lr1.check('S = "x"', "T", numbers), (2, "the start symbol is no nonterminal\n"))
        self.assertEqual(lr1.check("what", "S", numbers), (2, "line 1: not a grammar line\n"))
        with self.assertRaises(ValueError):
            lr1.check('S = "x"', "S", [-1])

    def test_many_numbers(self):
        text = "\n".join([*(f'A{it} = "{it}" A{it + 1}' for it in range(9000)), "A9000 ="])
        status, numbers = lr1.table_numbers(text, "A0")
        self.assertEqual((status, numbers[5]), (0, 9001))
        self.assertGreater(len(numbers), 1 << 16)

    def test_calls_by_numbers(self):
        # The terminals "+" and "n" are 0 and 1, and the end is 2. The nonterminals E and S are 0 and 1.
        # The productions E = E "+" "n", E = "n" and S = E are 0, 1 and 2.
        tables = lr1.NumberedTables(lr1.table_numbers(SUMS, "S")[1])
        self.assertEqual(tables.action(tables.action(0, 1), 0), lr1.Reduction(1, 0, 1))
        self.assertIsNone(tables.action(0, 0))
        self.assertIsNotNone(tables.goto(0, 0))
        self.assertIsNone(tables.goto(0, 1))
        steps = [("shift", 1), ("reduce", 1), ("shift", 0), ("shift", 1), ("reduce", 0), ("reduce", 2)]
        self.assertEqual(tables.parse([1, 0, 1]), ("parsed", steps, 3, None))
        self.assertEqual(tables.parse([1, 1])[0:3:2], ("refused", 1))
        self.assertEqual(tables.parse([1, 0, 1], 5).end, "limit")
        self.assertEqual((tables.expected([]), tables.expected([1]), tables.expected([1, 1])), ([1], [0, 2], None))

    def test_faults_of_numbers(self):
        numbers = lr1.table_numbers(SUMS, "S")[1]
        tables = lr1.NumberedTables(numbers)
        for call in (
            lambda: tables.action(0, 3), lambda: tables.action(99, 0), lambda: tables.goto(0, 2), lambda: tables.parse([2]),
            lambda: lr1.NumberedTables([]).parse([]), lambda: lr1.NumberedTables(numbers[:8]).expected([]),
            lambda: tables.action(-1, 0), lambda: tables.parse([1 << 32]),
            lambda: tables.parse([1], -1), lambda: tables.parse([1], 1 << 64), lambda: tables.expected([1], -1),
        ):
            with self.assertRaises(ValueError):
                call()

    def test_threads(self):
        tables = Grammar(SUMS).tables("S")
        with concurrent.futures.ThreadPoolExecutor(8) as pool:
            trees = set(pool.map(lambda _: str(tables.parse(["n"])), range(200)))
        self.assertEqual(trees, {'[S: [E: "n"]]'})


class Trees(unittest.TestCase):
    def test_text(self):
        tree = Node("S", [Node("E", []), "+", Node("E", ["n", Node("F", [])])])
        self.assertEqual(str(tree), '[S: [E: ], "+", [E: "n", [F: ]]]')


def load_tests(loader, tests, _pattern):
    """The examples of the docstrings and of README.md, too."""
    import lr1._library
    import lr1.grammar
    import lr1.numbers
    import lr1.trees

    for module in (lr1, lr1._library, lr1.grammar, lr1.numbers, lr1.trees):
        tests.addTests(doctest.DocTestSuite(module))
    tests.addTests(doctest.DocFileSuite(str(README), module_relative=False))
    return tests


if __name__ == "__main__":
    unittest.main()
