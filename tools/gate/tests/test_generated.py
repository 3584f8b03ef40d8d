"""Tests of tools/generated, and of gate.generated. Tables and arrays are worked out by hand."""
import json
import os
import shutil
import subprocess
import sys
import tempfile
import unittest
from unittest import mock

from generated import in_c, in_python, in_rust, layout, names
from generated.__main__ import text_of
from generated.packing import Packed, Rows, check
from generated.tables import NoTables, Tables
from gate.files import ROOT, write
from gate.generated import command, examples, written
from gate.generated.languages import LANGUAGES, answers
from gate.generated.model import Model, Outcome
from gate.generated.questions import ENOUGH, Made, Question, answer_of, line_of
from gate.hostile.verdicts import Answer
from gate.shown import parsers
from gate.shown.data import WrongData
from gate.tests.programs import CommandTest
from gate.tests.test_replay import by_lrshow


def symbols(*words):
    return [{"terminal": it[1:-1]} if it[0] == '"' else {"nonterminal": it} for it in words]


def state(number, shifts, gotos, *reductions):
    reductions = [{"production": production, "lookahead": lookahead} for production, lookahead in reductions]
    return {"number": number, "shifts": shifts, "gotos": gotos, "reductions": reductions}


# S = E, E = E "-" "n" and E = "n", whose productions have the numbers of these lines.
DIFFERENCES = {
    "start": "S",
    "terminals": ["-", "n"],
    "productions": [
        {"number": 1, "nonterminal": "E", "symbols": symbols("E", '"-"', '"n"')},
        {"number": 2, "nonterminal": "E", "symbols": symbols('"n"')},
        {"number": 0, "nonterminal": "S", "symbols": symbols("E")},
    ],
    "sets": [[None], ["-", None]],
    "states": [
        state(0, {"n": 2}, {"E": 1}), state(1, {"-": 3}, {}, (0, 0)), state(2, {}, {}, (2, 1)),
        state(3, {"n": 4}, {}), state(4, {}, {}, (1, 1)),
    ],
    "conflicts": [],
}
ARRAYS = {
    "reduction": [0, 3, 2, 0, 1], "set": [0, 0, 1, 0, 1], "sets": [4, 5], "goto": [1, 0],
    "left": [0, 0, 1], "length": [3, 1, 1], "set_bytes": 1,
}
CELLS = {"start": [0, 2, 1, 3, 1], "column": [3, 1, 0, 3, 1, 3], "cell": [0, 6, 7, 0, 8, 0]}
# With `S` as a new start symbol and E as the old one, state 1 accepts: its cell of the end has 3.
HIDDEN = {"start": [0, 1, 3, 2, 3], "cell": [0, 5, 6, 3, 0, 0]}
# Literals that a language, a comment, a literal of a string or a name might take for something else.
HOSTILE = sorted([
    "if", "IF", "int", "class", "fn", "self", "Self", "None", "True", "__init__", "mro", "end", "END", "1", "1a", "_", "__",
    "*/", "/*", "//", "#", "\\", "\\n", "'", "??/", "??=", "{{}}", "%s", "\x01", "\r", "\x0b", "\x7f", "\x85",
    "é", "\u2028", "\u202e", "\ufeff", "\U0001f600", "x" * 300, "lr_row", "LR_T_END", "Terminal",
], key=str.encode)
TREE = '[S: [E: [E: "n"], "-", "n"]]'
QUESTIONS = (
    (9, ["n", "-", "n"], True, Outcome(TREE)),
    (5, ["n", "-", "n"], True, Outcome("limit")),
    (6, ["n", "-", "n"], True, Outcome(TREE)),
    (9, ["n", "n"], True, Outcome('refused at "n"', 1, ['"-"', "Eof"])),
    (9, ["n", "-"], True, Outcome("refused at Eof", 2, ['"n"'])),
    (1, ["n", "n"], True, Outcome('refused at "n"', 1, [])),
    (9, ["n", "-"], False, Outcome("goes on")),
    (0, [], True, Outcome("refused at Eof", 0, [])),
)


def hostile_data():
    """The data of a nonterminal with a production for each hostile literal."""
    numbers = range(len(HOSTILE))
    states = [state(it + 1, {}, {}, (it, 0)) for it in numbers]
    productions = [{"number": it, "nonterminal": "self", "symbols": [{"terminal": HOSTILE[it]}]} for it in numbers]
    shifts = state(0, {text: it + 1 for it, text in enumerate(HOSTILE)}, {})
    how = {"start": "self", "terminals": HOSTILE, "sets": [[None]], "conflicts": []}
    return {**how, "productions": productions, "states": [shifts, *states]}


def hostile_questions():
    """Each literal is a sentence, and after it only the end is expected."""
    sentences = [Question("case", 9, [it], True, Outcome(f'[self: "{it}"]')) for it in HOSTILE]
    wrong = [Question("case", 9, [it, it], True, Outcome(f'refused at "{it}"', 1, ["Eof"])) for it in HOSTILE]
    return [*sentences, *wrong, Question("case", 9, [], True, Outcome("refused at Eof", 0, [f'"{it}"' for it in HOSTILE]))]


class NamesOfConstants(unittest.TestCase):
    def test_words(self):
        rows = (
            ("+", "plus"), ("->", "minus gt"), ("ExprList", "Expr List"), ("expr_list", "expr list"), ("x1Y", "x1 Y"),
            ("HTTPServer", "HTTPServer"), ("_", "underscore"), ("__a_", "a"), ("é", "ue9"), ("\n", "ua"), ("if", "if"),
            ("a+b", "a plus b"), ("\U0001f600", "u1f600"),
        )
        for text, words in rows:
            self.assertEqual(" ".join(names.words_of(text)), words)

    def test_styles(self):
        for text, upper, camel in (("ExprList", "EXPR_LIST", "ExprList"), ("1st", "N1ST", "N1st"), ("SELECT", "SELECT", "Select")):
            self.assertEqual((names.upper(names.words_of(text)), names.camel(names.words_of(text))), (upper, camel))

    def test_productions(self):
        self.assertEqual(names.production_words("A", []), ["A", "is", "empty"])
        self.assertEqual(names.production_words("A", list("bcdefgh")), ["A", "is", *"bcdefg"])

    def test_distinct(self):
        self.assertEqual(names.distinct(["A", "B", "A", "END"], "__", ["END"]), ["A__0", "B", "A__2", "END__3"])

    def test_names(self):
        data = {**DIFFERENCES, "terminals": ["end", "self", "Self"], "states": []}
        rows = [("S", ['"end"'] * 7), ("S", ['"self"']), ("S", ['"Self"'])]
        data["productions"] = [{"number": it, "nonterminal": name, "symbols": symbols(*right)} for it, (name, right) in enumerate(rows)]
        upper, camel = names.Names(Tables(data), names.upper, "__"), names.Names(Tables(data), names.camel, "_", ["Self"])
        self.assertEqual(upper.terminals, ["END__0", "SELF__1", "SELF__2", "END"])
        self.assertEqual(camel.terminals, ["End_0", "Self_1", "Self_2", "End"])
        self.assertEqual(upper.productions, [f"S_IS{'_END' * 6}__0", "S_IS_SELF__1", "S_IS_SELF__2"])


class Packing(unittest.TestCase):
    def test_arrays(self):
        packed = Packed(Tables(DIFFERENCES), False)
        check(packed)
        self.assertEqual({it: getattr(packed, it) for it in ARRAYS}, ARRAYS)
        self.assertEqual(vars(packed.actions), CELLS)
        self.assertEqual(vars(packed.gotos), {"start": [0] * 5, "column": [2, 2], "cell": [0, 0]})

    def test_small(self):
        packed = Packed(Tables(DIFFERENCES), True)
        check(packed)
        # (the reduction of the start symbol is none that is made on other tokens)
        self.assertEqual(packed.reduction, [0, 0, 2, 0, 1])
        self.assertEqual([packed.action_of(1, it) for it in range(3)], [7, 0, 3])
        self.assertEqual([packed.action_of(2, it) for it in range(3)], [2, 2, 2])

    def test_hidden_production(self):
        packed = Packed(Tables(DIFFERENCES, "S"), False)
        check(packed)
        self.assertEqual((packed.tables.start, packed.tables.accepting, packed.production_count), ("E", 2, 2))
        self.assertEqual(packed.tables.nonterminals, ["E"])
        self.assertEqual([packed.action_of(1, it) for it in range(3)], [6, 0, 3])

    def test_rows(self):
        rows = Rows([{}, {0: 7, 2: 8}, {1: 9}, {0: 7, 2: 8}], 3)
        self.assertEqual(vars(rows), {"start": [1, 0, 2, 0], "column": [0, 3, 2, 1, 3], "cell": [7, 0, 8, 9, 0]})

    def test_reasons(self):
        right = {**DIFFERENCES, "start": "E"}
        for data, status in (({**DIFFERENCES, "conflicts": [{}]}, 1), ({**DIFFERENCES, "start": "X"}, 2), (right, 2)):
            with self.assertRaises(NoTables) as why:
                Tables(data)
            self.assertEqual(why.exception.status, status)


class Layout(unittest.TestCase):
    def test_numbers(self):
        lines = layout.number_lines(range(100), "    ")
        self.assertEqual([int(it) for it in " ".join(lines).replace(",", "").split()], [*range(100)])
        self.assertTrue(all(95 < len(it) <= 100 for it in lines[:-1]))
        self.assertEqual([layout.bits_of(it) for it in ([], [255], [256], [65535], [65536])], [8, 8, 16, 16, 32])

    def test_literals(self):
        text = "".join(map(chr, [*range(1, 34), *range(35, 128), 0xE9, 0x20AC, 0x202E, 0x1F600])) + "??/"
        self.assertEqual(eval(in_python.quoted(text)), text)  # pylint: disable=eval-used
        with tempfile.TemporaryDirectory() as room:
            write(f"{room}/a.c", f"#include <stdio.h>\nint main(void) {{ fputs({in_c.quoted(text)}, stdout); return 0; }}\n")
            subprocess.run("gcc -std=c99 -Wall -Wextra -Werror -pedantic -o a a.c".split(), cwd=room, check=True)
            self.assertEqual(subprocess.run(f"{room}/a", stdout=subprocess.PIPE, check=True).stdout.decode(), text)

    @unittest.skipUnless(shutil.which("rustc"), "rustc is not on the path")
    def test_literals_of_rust(self):
        text = "".join(map(chr, [*range(34), *range(35, 128), 0xE9, 0x202E, 0x1F600]))
        with tempfile.TemporaryDirectory() as room:
            write(f"{room}/a.rs", f"fn main() {{ print!(\"{{}}\", {in_rust.quoted(text)}); }}\n")
            subprocess.run("rustc -D warnings -o a a.rs".split(), cwd=room, check=True)
            self.assertEqual(subprocess.run(f"{room}/a", stdout=subprocess.PIPE, check=True).stdout.decode(), text)

    def test_comments(self):
        self.assertEqual(layout.visible("*/\\é\u202e\r"), "*/\\" + "\\u{e9}\\u{202e}\\u{d}")


class Files(unittest.TestCase):
    def test_texts(self):
        for language, name in (("c", "LR_P_E_IS_E_MINUS_N"), ("rust", "EIsEMinusN"), ("python", "E_IS_E_MINUS_N = 0")):
            exact, small = (text_of(DIFFERENCES, language, "lane", it) for it in (False, True))
            self.assertIn(name, exact)
            self.assertTrue(exact.isascii() and max(map(len, exact.splitlines())) <= 120)
            self.assertLess(len(small), len(exact))
        self.assertIn("calc_parse", text_of(DIFFERENCES, "c", "lane", prefix="calc"))
        self.assertNotRegex(text_of(DIFFERENCES, "c", "lane", prefix="calc"), "(?i)lr_")
        # (texts of the grammar stay as they are)
        self.assertIn('"lr_row",', text_of(hostile_data(), "c", "lane", prefix="calc"))

    def test_many_states(self):
        """A right side of 66,000 symbols, whose states have numbers of more than 16 bits."""
        length = 66_000
        shifts = [state(it, {"x": it + 1}, {}) for it in range(length)]
        data = {**DIFFERENCES, "terminals": ["x"], "states": [*shifts, state(length, {}, {}, (0, 0))]}
        data["productions"] = [{"number": 0, "nonterminal": "S", "symbols": symbols('"x"') * length}]
        text = text_of(data, "c", "lane")
        self.assertIn("uint32_t row[66001];", text)
        self.assertIn("uint32_t cell[", text)
        self.assertIn("uint8_t column[", text)

    @unittest.skipUnless(shutil.which("rustc"), "rustc is not on the path")
    def test_without_std(self):
        with tempfile.TemporaryDirectory() as room:
            write(f"{room}/tables.rs", text_of(DIFFERENCES, "rust", "lane"))
            write(f"{room}/lib.rs", "#![no_std]\nmod tables;\n")
            command = "rustc --edition 2021 -D warnings --crate-type lib lib.rs"
            subprocess.run(command.split(), cwd=room, check=True)

    def command(self, data, *words, **how):
        environment = {**os.environ, "PYTHONPATH": f"{ROOT}/tools", "PYTHONDONTWRITEBYTECODE": "1"}
        command = [sys.executable, "-m", "generated", *words]
        return subprocess.run(command, input=json.dumps(data), env=environment, text=True, check=False, **how)

    def test_command(self):
        said = self.command(DIFFERENCES, "c", "lane", capture_output=True)
        self.assertEqual((said.returncode, said.stdout, said.stderr), (0, text_of(DIFFERENCES, "c", "lane"), ""))
        said = self.command({**DIFFERENCES, "start": "E"}, "rust", "lane", capture_output=True)
        expected = "`E` is on a right side; make a new start symbol, and ask for `--augmented`\n"
        self.assertEqual((said.returncode, said.stdout, said.stderr), (2, "", expected))

    @unittest.skipUnless(os.path.exists("/dev/full"), "there is no /dev/full")
    def test_closed_output(self):
        with open("/dev/full", "w", encoding="utf-8") as full:
            said = self.command(DIFFERENCES, "python", "lane", stdout=full, stderr=subprocess.PIPE)
        self.assertEqual((said.returncode, said.stderr), (2, "cannot write\n"))


class Answers(unittest.TestCase):
    def test_model(self):
        for limit, tokens, has_end, expected in QUESTIONS:
            self.assertEqual(Model(DIFFERENCES).outcome(limit, tokens, has_end), expected)

    def test_hidden_model(self):
        model = Model(DIFFERENCES, "S")
        self.assertEqual(model.outcome(5, ["n", "-", "n"]), Outcome(TREE[4:-1]))
        self.assertEqual(model.outcome(4, ["n", "-", "n"]), Outcome("limit"))

    def test_languages(self):
        rows = [Question("case", *it) for it in QUESTIONS]
        hidden = Model(DIFFERENCES, "S")
        small = [it._replace(limit=ENOUGH, expected=Model(DIFFERENCES).outcome(ENOUGH, *it[2:4])) for it in rows]
        old = [it._replace(expected=hidden.outcome(*it[1:4])) for it in rows]
        made = [
            Made("exact", Packed(Tables(DIFFERENCES), False), "lane", None, rows),
            Made("small", Packed(Tables(DIFFERENCES), True), "lane", None, small),
            Made("hidden", Packed(Tables(DIFFERENCES, "S"), False), "lane", None, old),
            Made("hostile", Packed(Tables(hostile_data()), False), "lane", None, hostile_questions()),
        ]
        lines = [line_of(number, it, one) for number, it in enumerate(made) for one in it.questions]
        expected = [answer_of(one.expected) for it in made for one in it.questions]
        for name, (needed, build, _) in LANGUAGES.items():
            with self.subTest(name), tempfile.TemporaryDirectory() as room:
                if all(map(shutil.which, needed)):
                    self.assertEqual(answers(made, lines, build, f"{room}/{name}"), expected)


def in_python_alone(*change):
    """The command by a script in the place of `lrshow`, which writes only data. It is for Python alone,
    and without the calculators."""
    languages, calculators = {"Python": LANGUAGES["Python"]}, mock.patch.object(examples, "faults_of", return_value=[])
    files = mock.patch.object(written, "faults", return_value=[])
    with mock.patch.object(command, "LANGUAGES", languages), calculators, files:
        return by_lrshow(command, *change)


class Files(unittest.TestCase):
    """Files of `lrshow` beside those of the generator."""

    def fault_of(self, answer, data=DIFFERENCES, language="c", prefix="lr"):
        try:
            parsers.check(answer, data, language, prefix, ["lane"])
        except WrongData as why:
            return str(why)
        return None

    def test_files(self):
        packed = Packed(Tables(DIFFERENCES), False)
        for language, prefix in (("c", "lr"), ("c", "calc"), ("rust", "lr"), ("python", "lr")):
            text = parsers.text_of(packed, language, "lane", prefix)
            self.assertIsNone(self.fault_of(Answer(0, text, b""), DIFFERENCES, language, prefix))
            for wrong in (Answer(0, text + b" ", b""), Answer(1, text, b""), Answer(0, text, b" "), Answer(2, b"", b"no")):
                self.assertIsNotNone(self.fault_of(wrong, DIFFERENCES, language, prefix))
        self.assertIsNotNone(self.fault_of(Answer(0, parsers.text_of(packed, "c", "canonical", "lr"), b"")))

    def test_hidden(self):
        for hidden in (None, "S"):
            text = parsers.text_of(Packed(Tables(DIFFERENCES, hidden), False), "c", "lane", "lr")
            parsers.check(Answer(0, text, b""), DIFFERENCES, "c", "lr", ["lane"], hidden)
            with self.assertRaises(WrongData):
                parsers.check(Answer(0, text, b""), DIFFERENCES, "c", "lr", ["lane"], None if hidden else "S")

    def test_augmented(self):
        head = b"// A parser.\n//\n// Start symbol: E. Method: lane.\n"
        old = {**DIFFERENCES, "start": "E"}
        for answer, is_right in (
            (Answer(0, head, b""), True), (Answer(0, head.replace(b"E", b"S"), b""), False),
            (Answer(1, b"", b"conflicts: 1; add `__E = E`, and see\n"), True), (Answer(2, b"", b"no file: many\n"), True),
            (Answer(2, b"", b"conflicts: 1; add `__E = E`, and see\n"), False), (Answer(1, head, b""), False),
        ):
            with self.subTest(answer):
                try:
                    parsers.check_augmented(answer, old)
                    self.assertTrue(is_right)
                except WrongData:
                    self.assertFalse(is_right)
        with self.assertRaises(WrongData):
            parsers.check_augmented(Answer(2, b"", b"no file: many\n"), DIFFERENCES)

    def test_reasons(self):
        data = {**DIFFERENCES, "conflicts": [1, 2]}
        for status, reason, is_right in (
            (1, b"conflicts: 2; see `lrshow FILE S conflicts`\n", True), (2, b"conflicts: 2; see\n", False),
            (1, b"conflicts: 3; see\n", False), (0, b"", False),
        ):
            self.assertEqual(self.fault_of(Answer(status, b"", reason), data) is None, is_right, reason)

    def test_names_without_productions(self):
        self.assertTrue(parsers.lists_more({"A"}, ["S"]))
        self.assertFalse(parsers.lists_more({"A"}, ["S", "A"]))


class Command(CommandTest):
    def test_data(self):
        self.check(in_python_alone, (
            ("right data", 0, "Python: 33 of 33 answers agree"),
            ("the files", 0, "files: 3 for each language"),
            ("conflicts", 0, "without a file: 2 with conflicts"),
            ("a dropped shift", 1, "x/S parse 2 x/Lane: the model has", '{"x": 1}', "{}"),
            ("no start symbol", 0, "without a file: 1 of a start symbol without a production", '"start": "S"', '"start": "T"'),
            ("broken JSON", 1, "no JSON", "null", "nul"),
        ))

    def test_answers(self):
        texts = [answer_of(it[3]) for it in QUESTIONS]
        questions = [Question(f"case {number}", *it) for number, it in enumerate(QUESTIONS)]
        made = Made("tables", None, "lane", None, questions)
        rows = [(made, it) for it in questions]
        self.assertEqual(command.faults_of(texts, rows), [])
        self.assertEqual(command.faults_of(texts[1:], rows), ["7 answers to 8 questions"])
        (fault,) = command.faults_of([*texts[:3], texts[3].replace("Eof", "n"), *texts[4:]], rows)
        self.assertIn("case 3, tables: expected", fault)
