"""Tests of gate.callers, by a small library in C in the place of the proved one."""
import json
import os
import shutil
import subprocess
import tempfile
import unittest
import unittest.mock

from gate.callers import in_c, parts
from gate.callers.asked import Answer, Cases, Question, answers_in, file_of, random_question
from gate.files import ROOT, write
from gate.tests.test_replay import FAULT, case

# Its answer is its words, for which it takes a block and grows it. FAULT is what is wrong with it.
LIBRARY = """#include <lr1.h>
#include <stdlib.h>
#include <string.h>
enum { BEFORE = 1, AFTER, BEHIND, STATUS, LENGTH, BYTES, TEXT, WORDS, LEAK, SILENT, OTHER };
uint32_t lr1_version(void) { return 1; }
#if FAULT == 12
uint32_t lr1_other(void) { return 1; }
#endif
uint8_t lr1_tables(const uint8_t *text, size_t text_length, const uint8_t *start, size_t start_length,
                   bool canonical, bool items, uint32_t *out, size_t room, size_t *length)
{
    void *block = malloc(10);
    (void)text, (void)start, (void)canonical, (void)items;
#if FAULT >= 30
    static const uint32_t NUMBERS[] = {1280454996, 1, 0, 1, 1, 1, 1, 2, 13, 15, 20, 0, 1, 1, 1, 1, 0, 1, 0, 0, 0, 0, 1, 0, 0};
    free(block);
    *length = sizeof NUMBERS / sizeof *NUMBERS;
    memcpy(out, NUMBERS, sizeof NUMBERS);
    return LR1_OK;
#endif
    if (block == NULL && FAULT != 15)
        return LR1_NO_MEMORY;
    free(block);
    *length = text_length + start_length;
    for (size_t at = 0; at < *length && at < room; at++)
        out[at] = FAULT == 13 ? (uint32_t)room : 7;
    if (FAULT == 14 && room > *length)
        out[*length] = 7;
    return FAULT > 18 ? LR1_OK : LR1_REFUSED;
}
uint8_t lr1_check(const uint8_t *text, size_t text_length, const uint8_t *start, size_t start_length,
                  const uint32_t *numbers, size_t count, uint8_t *out, size_t room, size_t *length)
{
    void *block = malloc(10);
    bool is_own = FAULT == 22 || count == text_length + start_length;
    (void)text, (void)start;
    if (block == NULL && FAULT != 16)
        return LR1_NO_MEMORY;
    free(block);
    for (size_t at = 0; at < count; at++)
        is_own = is_own && numbers[at] == 7;
    *length = 0;
    if (FAULT == 21 || (is_own && FAULT > 19))
        return LR1_OK;
    *length = count + (count == 0);
    for (size_t at = 0; at < *length && at < room; at++)
        out[at] = FAULT == 17 ? (uint8_t)room : (uint8_t)('0' + (count == 0 ? 0 : numbers[at] % 10));
    if (FAULT == 18 && room > *length)
        out[*length] = '7';
    return LR1_REFUSED;
}
uint8_t lr1_ask(const uint8_t *text, size_t text_length, const uint8_t *words, size_t words_length,
                bool canonical, uint8_t *out, size_t room, size_t *length)
{
    void *block = malloc(10), *grown = block == NULL ? NULL : realloc(block, 20);
    volatile uint8_t read = 0;
    if (grown == NULL && FAULT != SILENT && FAULT != OTHER) {
        if (FAULT != LEAK)
            free(block);
        return LR1_NO_MEMORY;
    }
    free(grown == NULL ? block : grown);
    if (grown == NULL && FAULT == OTHER)
        return LR1_FAULT;
    *length = words_length;
    memcpy(out, words, room < words_length ? room : words_length);
    if (FAULT == BEFORE)
        out[-1] = 0;
    if (FAULT == AFTER && room > words_length)
        out[words_length] = 0;
    if (FAULT == BEHIND)
        out[room] = 0;
    if (FAULT == LENGTH && room > 1000)
        *length = words_length + 1;
    if (FAULT == BYTES && room == 1 && words_length > 1)
        out[0] = 0;
    if (FAULT == TEXT)
        read = text[text_length];
    if (FAULT == WORDS)
        read = words[words_length];
    (void)read;
    return (uint8_t)(FAULT == STATUS && room == 1 ? 1 : canonical);
}
"""
BY_NUMBERS = """
static uint8_t by_numbers(uint32_t *out, size_t room, size_t *length)
{
    *length = FAULT == 34 ? room + 1 : 0;
    if (FAULT == 31)
        out[-1] = 0;
    if (FAULT == 32 && room > 0)
        out[0] = 0;
    return FAULT == 33 ? 9 : LR1_FAULT;
}
uint8_t lr1_action(const uint32_t *tables, size_t tables_length, uint32_t state, uint32_t token,
                   uint32_t *out, size_t room, size_t *length)
{
    (void)tables, (void)tables_length, (void)state, (void)token;
    return by_numbers(out, room, length);
}
uint8_t lr1_goto(const uint32_t *tables, size_t tables_length, uint32_t state, uint32_t nonterminal,
                 uint32_t *out, size_t room, size_t *length)
{
    (void)tables, (void)tables_length, (void)state, (void)nonterminal;
    return by_numbers(out, room, length);
}
uint8_t lr1_parse(const uint32_t *tables, size_t tables_length, const uint32_t *tokens, size_t tokens_length,
                  size_t limit, uint32_t *out, size_t room, size_t *length, size_t *read)
{
    (void)tables, (void)tables_length, (void)tokens, (void)tokens_length, (void)limit;
    *read = 0;
    return by_numbers(out, room, length);
}
uint8_t lr1_expected(const uint32_t *tables, size_t tables_length, const uint32_t *tokens,
                     size_t tokens_length, size_t limit, uint32_t *out, size_t room, size_t *length)
{
    (void)tables, (void)tables_length, (void)tokens, (void)tokens_length, (void)limit;
    return by_numbers(out, room, length);
}
"""
WORDS = [b"S\0json", b"S\0parse\0009", b"", b"S", b"\xff" * 200] * 5
QUESTIONS = [Question(b"S = x", words, number % 2 == 1) for number, words in enumerate(WORDS)]
# The number of a fault, and what the program prints of it.
ROOM_FAULTS = (
    (1, "a byte before the room was written"), (2, "a byte after the answer was written"), (3, "status -11"),
    (4, "another status or length"), (5, "another status or length"), (6, "other bytes with another room"),
    (7, "status -11"), (8, "status -11"),
)
CASES = [
    case("g/S report/Lane", 0, "a report\n"), case("g/S parse 9 é/Canonical", 1, 'refused at "é"\n'),
    case("g/S parse 9/Lane", 2, "", FAULT), case("g/S tables/Lane", 2, "", "usage: lrtab FILE START (..)\n"),
    case("none/S report/Lane", 2, "", "cannot read none\n"),
]


def library(room, fault):
    """A folder with a library that has a fault."""
    write(f"{room}/library.c", LIBRARY + BY_NUMBERS)
    shutil.copy(f"{ROOT}/bindings/c/lr1.h", room)
    for command in (
        f"gcc -fPIC -DFAULT={fault} -I. -c library.c",
        "ar rcs liblr1.a library.o",
        "gcc -shared -o liblr1.so library.o",
    ):
        subprocess.run(command.split(), cwd=room, check=True)
    return room


class Rooms(unittest.TestCase):
    def asked(self, room, fault):
        program = in_c.compiled(library(room, fault), room, "rooms", f"{parts.HERE}/rooms.c")
        return parts.answered(room, "rooms", QUESTIONS, program)

    def test_right_library(self):
        with tempfile.TemporaryDirectory() as room:
            answers, said, why = self.asked(room, 0)
        self.assertEqual((said, why), (f"{len(WORDS)} questions", None))
        self.assertEqual(answers, [Answer(it.canonical, it.words) for it in QUESTIONS])

    def test_faults(self):
        for fault, text in ROOM_FAULTS:
            with self.subTest(fault), tempfile.TemporaryDirectory() as room:
                answers, _, why = self.asked(room, fault)
                self.assertIn(text, why)
                self.assertLess(len(answers), len(QUESTIONS))


class Refused(unittest.TestCase):
    def refused(self, fault):
        with tempfile.TemporaryDirectory() as room:
            return in_c.refused(library(room, fault), room)

    def test_right_library(self):
        said, faults = self.refused(0)
        self.assertRegex(said, r"^250 questions, (\d+) refused allocations, \1 of them reported$")
        self.assertEqual(faults, [])

    def test_faults(self):
        rows = (9, "a block was not freed"), (10, "all after it; question 0: it was not reported"), (11, "another one")
        for fault, text in rows:
            with self.subTest(fault):
                _, faults = self.refused(fault)
                self.assertIn("words b'S\\x00", faults[0])
                self.assertIn(text, faults[1])

    def test_faults_of_other_calls(self):
        for fault, words, number in ((15, "b'=tables',", 42), (16, "b'=check',", 44)):
            with self.subTest(fault):
                _, faults = self.refused(fault)
                self.assertIn(f"words {words}", faults[0])
                self.assertIn(f"all after it; question {number}: it was not reported", faults[1])


class Names(unittest.TestCase):
    def test_names(self):
        for fault, count in ((0, 0), (12, 2)):
            with self.subTest(fault), tempfile.TemporaryDirectory() as room:
                said, faults = in_c.names(library(room, fault), room)
                self.assertEqual((said, len(faults)), ("8 calls", count))


class Numbers(unittest.TestCase):
    def test_numbers(self):
        with tempfile.TemporaryDirectory() as room:
            said, faults = in_c.numbers(library(room, 0), room)
        self.assertEqual((said, len(faults)), ("15 texts", 15))
        self.assertIn("'T') has '1 7 7 7 7 7 7 7 7', expected '2'", faults[9])

    def test_faults(self):
        for fault, text in ((13, "other numbers, with room for 1 "), (14, "a number after the answer was written")):
            with self.subTest(fault), tempfile.TemporaryDirectory() as room:
                with self.assertRaisesRegex(parts.Failed, text):
                    in_c.numbers(library(room, fault), room)


class ByNumbers(unittest.TestCase):
    def test_faults(self):
        for fault, text in (
            (0, "call 0: a text has no tables"), (30, "another status or length"), (31, "a number before the room was written"),
            (32, "a number after the answer was written"), (33, "a status or a length"), (34, "another answer with another room"),
        ):
            with self.subTest(fault), tempfile.TemporaryDirectory() as room:
                with self.assertRaisesRegex(parts.Failed, text):
                    in_c.by_numbers(library(room, fault), room)


class Questions(unittest.TestCase):
    def test_files(self):
        self.assertEqual(file_of([Question(b"ab", b"c", True)]), b"\2\0\0\0ab\1\0\0\0c\1")
        content = b"\1\2\0\0\0ab\0\0\0\0\0"
        self.assertEqual(answers_in(content), [Answer(1, b"ab"), Answer(0, b"")])
        self.assertEqual(answers_in(content[:-1]), [Answer(1, b"ab")])
        self.assertEqual(answers_in(content[:6]), [])

    def test_random(self):
        questions = [random_question(it) for it in range(200)]
        self.assertEqual(questions, [random_question(it) for it in range(200)])
        self.assertEqual({it.canonical for it in questions}, {False, True})


class StoredCases(unittest.TestCase):
    def setUp(self):
        with tempfile.TemporaryDirectory() as room:
            write(f"{room}/grammars.jsonl", json.dumps({"file": "g", "text": "S = x\"\n"}))
            write(f"{room}/cases_g.jsonl", "".join(f"{json.dumps(it)}\n" for it in CASES))
            self.cases = Cases(room)
        texts = [it["stdout"] or it["stderr"] for it in CASES[:3]]
        check = [{"severity": "error", "line": 1, "column": 5, "start": 4, "end": 6, "message": "", "hint": ""}]
        self.answers = [Answer(it["status"], text.encode()) for it, text in zip(CASES, texts)]
        self.answers += [Answer(2, b"usage: START (..)\n"), Answer(2, FAULT.encode()), Answer(2, json.dumps(check).encode())]

    def names(self, answers):
        return [it.partition(": ")[0] for it in self.cases.faults(answers)]

    def test_questions(self):
        names = [it[0] for it in self.cases.rows]
        self.assertEqual(names, [*(it["name"] for it in CASES[:4]), "g/S-json/Lane", "g/S-check/Lane"])
        self.assertEqual(self.cases.questions()[1], Question(b"S = x\"\n", "S\0parse\0009\0é".encode(), True))

    def test_right_answers(self):
        # (the report is not the one of the data, and the finding has no texts)
        self.assertEqual(self.names(self.answers), ["g/S-json/Lane", "g/S-check/Lane"])

    def test_wrong_answers(self):
        for place in range(4):
            for wrong in (Answer(self.answers[place].status, b"x"), self.answers[place]._replace(status=3)):
                with self.subTest(place=place, wrong=wrong):
                    answers = [*self.answers[:place], wrong, *self.answers[place + 1 :]]
                    self.assertEqual(self.names(answers)[0], CASES[place]["name"])
            self.assertEqual(self.cases.faults(self.answers[:place]), [f"{CASES[place]['name']}: no answer"])


class Pages(unittest.TestCase):
    def test_blocks(self):
        with tempfile.TemporaryDirectory() as room:
            write(f"{room}/page.md", "a\n```c\nint a;\n```\n```text\n1\n```\n```c\nint b;\n```\n")
            self.assertEqual(parts.block_of(f"{room}/page.md", "c", 1), "int b;\n")
            self.assertEqual(parts.block_of(f"{room}/page.md", "text"), "1\n")

    def test_a_command_that_fails(self):
        with self.assertRaisesRegex(parts.Failed, "(?s)sh ended with status 3: .*out"):
            parts.ran("sh", "-c", "echo out; exit 3")
        self.assertEqual(parts.lacks("sh", "no-such-command"), "left out: no-such-command is not on the path")
        self.assertTrue(os.path.isfile(f"{parts.BINDINGS}/c/example.c"))


class Checks(unittest.TestCase):
    def test_checks(self):
        with tempfile.TemporaryDirectory() as room:
            said, faults = in_c.checks(library(room, 0), room)
        count = 10 + len(in_c.CHECKS)
        self.assertEqual((said, len(faults)), (f"{count} calls", count))
        self.assertIn("has '1 6131221391", faults[1])

    def test_faults(self):
        for fault, text in ((17, "other bytes, with room for 1 "), (18, "a byte after the message was written")):
            with self.subTest(fault), tempfile.TemporaryDirectory() as room:
                with self.assertRaisesRegex(parts.Failed, text):
                    in_c.checks(library(room, fault), room)


class OwnTables(unittest.TestCase):
    def said(self, fault):
        with tempfile.TemporaryDirectory() as room:
            return in_c.own(library(room, fault), room, unittest.mock.Mock(for_tables=lambda: QUESTIONS))

    def test_right_library(self):
        lengths = [len(it.text) + len(it.words) for it in QUESTIONS]
        changed = sum(2 * (7 if it > 8 else it) for it in lengths)
        self.assertEqual(self.said(20), (f"{len(lengths)} questions, {len(lengths)} tables, {changed} changed numbers", []))
        self.assertEqual(self.said(0), (f"{len(lengths)} questions, 0 tables, 0 changed numbers", ["expected tables"]))

    def test_faults(self):
        for fault, text in ((19, "its own tables are refused"), (21, "changed number"), (22, "cut off")):
            with self.subTest(fault):
                said, faults = self.said(fault)
                self.assertEqual((said, faults[0]), ("failed", in_c.shown(QUESTIONS[0])))
                self.assertIn(text, faults[1])
