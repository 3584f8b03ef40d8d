"""Tests the command that runs what pages show, by scripts in the place of the two programs."""
import contextlib
import io
import os
import subprocess
import tempfile
import unittest
from unittest import mock

from gate import guide
from gate.files import read, write

# They print their arguments, and end with the status that the first of them names, if any does.
PROGRAM = '#!/bin/sh\necho "{name}:" "$@"\nexit "${{1:-0}}"\n'
ONE = "```console\n$ lrtab\nlrtab:\n```\n"
FILE = "<!-- file: a -->\n```\n{}\n```\n"
LINES = "$ printf '%s\\n' one two three four five six\n"
ALL = "one\ntwo\nthree\nfour\nfive\nsix\n"


def block(*lines):
    return "Before.\n\n```console\n" + "".join(lines) + "```\n"


def run_over(page, *words, paths=(), **files):
    """What the command prints of a page and these files, its status, and the page after it."""
    out = io.StringIO()
    with tempfile.TemporaryDirectory(prefix="guide-test-") as root:
        for name in ("lrtab", "lrshow"):
            write(f"{root}/crates/{name}/out/{name}", PROGRAM.format(name=name), 0o755)
        write(f"{root}/other", PROGRAM.format(name="other"), 0o755)
        write(f"{root}/examples/one.py", "print(1)\n")
        for path, text in {"PAGE.md": page, ".gitignore": "out/\n", **files}.items():
            write(f"{root}/{path}", text)
        subprocess.run(["git", "init", "-q", root], check=True)
        with contextlib.redirect_stdout(out):
            status = guide.main([*words, *(f"{root}/{it}" for it in paths)], root)
        return out.getvalue(), status, read(f"{root}/PAGE.md")


def at(line, expected, printed):
    return f"PAGE.md:{line}: expected {expected}, printed {printed}\n"


# A page, and the line that is printed of it: none, or its beginning.
CASES = {
    "an output": (ONE, None),
    "both programs": (block("$ lrtab\nlrtab:\n$ lrshow\nlrshow:\n"), None),
    "arguments": (block("$ lrtab 0 'a b' c\nlrtab: 0 a b c\n"), None),
    "a status": (block("$ lrtab 3\nlrtab: 3\n[status 3]\n"), None),
    "another status": (block("$ lrtab 3\nlrtab: 3\n[status 2]\n"), at(6, "[status 2]", "[status 3]")),
    "no status": (block("$ lrtab 3\nlrtab: 3\n"), at(6, "[status 0]", "[status 3]")),
    "a status too many": (block("$ lrtab\nlrtab:\n[status 1]\n"), at(6, "[status 1]", "[status 0]")),
    "a signal": (block("$ kill -SEGV $$\n[status 139]\n"), None),
    "no output": (block("$ true\n$ true\n"), None),
    "an empty line": (block("$ echo; echo\n\n\n"), None),
    "an empty line too few": (block("$ echo; echo\n\n"), at(6, "the end", "''")),
    "a last line without its end": (block("$ printf a\na\n"), None),
    "bytes that are no UTF-8": (block("$ printf '\\377'\n\\xff\n"), None),
    "standard error": (block("$ echo a >&2\na\n"), None),
    "no input": (block("$ cat\n"), None),
    "another line": (block("$ echo a\nb\n"), at(5, "'b'", "'a'")),
    "a line too few": (block(LINES, "one\n"), at(6, "the end", "'two'")),
    "a line too many": (block("$ echo a\na\nb\n"), at(6, "'b'", "the end")),
    "the second command": (block("$ echo a\na\n$ echo b\nc\n"), at(7, "'c'", "'b'")),
    "any lines": (block(LINES, "...\n"), None),
    "a beginning": (block(LINES, "one\n...\n"), None),
    "an end": (block(LINES, "...\nsix\n"), None),
    "a middle": (block(LINES, "...\nthree\n...\n"), None),
    "no lines between": (block(LINES, "...\none\n...\ntwo\n...\nsix\n...\n"), None),
    "dots in a row": (block(LINES, "...\n...\nsix\n"), None),
    "another beginning": (block(LINES, "two\n...\n"), at(5, "'two'", "'one'")),
    "another end": (block(LINES, "...\nfive\n"), at(6, "'five'", "'six'")),
    "another middle": (block(LINES, "...\nthree\nfive\n...\n"), at(7, "'five'", "'four'")),
    "lines in another order": (block(LINES, "...\ntwo\n...\none\n...\n"), at(8, "'one'", "'three'")),
    "a line twice": (block(LINES, "one\n...\none\n"), at(7, "'one'", "'six'")),
    "lines past the end": (block("$ echo a\na\n...\nb\n...\n"), at(7, "'b'", "the end")),
    "overlapping parts": (block("$ echo a\na\n...\na\n"), at(7, "'a'", "the end")),
    "a status that dots do not hide": (block("$ lrtab 1\n...\n"), at(6, "[status 0]", "[status 1]")),
    "a status after dots": (block("$ lrtab 1\n...\n[status 1]\n"), None),
    "python": (block("$ python3 -c 'print(2)'\n2\n"), None),
    "examples": (block("$ python3 examples/one.py\n1\n"), None),
    "a file of a command": (block("$ echo a > b\n$ cat b\na\n"), None),
    "a file in a folder": ("<!-- file: a/b.c -->\n```\nx\n\ny\n```\n" + block("$ cat a/b.c\nx\n\ny\n"), None),
    "a file": (FILE.format("x") + block("$ cat a\nx\n"), None),
    "a file written twice": (FILE.format("x") + FILE.format("y") + block("$ cat a\ny\n"), None),
    "a file between commands": (block("$ cat a; rm a\nx\n").join((FILE.format("x"), FILE.format("y"))), None),
    "a file without a block": (ONE + "<!-- file: a -->\n\n```\n```\n", "PAGE.md:5: no fenced block follows"),
    "a file elsewhere": (ONE + "<!-- file: ../a -->\n```\n```\n", "PAGE.md:5: it names no file below"),
    "a file from the root": (ONE + "<!-- file: /a -->\n```\n```\n", "PAGE.md:5: it names no file below"),
    "a block without an end": (ONE + "\n```\nx\n", "PAGE.md:6: the block has no end"),
    "a block without a command": (block("a\n"), "PAGE.md:4: a console block begins with a command"),
    "an empty block": (block(), "PAGE.md:4: a console block begins with a command"),
    "a block in another block": (ONE + "````\n```console\nx\n```\n````\n", None),
    "a block of tildes": (ONE + "~~~console\n$ echo '```'\n```\n~~~\n", None),
    "a block of another kind": (ONE + "```sh\n$ false\n```\n", None),
}


class Guide(unittest.TestCase):
    def test_cases(self):
        for name, (page, wanted) in CASES.items():
            with self.subTest(name):
                printed, status, after = run_over(page)
                self.assertEqual(status, 0 if wanted is None else 1, printed)
                self.assertEqual(after, page)
                if wanted is None:
                    self.assertIn(" agree\n", printed)
                else:
                    self.assertTrue(printed.startswith(wanted), printed)
                    self.assertRegex(printed, r"guide: \d+ commands on 1 pages agree, 1 differ\n")

    def test_counts(self):
        one = "guide: 1 commands on 1 pages agree\n"
        for name, page, files, wanted, code in (
            ("no page", "Nothing.\n", {}, "guide: 0 commands on 0 pages agree\n", 1),
            ("one page", ONE + ONE, {}, "guide: 2 commands on 1 pages agree\n", 0),
            ("two pages", ONE, {"docs/A.md": block(LINES, ALL)}, "guide: 2 commands on 2 pages agree\n", 0),
            ("a page that git ignores", ONE, {"out/A.md": block("$ false\n")}, one, 0),
            ("a text that is no page", ONE, {"A.txt": block("$ false\n")}, one, 0),
        ):
            with self.subTest(name):
                self.assertEqual(run_over(page, **files)[:2], (wanted, code))

    def test_each_page_has_its_own_folder(self):
        files = {"A.md": block("$ echo a > b\n"), "B.md": block("$ ls\nexamples\n")}
        self.assertEqual(run_over("Nothing.\n", **files)[:2], ("guide: 2 commands on 2 pages agree\n", 0))

    def test_a_difference_on_each_page(self):
        files = {"A.md": block("$ echo a\n"), "B.md": block("$ echo b\n")}
        printed, status, _ = run_over(ONE, **files)
        self.assertEqual(status, 1)
        for line in ("A.md:5: expected the end, printed 'a'", "B.md:5: expected the end, printed 'b'"):
            self.assertIn(f"{line}\n", printed)
        self.assertIn("guide: 1 commands on 3 pages agree, 2 differ\n", printed)

    def test_writing(self):
        excerpt = "$ lrtab 0 x\n...\ny\n"
        for name, page, wanted, code in (
            ("an output", block("$ lrtab\nx\ny\n"), block("$ lrtab\nlrtab:\n"), 0),
            ("a status", block("$ lrtab 1\n"), block("$ lrtab 1\nlrtab: 1\n[status 1]\n"), 0),
            ("no status", block("$ lrtab\n[status 1]\n"), block("$ lrtab\nlrtab:\n"), 0),
            ("several", block("$ echo a\n", "$ echo b\nc\nd\n"), block("$ echo a\na\n", "$ echo b\nb\n"), 0),
            ("what agrees", block(LINES, "one\n...\n"), block(LINES, "one\n...\n"), 0),
            ("an excerpt", block("$ echo a\n", excerpt), block("$ echo a\na\n", excerpt), 1),
            ("dots", block("$ echo ...\n"), block("$ echo ...\n"), 1),
            ("a command", block("$ echo '$ x'\n"), block("$ echo '$ x'\n"), 1),
            ("a fence", block("$ echo '```'\n"), block("$ echo '```'\n"), 1),
            ("a line like a status", block("$ echo '[status 1]'\n"), block("$ echo '[status 1]'\n"), 1),
        ):
            with self.subTest(name):
                printed, status, after = run_over(page, "--write")
                self.assertEqual((after, status), (wanted, code), printed)
                self.assertEqual(run_over(after)[1], code)

    def test_programs(self):
        page = block("$ lrtab\nother:\n$ lrshow\n", "{}:\n")
        for paths, shown, wanted in (
            (["other"], "lrshow", 0), (["other", "other"], "other", 0), (["none"], "lrshow", 2),
            (["other", "none"], "other", 2), (["other"] * 3, "other", 2), ([], "lrshow", 1),
        ):
            with self.subTest(paths):
                self.assertEqual(run_over(page.format(shown), paths=paths)[1], wanted)
        printed, status, _ = run_over(page, paths=["none"])
        self.assertIn("/none: `rt ci` leaves a proved one", printed)
        for word in ("--help", "--writes"):
            with self.subTest(word):
                printed, status, _ = run_over(page, word)
                self.assertEqual(status, 2)
                self.assertTrue(printed.startswith("tools/run guide"), printed)

    def test_the_environment_is_not_passed_on(self):
        with mock.patch.dict(os.environ, {"LALRPOP_LANE_TABLE": "disabled"}):
            printed, status, _ = run_over(block('$ echo "${LALRPOP_LANE_TABLE-none}"\nnone\n'))
        self.assertEqual(status, 0, printed)

    def test_a_command_that_hangs(self):
        with mock.patch.object(guide, "SECONDS", 1):
            printed, status, _ = run_over(block("$ sleep 100\n[status 124]\n"))
        self.assertEqual(status, 0, printed)
