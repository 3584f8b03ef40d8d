"""Tests the check of the pages, by pages in a scratch git repository."""
import contextlib
import io
import os
import subprocess
import tempfile
import unittest

from gate import pages
from gate.files import write

LONG = "x" * 101
URL = f"https://example.org/{LONG}"

# What a page holds, and the faults that it has: for each the line, and a part of what is printed.
CASES = (
    ("a line of 100 columns", "x" * 100, ()),
    ("a line of 101 columns", f"one\n\n{LONG}\n", ((3, "101 columns, of at most 100"),)),
    ("columns are characters", "ä" * 100, ()),
    ("line ends of two characters", "x" * 100 + "\r\n", ()),
    ("a long row", f"| a | {LONG} |\n|---|---|\n  | {LONG} | a |", ()),
    ("fenced code", f"```sh\n{LONG}\n```\n{LONG}", ((4, "101 columns"),)),
    ("code in another fence", f"a\n\n  ~~~~\n{LONG}\n~~~\n{LONG}\n  ~~~~\n{LONG}", ((8, "101 columns"),)),
    ("a fence inside a longer one", f"````\n```\n{LONG}\n````\n{LONG}", ((5, "101 columns"),)),
    ("three backticks in a line", f"```a``` b\n{LONG}", ((2, "101 columns"),)),
    ("indented code", f"a\n\n    {LONG}", ((3, "105 columns"),)),
    ("a long URL", f"See [it]({URL}), or <{URL}>, or\n{URL}\n\n[it]: {URL}\n", ()),
    ("long words beside a URL", f"[{LONG}]({URL})", ((1, "105 columns"),)),
    ("a cell of 300", f"| a | {'x' * 300} |", ()),
    ("a cell of 301", f"| a | {'x' * 301} | b |", ((1, "a cell has 301 characters, of at most 300"),)),
    ("a bar within a cell", f"| {'x' * 200} \\| {'x' * 200} |", ((1, "a cell has 404 characters"),)),
    ("each phrase", "\n".join(pages.PHRASES), tuple((n, it) for n, it in enumerate(pages.PHRASES, 1))),
    ("a phrase over two lines", "a\nWant of\n  memory", ((2, '"Want of memory" is against docs/STYLE.md'),)),
    ("parts of words", "allowed, followed, is owedness, wrong bodyguards", ()),
    ("phrases in code", "`owed` ``a ` owed``\n\n```\nowed\n```\n`a\nwrong body`", ()),
    ("a backtick alone", "a ` b\n\nowed `", ((3, "owed"),)),
    ("a backtick alone in a row", "| ` | a |\n| owed | ` |", ((2, "owed"),)),
    ("a backtick that is escaped", "\\`owed`", ((1, "owed"),)),
    ("links that lead on", "[a](B.md) [b](sub/) [c](../README.md#x) [`d`](</docs/B.md>)", ()),
    ("links with a blank and a title", "[a](a%20b.md 'title')", ()),
    ("links elsewhere", "[a](https://a.b/c) [b](#part) [c](mailto:a@b.c) [d](//a.b)\n\n[e]: http://a.b", ()),
    ("a link that leads nowhere", "a\n[a](B.md), [b](C.md)", ((2, "the link leads nowhere: C.md"),)),
    ("a link from the folder of the page", "[a](docs/B.md)", ((1, "docs/B.md"),)),
    ("a picture", "![a](no.png)", ((1, "no.png"),)),
    ("a link by reference", "a [b] c\n\n[b]: C.md", ((3, "C.md"),)),
    ("a link in code", "`[a](C.md)`\n\n```\n[a](C.md)\n```", ()),
    ("names of pages", "`docs/B.md`, `see docs/A.md and docs/B.md`", ()),
    ("a name of no page", "a\n`b` `x\ndocs/C.md`", ((3, "there is no docs/C.md"),)),
    ("a name in plain text or in another folder", "docs/C.md, `crates/a/docs/C.md`", ()),
    ("faults by line", f"[a](C.md)\n{LONG}\nowed", ((1, "C.md"), (2, "columns"), (3, "owed"))),
    ("no text", "", ()),
)


class Scratch(unittest.TestCase):
    def setUp(self):
        room = tempfile.TemporaryDirectory(prefix="pages-test-")
        self.addCleanup(room.cleanup)
        self.root = room.name
        subprocess.run(["git", "init", "-q", self.root], check=True)
        for path, text in (("README.md", ""), ("docs/B.md", ""), ("docs/a b.md", ""), ("docs/sub/it", "")):
            write(f"{self.root}/{path}", text)

    def checked(self):
        """The lines that the command prints, and its status."""
        with contextlib.redirect_stdout(io.StringIO()) as out:
            status = pages.main([], self.root)
        return out.getvalue().splitlines(), status

    def check(self, path, faults):
        """Checks that these are the faults, all of one page."""
        lines, status = self.checked()
        self.assertEqual(status, 1 if faults else 0, lines)
        self.assertEqual(len(lines), len(faults) + 1, lines)
        for line, (number, what) in zip(lines, faults):
            self.assertTrue(line.startswith(f"{path}:{number}: "), line)
            self.assertIn(what, line)
        self.assertIn(f"{len(faults) or 'no'} faults", lines[-1])


class Faults(Scratch):
    def test_of_a_page(self):
        for name, text, faults in CASES:
            with self.subTest(name):
                write(f"{self.root}/docs/A.md", text)
                self.check("docs/A.md", faults)

    def test_of_the_first_page(self):
        for lines, faults in ((150, ()), (151, ((151, "the page has 151 lines, of at most 150"),))):
            for end in ("", "\n"):
                with self.subTest(f"{lines} {end!r}"):
                    write(f"{self.root}/README.md", "\n".join(["x"] * lines) + end)
                    self.check("README.md", faults)
        write(f"{self.root}/README.md", "")
        write(f"{self.root}/sub/README.md", "x\n" * 151)
        self.check("sub/README.md", ())

    def test_of_the_page_of_style(self):
        """It may name the phrases, and keeps to the rest of the rule."""
        write(f"{self.root}/docs/STYLE.md", f"owed\n{LONG}\n")
        self.check("docs/STYLE.md", ((2, "101 columns"),))


class WhichPages(Scratch):
    def test_ignored(self):
        write(f"{self.root}/.gitignore", "out/\n")
        write(f"{self.root}/out/A.md", "owed")
        write(f"{self.root}/docs/A.txt", "owed")
        self.check("", ())

    def test_known_to_git(self):
        """A page counts before it is added and after, and no more once it is removed."""
        write(f"{self.root}/docs/sub/A.md", "owed")
        self.check("docs/sub/A.md", ((1, "owed"),))
        subprocess.run(["git", "-C", self.root, "add", "docs"], check=True)
        self.check("docs/sub/A.md", ((1, "owed"),))
        os.remove(f"{self.root}/docs/sub/A.md")
        self.check("", ())


class Command(unittest.TestCase):
    def test_words(self):
        with contextlib.redirect_stdout(io.StringIO()) as out:
            self.assertEqual(pages.main(["docs"]), 2)
        self.assertTrue(out.getvalue().startswith("tools/run pages\n"))
