"""tools/run pages

Checks the pages: the files *.md that git does not ignore. It checks the part of docs/STYLE.md that
a script can check:

  - No line has more than 100 columns. Tables and fenced code are left out, and URLs of links do
    not count.
  - No cell of a table has more than 300 characters.
  - README.md has at most 150 lines.
  - No phrase of PHRASES occurs outside code.
  - Each relative link, and each `docs/NAME.md` in backticks, names something that exists.

Each fault is printed as PAGE:LINE: what. The status is 0 where there is no fault.
"""
import os
import re
import subprocess
from urllib.parse import unquote

from gate.files import ROOT, read

COLUMNS, CHARACTERS, LINES = 100, 300, 150
STYLE = "docs/STYLE.md"
PHRASES = ("wrong body", "wrong bodies", "want of memory", "answers by hand", "owed")

PHRASE = re.compile(r"\b(?:%s)\b" % "|".join(PHRASES).replace(" ", r"\s+"), re.IGNORECASE)
FENCE = re.compile(r"\s*(`{3,}(?=[^`]*$)|~{3,})")
# A code span, which ends before the next paragraph and before the next row of a table.
SPAN = re.compile(r"(?<![`\\])(`+)(?!`)((?:(?!\n[ \t]*[\n|]).)+?)(?<!`)\1(?!`)", re.DOTALL)
CELL_END = re.compile(r"(?<!\\)\|")
URL = re.compile(r"(?<=\]\()[^\s)]+|\bhttps?://[^\s)>]+|(?<=\]: )\S+")
LINK = re.compile(r"\]\(\s*<?([^\s<>()]+)|^ {0,3}\[[^\]\n]+\]:\s*<?([^\s<>]+)", re.MULTILINE)
ELSEWHERE = re.compile(r"[a-z][a-z0-9+.-]*:|//|#", re.IGNORECASE)
NAMED = re.compile(r"(?<![\w./-])docs/[\w-]+\.md\b")


def unfenced(lines):
    """The lines, with empty ones in the place of fenced code."""
    kept, fence = [], ""
    for line in lines:
        opened = FENCE.match(line)
        kept.append("" if fence or opened else line)
        if fence:
            rest = line.strip()
            fence = "" if len(rest) >= len(fence) and set(rest) == {fence[0]} else fence
        elif opened:
            fence = opened[1]
    return kept


def line_at(text, place):
    return text.count("\n", 0, place) + 1


def is_row(line):
    return line.lstrip().startswith("|")


class Page:
    """A page of a repository: its lines and text without fenced code, and its text without code."""

    def __init__(self, root, path):
        self.root, self.path = root, path
        text = read(f"{root}/{path}")
        self.count = len(text.splitlines())
        self.lines = unfenced([it.rstrip("\r") for it in text.split("\n")])
        self.text = "\n".join(self.lines)
        self.prose = SPAN.sub(lambda it: re.sub(r"[^\n]", "\0", it[0]), self.text)

    def faults(self):
        """The faults of the page, each a line and what is wrong, by line."""
        checks = (self.long_lines, self.long_cells, self.length, self.phrases, self.links, self.names)
        return sorted(fault for check in checks for fault in check())

    def long_lines(self):
        for number, line in enumerate(self.lines, 1):
            columns = len(URL.sub("", line))
            if columns > COLUMNS and not is_row(line):
                yield number, f"the line has {columns} columns, of at most {COLUMNS}"

    def long_cells(self):
        for number, line in enumerate(self.lines, 1):
            for cell in CELL_END.split(line.strip()) if is_row(line) else ():
                characters = len(cell.strip())
                if characters > CHARACTERS:
                    yield number, f"a cell has {characters} characters, of at most {CHARACTERS}"

    def length(self):
        if self.path == "README.md" and self.count > LINES:
            yield LINES + 1, f"the page has {self.count} lines, of at most {LINES}"

    def phrases(self):
        for it in PHRASE.finditer(self.prose) if self.path != STYLE else ():
            yield line_at(self.prose, it.start()), f'"{" ".join(it[0].split())}" is against {STYLE}'

    def links(self):
        for it in LINK.finditer(self.prose):
            target = it[1] or it[2]
            if not ELSEWHERE.match(target) and not self.leads_on(target):
                yield line_at(self.prose, it.start()), f"the link leads nowhere: {target}"

    def leads_on(self, target):
        """Whether the target of a relative link exists."""
        path = unquote(re.split("[#?]", target)[0])
        folder = "" if path.startswith("/") else os.path.dirname(self.path)
        return os.path.exists(f"{self.root}/{folder}/{path}")

    def names(self):
        for span in SPAN.finditer(self.text):
            for it in NAMED.finditer(span[2]):
                if not os.path.exists(f"{self.root}/{it[0]}"):
                    yield line_at(self.text, span.start(2) + it.start()), f"there is no {it[0]}"


def pages_of(root):
    """The paths of the pages of a repository, in order."""
    known = ["git", "ls-files", "-z", "--cached", "--others", "--exclude-standard", "--", "*.md"]
    ran = subprocess.run(known, cwd=root, stdout=subprocess.PIPE, text=True, check=True)
    return sorted({it for it in ran.stdout.split("\0") if it and os.path.isfile(f"{root}/{it}")})


def main(words, root=ROOT):
    if words:
        print(__doc__)
        return 2
    pages = pages_of(root)
    faults = [(path, *it) for path in pages for it in Page(root, path).faults()]
    for path, number, what in faults:
        print(f"{path}:{number}: {what}")
    print(f"pages: {len(pages)} pages, {len(faults) or 'no'} faults")
    return 1 if faults else 0
