"""tools/run guide [--write] [LRTAB [LRSHOW]]

Runs the commands that pages show, and compares what they print with what the pages have.

LRTAB and LRSHOW are the paths of the two programs. The defaults are crates/lrtab/out/lrtab and
crates/lrshow/out/lrshow. A page is each *.md that git does not ignore and that has a block such as

    ```console
    $ lrtab calc.txt S parse 3 NUM + NUM
    limit
    [status 1]
    ```

A line that begins with `$ ` is a command for `sh`. The lines after it are what the command prints,
on standard output and standard error together. A line `...` matches any lines, or none. The last
line `[status N]` is the exit status. It is left out where the status is 0. A line

    <!-- file: calc.txt -->

comes right before a fenced block. The block's lines are written into that file.

Each page has a scratch folder with a copy of the repository's folder `examples`. There its files
are written and its commands are run, from the top of the page to its end. PATH has `lrtab`,
`lrshow`, `python3` and the system's folders. LALRPOP_LANE_TABLE is not set. A command has a minute.

A difference is printed as `PAGE:LINE: expected .., printed ..`. With --write the outputs are written
anew. An output with a line `...` is only compared. The status is 0 where all commands agree and
there is one, 1 where not, and 2 where a program is missing.
"""
import collections
import itertools
import os
import re
import shutil
import subprocess
import sys
import tempfile

from gate.files import ROOT, read, write

FENCE = re.compile(r"(?P<fence>`{3,}|~{3,}) *(?P<kind>[^\s`]*)")
FILE = re.compile(r"<!-- file: (?P<path>\w[\w.-]*(?:/\w[\w.-]*)*) -->")
CONSOLE = re.compile(r"(?m)^(?:`{3,}|~{3,}) *console\b")
STATUS = re.compile(r"\[status (\d+)\]")
ANY, PROMPT, SECONDS = "...", "$ ", 60

# A fenced block: its first line, the line after its last one, the kind after the fence, and the file
# that the mark before the block names. Lines are counted from 0.
Block = collections.namedtuple("Block", "first end kind path")


class Fault(Exception):
    """What is wrong with a line of a page: its number, from 0, and a text."""


def end_of(lines, at):
    """The place of the line that ends the fenced block which begins at a place."""
    fence = FENCE.match(lines[at])["fence"]
    for n in range(at + 1, len(lines)):
        if lines[n].startswith(fence) and not lines[n].rstrip().strip(fence[0]):
            return n
    raise Fault(at, "the block has no end")


def path_before(lines, at):
    """The file that the mark before a block names, or None."""
    mark = FILE.fullmatch(lines[at - 1]) if at else None
    return mark["path"] if mark else None


def check_mark(lines, at):
    """A mark of a file names one, and a block follows it."""
    if not FILE.fullmatch(lines[at]):
        raise Fault(at, "it names no file below the scratch folder")
    if not FENCE.match("".join(lines[at + 1 : at + 2])):
        raise Fault(at, "no fenced block follows")


def blocks_of(lines):
    """The fenced blocks of a page, in their order."""
    found, at = [], 0
    while at < len(lines):
        fence, end = FENCE.match(lines[at]), at
        if fence:
            end = end_of(lines, at)
            found.append(Block(at + 1, end, fence["kind"], path_before(lines, at)))
        elif lines[at].startswith("<!-- file:"):
            check_mark(lines, at)
        at = end + 1
    return found


def commands_in(lines, block):
    """The places of a block's commands, each with the place after what it is to print."""
    heads = [n for n in range(block.first, block.end) if lines[n].startswith(PROMPT)]
    if heads[:1] != [block.first]:
        raise Fault(block.first, f"a console block begins with a command, after `{PROMPT}`")
    return list(zip(heads, [*heads[1:], block.end]))


def ran(command, folder, path):
    """The lines that a command prints, and its exit status, as a shell has it."""
    how = {"stdin": subprocess.DEVNULL, "stdout": subprocess.PIPE, "stderr": subprocess.STDOUT}
    env = {"PATH": path, "HOME": folder, "LC_ALL": "C.UTF-8", "PYTHONDONTWRITEBYTECODE": "1"}
    limited = ["timeout", str(SECONDS), "sh", "-c", command]
    it = subprocess.run(limited, cwd=folder, env=env, check=False, **how)
    lines = it.stdout.decode(errors="backslashreplace").split("\n")
    status = it.returncode if it.returncode >= 0 else 128 - it.returncode
    return (lines if lines[-1] else lines[:-1]), status


def unequal(expected, printed, at):
    """The first difference of lines that must be equal, or None: its place, and both lines."""
    for n, lines in enumerate(itertools.zip_longest(expected, printed)):
        if lines[0] != lines[1]:
            return at + n, *("the end" if it is None else repr(it) for it in lines)
    return None


def place_of(part, lines, first):
    """The first place, from a place on, at which the most lines of the part's beginning lie."""

    def equal(n):
        return sum(1 for _ in itertools.takewhile(lambda it: it[0] == it[1], zip(part, lines[n:])))

    return max(range(first, len(lines) + 1), key=equal)


def difference(expected, printed):
    """The first line that differs, or None. An expected line `...` matches any lines."""
    cuts = [n for n, it in enumerate(expected) if it == ANY]
    if not cuts:
        return unequal(expected, printed, 0)
    done = cuts[0]
    found = unequal(expected[:done], printed[:done], 0)
    for cut, end in itertools.pairwise(cuts):
        part = expected[cut + 1 : end]
        at = place_of(part, printed, min(done, len(printed)))
        done = at + len(part)
        found = found or unequal(part, printed[at:done], cut + 1)
    last = expected[cuts[-1] + 1 :]
    at = max(done, len(printed) - len(last))
    return found or unequal(last, printed[at:], cuts[-1] + 1)


def split_status(expected):
    """The expected lines without the line of the exit status, and the status."""
    found = STATUS.fullmatch(expected[-1]) if expected else None
    return (expected[:-1], int(found[1])) if found else (expected, 0)


def compared(expected, printed, status):
    """What is wrong with a command's output: a place among the expected lines and a text, or None."""
    wanted, code = split_status(expected)
    if found := difference(wanted, printed):
        return found[0], f"expected {found[1]}, printed {found[2]}"
    if status != code:
        return len(wanted), f"expected [status {code}], printed [status {status}]"
    return None


def written(printed, status, head):
    """The lines of a page for what the command at a place printed."""
    for line in printed:
        if line.startswith((PROMPT, "```", "~~~")) or line == ANY or STATUS.fullmatch(line):
            raise Fault(head, f"a page cannot have the printed line {line!r}")
    return [*printed, *([f"[status {status}]"] if status else [])]


class Page:
    """A page, the scratch folder of its files and commands, and what was found."""

    def __init__(self, root, name, folder, path):
        self.file, self.name, self.folder, self.path = f"{root}/{name}", name, folder, path
        self.lines, self.agree, self.faults, self.edits = read(self.file).split("\n"), 0, [], []

    def fault(self, line, text):
        self.faults.append(f"{self.name}:{line + 1}: {text}")

    def try_command(self, head, end, writes):
        """Runs a command, and compares what it prints or plans to write it."""
        expected = self.lines[head + 1 : end]
        printed, status = ran(self.lines[head][len(PROMPT) :], self.folder, self.path)
        found = compared(expected, printed, status)
        try:
            if found and writes and ANY not in expected:
                self.edits.append((head + 1, end, written(printed, status, head)))
            elif found:
                raise Fault(head + 1 + found[0], found[1])
            self.agree += 1
        except Fault as fault:
            self.fault(*fault.args)

    def try_blocks(self, writes):
        """Writes the files and runs the commands of the page, in their order."""
        for block in blocks_of(self.lines):
            if block.path:
                lines = self.lines[block.first : block.end]
                write(f"{self.folder}/{block.path}", "".join(f"{it}\n" for it in lines))
            elif block.kind == "console":
                for head, end in commands_in(self.lines, block):
                    self.try_command(head, end, writes)

    def run(self, writes):
        try:
            self.try_blocks(writes)
        except Fault as fault:
            self.fault(*fault.args)
        for first, end, lines in reversed(self.edits):
            self.lines[first:end] = lines
        if self.edits:
            write(self.file, "\n".join(self.lines))


def pages_of(root):
    """The pages that have a console block, by their paths below the root."""
    asked = ["git", "-C", root, "ls-files", "-z", "--cached", "--others", "--exclude-standard", "*.md"]
    names = sorted(set(subprocess.check_output(asked, text=True).split("\0")))
    names = [it for it in names if os.path.isfile(f"{root}/{it}")]
    return [it for it in names if CONSOLE.search(read(f"{root}/{it}"))]


def run_pages(root, programs, writes):
    """Tries each page in a scratch folder of its own."""
    pages = []
    with tempfile.TemporaryDirectory(prefix="guide-") as room:
        os.mkdir(f"{room}/bin")
        for name, program in {**programs, "python3": sys.executable}.items():
            os.symlink(program, f"{room}/bin/{name}")
        for number, name in enumerate(pages_of(root)):
            folder = f"{room}/{number}"
            os.mkdir(folder)
            if os.path.isdir(f"{root}/examples"):
                shutil.copytree(f"{root}/examples", f"{folder}/examples")
            pages.append(Page(root, name, folder, f"{room}/bin:{os.defpath}"))
            pages[-1].run(writes)
    return pages


def main(words, root=ROOT):
    given = [it for it in words if it != "--write"]
    if len(given) > 2 or any(it.startswith("-") for it in given):
        print(__doc__)
        return 2
    names = ("lrtab", "lrshow")
    paths = [*given, *(f"{root}/crates/{it}/out/{it}" for it in names[len(given) :])]
    programs = {name: os.path.realpath(path) for name, path in zip(names, paths)}
    for path in programs.values():
        if not os.access(path, os.X_OK):
            print(f"guide: no program {path}: `rt ci` leaves a proved one, tools/build one that is not")
            return 2
    pages = run_pages(root, programs, "--write" in words)
    faults, agree = [line for page in pages for line in page.faults], sum(it.agree for it in pages)
    differ = f", {len(faults)} differ" if faults else ""
    print(*faults, f"guide: {agree} commands on {len(pages)} pages agree{differ}", sep="\n")
    return 1 if faults or not agree else 0
