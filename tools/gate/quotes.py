"""tools/run quotes [--write] [ROOT]

Compares what the pages quote from the sources with the sources, so that no quote is stale. ROOT is
this repository, unless another is given. In each *.md that git does not ignore, a line

    <!-- quoted: crates/X/src/FILE.rt NAME -->

stands right before a fenced block. The block must be what the file declares under that name. It is
the signature of a function with all its clauses, up to the body. It is all of a struct, an enum, a
trait or a type. The lines above the declaration and its indentation are left out.
A function is quoted with its body where `whole` comes after NAME. The file is quoted where there is
no NAME. --write writes the blocks anew from the sources. The status is 0 where all quotes agree and
there are some.
"""
import itertools
import os
import re
import subprocess

from gate.declarations import HEAD, Declaration
from gate.files import ROOT, read, write
from gate.programs import arguments

MARK = re.compile(r"<!-- quoted: (?P<path>crates/\S+\.rt)(?: (?P<name>\w+)(?P<whole> whole)?)? -->")


class Fault(Exception):
    pass


def quote_of(root, mark):
    """The text that the sources have for a mark."""
    if not os.path.isfile(f"{root}/{mark['path']}"):
        raise Fault("there is no such file")
    text = read(f"{root}/{mark['path']}")
    if not mark["name"]:
        return text.rstrip("\n")
    found = [it for it in HEAD.finditer(text) if it["name"] == mark["name"] and it["kind"] != "impl"]
    if len(found) != 1:
        raise Fault(f"the file declares it {len(found)} times")
    it = Declaration(text, found[0])
    quoted = it.text if mark["whole"] or it.kind != "fn" else it.contract
    return "\n".join(line.removeprefix(it.indent) for line in quoted.rstrip().split("\n"))


def compare_quote(root, lines, number, writes):
    """Compares the quote of a page whose mark is the line of that number, or writes it anew."""
    mark, fence = MARK.fullmatch(lines[number]), re.match("`{3,}", "".join(lines[number + 1 : number + 2]))
    end = next((n for n in range(number + 2, len(lines)) if fence and lines[n] == fence[0]), None)
    if not mark or not end:
        raise Fault("no fenced block stands after it" if mark else "it is not a quote's first line")
    expected = quote_of(root, mark).split("\n")
    if writes:
        lines[number + 2 : end] = expected
        return
    for place, (old, new) in enumerate(itertools.zip_longest(expected, lines[number + 2 : end])):
        if old != new:
            raise Fault(f"line {place + 1}: the source has {old!r}, the quote {new!r}")


def compare_page(root, page, writes):
    """How many quotes a page has, and what is wrong with some of them."""
    lines, faults = read(f"{root}/{page}").split("\n"), []
    numbers = [n for n, line in enumerate(lines) if line.startswith("<!-- quoted:")]
    for number in reversed(numbers):
        try:
            compare_quote(root, lines, number, writes)
        except Fault as fault:
            faults.append(f"{page}:{number + 1}: {lines[number]}: {fault}")
    if writes and numbers:
        write(f"{root}/{page}", "\n".join(lines))
    return len(numbers), faults[::-1]


def main(words):
    root = os.path.realpath(*arguments([it for it in words if it != "--write"], __doc__, ROOT))
    asked = ["git", "-C", root, "ls-files", "-z", "--cached", "--others", "--exclude-standard", "*.md"]
    pages = [it for it in subprocess.check_output(asked, text=True).split("\0") if os.path.isfile(f"{root}/{it}")]
    results = [compare_page(root, it, "--write" in words) for it in sorted(pages)]
    count, faults = sum(it[0] for it in results), [fault for it in results for fault in it[1]]
    print(*faults, f"quotes: {count - len(faults)} agree" + (f", {len(faults)} differ" if faults else ""), sep="\n")
    return 1 if faults or not count else 0
