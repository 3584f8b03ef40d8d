"""tools/run crates [--write] [ROOT]

Compares the graph of crates in docs/ARCHITECTURE.md with crates.txt, so that it is not stale. ROOT
is this repository, unless another is given. In the page a line

    <!-- graph of crates -->

comes right before a fenced block. The block has a line for each crate of crates.txt:

    2 b: a

The crate b is in layer 2, and is built on the crate a. In layer 1 no crate is built on another one
of the repository. Any other crate is one layer above the highest one that it is built on. Layers
ascend, and in a layer the order is that of crates.txt. A line leaves out the crates on which others
in the line are built, and the crates of the kit. --write writes the block anew. The status is 0 if
the block is the graph.
"""
import itertools
import os
import re

from gate.files import ROOT, below, listed, read, write
from gate.programs import arguments

PAGE, MARK = "docs/ARCHITECTURE.md", "<!-- graph of crates -->"


class Fault(Exception):
    pass


def reduced(name, crates):
    """The repository's crates that a crate is built on, without those that one of them is built on."""
    direct = [it for it in crates[name] if it in crates]
    deeper = {more for it in direct for more in below(it, crates)}
    return [it for it in direct if it not in deeper]


def layers_of(crates):
    """The layer of each crate. A crate comes after those that it is built on."""
    layers = {}
    for name, words in crates.items():
        for it in words:
            if it in crates and it not in layers:
                raise Fault(f"crates.txt: {name} is built on {it}, which does not come before it")
        layers[name] = 1 + max((layers[it] for it in words if it in crates), default=0)
    return layers


def graph_of(crates):
    """The lines of the graph."""
    layers = layers_of(crates)
    width = len(str(max(layers.values(), default=0)))
    rows = [(layers[it], it, reduced(it, crates)) for it in sorted(crates, key=layers.get)]
    return [f"{layer:{width}} {name}{': ' if on else ''}{' '.join(on)}" for layer, name, on in rows]


def block_of(lines):
    """The places of the first line and of the end of the block after the mark."""
    marks = [n for n, line in enumerate(lines) if line == MARK]
    if len(marks) != 1:
        raise Fault(f"{PAGE} has {len(marks)} lines {MARK}")
    first = marks[0] + 2
    fence = re.match("`{3,}", "".join(lines[first - 1 : first]))
    end = next((n for n in range(first, len(lines)) if fence and lines[n] == fence[0]), None)
    if end is None:
        raise Fault(f"{PAGE}:{first - 1}: no fenced block follows the mark")
    return first, end


def compare(root, writes):
    """Compares the block with the graph, or writes it anew. Returns the number of crates."""
    crates, lines = listed(root), read(f"{root}/{PAGE}").split("\n")
    expected = graph_of(crates)
    first, end = block_of(lines)
    if writes:
        lines[first:end] = expected
        write(f"{root}/{PAGE}", "\n".join(lines))
        return len(crates)
    for place, (old, new) in enumerate(itertools.zip_longest(expected, lines[first:end]), first + 1):
        if old != new:
            raise Fault(f"{PAGE}:{place}: crates.txt gives {old!r}, the page has {new!r}")
    return len(crates)


def main(words):
    root = os.path.realpath(*arguments([it for it in words if it != "--write"], __doc__, ROOT))
    try:
        count = compare(root, "--write" in words)
    except Fault as fault:
        print(fault)
        return 1
    print(f"crates: {count} crates, the graph agrees")
    return 0
