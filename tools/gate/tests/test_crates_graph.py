"""Tests of gate.crates_graph over a scratch repository."""
import unittest

from gate import crates_graph
from gate.files import ROOT, listed, read
from gate.tests.programs import CommandTest, run_over

CRATES = "# Lowest first: these.\na: thiserror\nb: a\nc: a b indexmap\nd: a\ne:\ntop: a d b c\n"
GRAPH = "1 a\n1 e\n2 b: a\n2 d: a\n3 c: b\n4 top: d c"


def page(graph, mark=crates_graph.MARK, fence="```"):
    return f"Before.\n\n{mark}\n{fence}text\n{graph}\n```\n\nAfter.\n"


def graph(text, crates=CRATES, *words):
    """Runs the command over a new repository, and prints what its page then has."""

    def main(given):
        status = crates_graph.main(given)
        print(read(f"{given[-1]}/{crates_graph.PAGE}"), end="")
        return status

    return run_over({"crates.txt": crates, crates_graph.PAGE: text}, main, *words, "ROOM")


class Graph(CommandTest):
    def test_what_is_printed(self):
        self.check(graph, (
            ("the graph", 0, "crates: 6 crates, the graph agrees\n", page(GRAPH)),
            ("a changed line", 1, "ARCHITECTURE.md:9: crates.txt gives '3 c: b', the page has '3 c: a b'",
             page(GRAPH.replace("c: b", "c: a b"))),
            ("a missing line", 1, ":10: crates.txt gives '4 top: d c', the page has None", page(GRAPH[:-11])),
            ("a line too many", 1, ":11: crates.txt gives None, the page has '4 more'", page(f"{GRAPH}\n4 more")),
            ("a new crate", 1, "gives '4 new: c', the page has None", page(GRAPH), f"{CRATES}new: c\n"),
            ("a static library", 1, "gives '5 for_c: top', the page has None", page(GRAPH),
             f"{CRATES}for_c staticlib: top\n"),
            ("no mark", 1, f"docs/ARCHITECTURE.md has 0 lines {crates_graph.MARK}", page(GRAPH, "")),
            ("two marks", 1, "has 2 lines", page(GRAPH) + page(GRAPH)),
            ("no block", 1, "ARCHITECTURE.md:3: no fenced block follows the mark", page(GRAPH, fence="")),
            ("a block without an end", 1, "no fenced block", page(GRAPH, fence="````")),
            ("a crate above", 1, "crates.txt: a is built on b, which does not come before it", page(""), "a: b\nb:\n"),
            ("a ring", 1, "crates.txt: a is built on a, which", page(""), "a: a\n"),
            ("written anew", 0, f"agrees\n{page(GRAPH)}", page("old\n\nlines"), CRATES, "--write"),
            ("written where it agrees", 0, f"agrees\n{page(GRAPH)}", page(GRAPH), CRATES, "--write"),
            ("too many words", 2, "tools/run crates [--write] [ROOT]", page(GRAPH), CRATES, "one"),
        ))

    def test_ten_layers(self):
        """Numbers of layers are as wide as the greatest."""
        crates = {f"c{n}": [f"c{n - 1}"] if n else [] for n in range(10)}
        self.assertEqual(crates_graph.graph_of(crates)[8:], [" 9 c8: c7", "10 c9: c8"])

    def test_no_crates(self):
        self.assertEqual(crates_graph.graph_of({}), [])


class Repository(unittest.TestCase):
    def test_edges(self):
        """In this repository each line leads on to all that crates.txt names, and no edge can go."""
        crates = listed(ROOT)
        on = {it: crates_graph.reduced(it, crates) for it in crates}

        def reached(name, edges):
            return {more for it in edges[name] for more in ({it} | reached(it, edges))}

        for name in crates:
            self.assertEqual(reached(name, on), {it for it in crates_graph.below(name, crates)}, name)
            for it in on[name]:
                less = {**on, name: [other for other in on[name] if other != it]}
                self.assertNotIn(it, reached(name, less))
