"""The graph that `lrshow` writes, read as Graphviz reads it, and compared with its data."""
import collections
import math
import re
from xml.etree import ElementTree

from gate.shown.data import WrongData, expect
from gate.shown.listings import Listings, rule_of, token_of
from gate.shown.visible import PICTURES

OPENING = "digraph states {\n  node [shape=box fontname=monospace];\n  edge [fontname=monospace];\n"
# What follows where one state and its neighbours are shown.
ACROSS = "  rankdir=LR;\n"
# What follows where all states are shown, and there are many edges.
LARGE = "  graph [splines=line nslimit=1 nslimit1=1 mclimit=0.2];\n"
NODE = re.compile(r"  ([0-9]+) \[label=<(.*)>( peripheries=2)?( color=red penwidth=2)?\];")
EDGE = re.compile(r"  ([0-9]+) -> ([0-9]+)(?: \[(color=red|style=dashed)\])?;")
LINE_END = '<BR ALIGN="LEFT"/>'
# What may stand in a line, with its attributes.
TAGS = {("B",), ("I",), ("FONT", ("COLOR", "red"))}
# Graphviz puts something else in place of these, after it has read the label as XML.
ESCAPES = re.compile(r"\\([NGETHL\\])")
# The most tokens of a reduction, and the most edges without a remark on how to cut the graph.
TOKENS, MANY = 8, 200


def drawn(line):
    """A line's text as Graphviz draws it, and whether it is red. Some escapes are not replaced."""
    try:
        parts = ElementTree.fromstring(f"<label>{line.replace('&bull;', '&#8226;')}</label>")
    except ElementTree.ParseError as why:
        raise WrongData(f"a label that is no XML: {why}: {line[:200]!r}") from why
    tags = {(it.tag, *it.attrib.items()) for it in parts.iter()} - {("label",)}
    expect(tags <= TAGS, f"a label with {' '.join(it[0] for it in tags - TAGS)}")
    text = ESCAPES.sub(lambda it: "\\" if it[1] == "\\" else f"(in place of {it[0]})", "".join(parts.itertext()))
    return text, any(it[0] == "FONT" for it in tags)


# What a graph shows: None for all states, the number of a state for it and its neighbours, a Near, or
# CONFLICTS for the states on shortest paths to conflicts.
Near = collections.namedtuple("Near", "number depth")
CONFLICTS = "conflicts"


def distances(edges, start):
    """How many edges are at least on a path from a state to each one that has a path."""
    found, front = {start: 0}, [start]
    while front:
        new = sorted({to for at, to in edges if at in front} - set(found))
        found |= {it: found[front[0]] + 1 for it in new}
        front = new
    return found


def near(edges, choice):
    """The states from which, or to which, a path of few edges leads."""
    ahead, back = distances(edges, choice.number), distances({(to, at) for at, to in edges}, choice.number)
    return {it for those in (ahead, back) for it, count in those.items() if count <= choice.depth}


def to_conflicts(edges, ends):
    """The states on shortest paths from state 0 to the ends."""
    ahead, turned = distances(edges, 0), {(to, at) for at, to in edges}
    found = set()
    for end in [it for it in ends if it in ahead]:
        found |= {it for it, count in distances(turned, end).items() if ahead.get(it, math.inf) + count == ahead[end]}
    return found


def read(text, around):
    """The nodes: numbers, lines, how many frames, whether they are red. The edges: two numbers, and looks."""
    is_large = around is None and text.startswith(OPENING + LARGE)
    opening = OPENING + (ACROSS if around is not None else LARGE * is_large)
    expect(text.startswith(opening) and text.endswith("\n}\n"), "a graph with another beginning or end")
    nodes, edges = [], []
    for line in text[len(opening):-2].split("\n")[:-1]:
        if node := NODE.fullmatch(line):
            expect(not edges, "a node after an edge")
            *lines, rest = node[2].split(LINE_END)
            expect(rest == "", "a line of a node without its end")
            nodes.append((int(node[1]), [drawn(it) for it in lines], 2 if node[3] else 1, bool(node[4])))
        else:
            edge = EDGE.fullmatch(line)
            expect(edge, f"a line that is no node and no edge: {line[:200]!r}")
            edges.append((int(edge[1]), int(edge[2]), edge[3] or ""))
    expect(is_large == (around is None and len(edges) > MANY), f"another layout for {len(edges)} edges")
    return nodes, edges


def remark_on(count, around, conflicts):
    """What is printed on standard error about a graph with so many edges and conflicts."""
    cut = "edges: --around STATE shows one state and its neighbours, --conflicts the paths to conflicts"
    if around == CONFLICTS:
        return "" if conflicts else "no conflicts\n"
    return f"{count} {cut}\n" if count > MANY and around is None else ""


def edges_of(data):
    """How many edges the states of some data have."""
    return sum(len(it["shifts"]) + len(it["gotos"]) for it in data["states"])


class Drawn:
    """What a graph has to show of some data: of all states, or of some."""

    def __init__(self, data, around):
        self.data, self.around, self.listings = data, around, Listings(data)
        pairs = {(it["number"], to) for it in data["states"] for edges in ("shifts", "gotos") for to in it[edges].values()}
        if around == CONFLICTS:
            self.only = to_conflicts(pairs, {it["state"] for it in data["conflicts"]})
        else:
            self.only = near(pairs, around) if isinstance(around, Near) else None
        self.red_shifts = {(it["state"], it["actions"][1].get("shift")) for it in data["conflicts"]}

    def edges(self):
        for state in self.data["states"]:
            number = state["number"]
            reds = [(target, (number, it) in self.red_shifts) for it, target in state["shifts"].items()]
            edges = [(target, "color=red" * is_red) for target, is_red in reds]
            edges += [(target, "style=dashed") for target in state["gotos"].values()]
            for target, look in edges:
                if self.has_edge(number, target):
                    yield number, target, look

    def has_edge(self, number, target):
        return {number, target} <= self.only if self.only is not None else self.around in (None, number, target)

    def numbers(self):
        if self.only is not None:
            return sorted(self.only)
        if self.around is None:
            return [it["number"] for it in self.data["states"]]
        return sorted({self.around, *(it for edge in self.edges() for it in edge[:2])})

    def kernel(self, state):
        """The lines of a state's number and of what is before each dot, of its kernel's items, and of
        its reductions."""
        items = [(it, *self.listings.rules[it["production"]]) for it in state["items"]]
        entered_by = {symbols[it["dot"] - 1] for it, _, symbols in items if it["dot"]}
        yield " by ".join([f"State {state['number']}", *entered_by])
        for it, name, symbols in items:
            if it["dot"] or (state["number"] == 0 and name == self.data["start"]):
                yield rule_of(name, [*symbols[:it["dot"]], "•", *symbols[it["dot"]:]])
        for it in state["reductions"]:
            yield f"reduce {self.listings.texts[it['production']]} on{few(it['tokens'])}"

    def frames(self, state):
        """How many frames a state has: one more if it reduces by a production of the start symbol."""
        names = [self.listings.rules[it["production"]][0] for it in state["reductions"]]
        return 2 if self.data["start"] in names else 1

    def check_node(self, number, lines, frames, is_red):
        expected = [(it.translate(PICTURES), False) for it in self.kernel(self.data["states"][number])]
        expect(lines[:len(expected)] == expected, f"state {number} is drawn as {lines} and not as {expected}")
        conflicts = [it for it in self.data["conflicts"] if it["state"] == number]
        is_right = len(lines) == len(expected) + len(conflicts) and is_red == bool(conflicts)
        expect(is_right, f"state {number}: {lines}")
        expect(frames == self.frames(self.data["states"][number]), f"state {number} has {frames} frames")
        for (line, is_red), conflict in zip(lines[len(expected):], conflicts):
            rules = [self.listings.texts[it["reduce"]] for it in conflict["actions"] if "reduce" in it]
            end = f", on{few(conflict['tokens'])}".translate(PICTURES)
            is_shown = line.endswith(end) and all(it.translate(PICTURES) in line for it in rules)
            expect(is_red and is_shown, f"state {number}: conflict {line!r}")


def few(tokens):
    more = len(tokens) - TOKENS
    return "".join(f" {token_of(it)}" for it in tokens[:TOKENS]) + (f" and {more} more" if more > 0 else "")


def check(text, data, around):
    """A graph of all states, or around one, is that of the data."""
    (nodes, edges), expected = read(text, around), Drawn(data, around)
    numbers, expected_edges = [it[0] for it in nodes], list(expected.edges())
    expect(numbers == expected.numbers(), f"nodes {numbers}")
    expect(edges == expected_edges, f"edges {edges} and not {expected_edges}")
    for node in nodes:
        expected.check_node(*node)
