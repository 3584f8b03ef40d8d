"""The tree that `lrshow` draws of a parse, computed anew from the data of its tables."""
import re

from gate.shown.data import expect
from gate.shown.listings import token_of
from gate.shown.visible import PICTURES, VISIBLE

# The steps after which no tree is drawn.
STEPS = 1_000_000


class Parser:
    """A parser over data without conflicts. A tree is a text, and a list of trees or None for a leaf."""

    def __init__(self, data):
        self.rules = {it["number"]: it for it in data["productions"]}
        self.states = data["states"]
        self.reductions = [{t: it["production"] for it in s["reductions"] for t in it["tokens"]} for s in self.states]

    def end_of(self, tokens, ends, place, state):
        """True if the tokens are shifted and are not to end, the number of shifted tokens if no step can be
        made, and else None."""
        if place == len(tokens) and not ends:
            return True
        token = tokens[place] if place < len(tokens) else None
        is_shifted = token is not None and token in self.states[state]["shifts"]
        return None if is_shifted or token in self.reductions[state] else place

    def run(self, tokens, ends):
        """The tree, or True if the tokens are shifted and are not to end; else the number of tokens that
        are shifted, or None at the limit. A refusal that needs no step comes before the limit."""
        stack, trees, place = [0], [], 0
        for _ in range(STEPS):
            state = stack[-1]
            if (end := self.end_of(tokens, ends, place, state)) is not None:
                return end
            token = tokens[place] if place < len(tokens) else None
            if token is not None and token in self.states[state]["shifts"]:
                stack.append(self.states[state]["shifts"][token])
                trees.append((token_of(token), None))
                place += 1
                continue
            rule = self.rules[self.reductions[state][token]]
            count = len(rule["symbols"])
            children = trees[len(trees) - count :]
            del stack[len(stack) - count :], trees[len(trees) - count :]
            tree = (rule["nonterminal"], children)
            target = self.states[stack[-1]]["gotos"].get(rule["nonterminal"])
            if target is None:
                return tree if token is None and stack == [0] else place
            stack.append(target)
            trees.append(tree)
        return self.end_of(tokens, ends, place, stack[-1])

    def expected(self, before, terminals):
        """The tokens with which a run goes on after some tokens."""
        ends = isinstance(self.run(before, True), tuple)
        return [token_of(it) for it in terminals if self.run([*before, it], False) is True] + ["Eof"] * ends


def lines_of(tree):
    waiting, lines = [(tree, 0)], []
    while waiting:
        (text, children), depth = waiting.pop()
        lines.append(f"{'  ' * depth}{text.translate(VISIBLE)}{' =' if children == [] else ''}\n")
        waiting += [(it, depth + 1) for it in reversed(children or [])]
    return "".join(lines)


def quoted(text):
    return re.sub(r'(["\\\\])', r"\\\1", text.translate({**PICTURES, ord("&"): "&amp;"}))


def graph_of(tree):
    waiting, lines, number = [(tree, None)], [], 0
    while waiting:
        (text, children), parent = waiting.pop()
        lines.append(f'  {number} [label="{quoted(text)}"{" shape=plaintext" if children is None else ""}];\n')
        lines += [f"  {parent} -> {number};\n"] if parent is not None else []
        waiting += [(it, number) for it in reversed(children or [])]
        number += 1
    return "".join(["digraph tree {\n  node [shape=box fontname=monospace];\n", *lines, "}\n"])


def expected_of(data, tokens, is_graph):
    """The status, the text and the remark of a parse."""
    if data["conflicts"]:
        return 1, "", f"conflicts: {len(data['conflicts'])}\n"
    parser = Parser(data)
    result = parser.run(tokens, True)
    if result is None:
        return 1, "", f"no tree within {STEPS} steps\n"
    if isinstance(result, tuple):
        return 0, graph_of(result) if is_graph else lines_of(result), ""
    place = f"token {result + 1}, {token_of(tokens[result])}, is wrong" if result < len(tokens) else "the input ends too early"
    expected = parser.expected(tokens[:result], data["terminals"])
    return 1, "", f"{place}; expected:{''.join(f' {it}' for it in expected)}".translate(VISIBLE) + "\n"


def check(answer, data, tokens, is_graph):
    """A drawing of a parse is that by the data."""
    status, text, remark = expected_of(data, tokens, is_graph)
    got = answer.status, answer.stdout, answer.stderr
    expect(got == (status, text.encode(), remark.encode()), f"expected {status}, {text[:300]!r} and {remark[:300]!r}")
