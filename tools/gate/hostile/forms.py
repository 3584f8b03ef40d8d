"""What rules say of the trees and explanations of docs/FORMATS.md, and of tokens with quotes."""
import collections
import re

from gate.hostile.reading import LITERAL, NAME, is_literal
from gate.shown.data import EXAMPLES, expect

NUMBER = r"(?:0|[1-9][0-9]*)"
SYMBOL = rf"(?:{NAME}|{LITERAL})"
TOKEN = rf"(?:{LITERAL}|Eof)"
TREE_PART = re.compile(rf"\[({NAME}): |({LITERAL})|(, )|(\])")
EXAMPLE = rf"   (?: {SYMBOL})* \(\*\)(?: {SYMBOL})*\n"
REDUCE = rf"  reduce ({NAME}) ->((?: {SYMBOL})*)\n((?:{EXAMPLE})*)"
SHIFT = rf"  shift (?P<shift>{LITERAL})\n(?P<examples>(?:{EXAMPLE})*)"
HEAD = rf"conflict ({NUMBER}) in state ({NUMBER}) on((?: {TOKEN})+)\n"
CONFLICT = re.compile(rf"{HEAD}{REDUCE}(?:{REDUCE}|{SHIFT})")


def symbols_of(part):
    """The symbols of a text, each of which has a space before it."""
    return tuple(part.split(" ")[1:])


def nodes_of(text):
    """The nonterminals of a tree from the innermost on, each with its children, and the leaves."""
    nodes, leaves, above, place = [], [], [("", [])], 0
    while place < len(text):
        part = TREE_PART.match(text, place)
        expect(part and (not part[4] or len(above) > 1), f"no tree from character {place} on")
        if part[1]:
            above.append((part[1], []))
        elif part[2]:
            leaves.append(part[2])
            above[-1][1].append((part[2], part[2]))
        elif part[4]:
            name, children = above.pop()
            nodes.append((name, tuple(it for it, _ in children)))
            above[-1][1].append((name, f"[{name}: {', '.join(it for _, it in children)}]"))
        place = part.end()
    expect([it for _, it in above[0][1]] == [text] and len(above) == 1, "no tree: brackets or commas")
    return nodes, leaves


def check_tree(text, rules, start, tokens, limit):
    """A tree's root, rules, leaves and size; tokens are literals with quotes."""
    nodes, leaves = nodes_of(text)
    expect(nodes and nodes[-1][0] == start, f"the root is not {start}")
    wrong = [it for it in nodes if it not in rules]
    expect(not wrong, f"no rule has the node {wrong[:1]}")
    expect(leaves == tokens, f"the leaves are {leaves} and not the tokens")
    count = len(nodes) + len(leaves)
    expect(count <= limit, f"the tree has {count} nodes, and the limit is {limit}")


def check_explanation(text, rules, literals):
    """Checks the conflicts of an explanation, and returns how many there are."""
    place, count, state = 0, 0, 0
    symbols = literals | {it for name, right in rules for it in (name, *right)}
    while place < len(text):
        count += 1
        what, part = f"conflict {count}", CONFLICT.match(text, place)
        expect(part, f"{what} is not as it should be")
        expect(int(part[1]) == count and int(part[2]) >= state, f"{what} is conflict {part[1]} in state {part[2]}")
        state, tokens = int(part[2]), symbols_of(part[3])
        unknown = [it for it in tokens if is_literal(it) and it not in symbols]
        expect(not unknown and len(set(tokens)) == len(tokens), f"{what}: no such tokens")
        for name, right, examples in [part.group(4, 5, 6)] + ([] if part["shift"] else [part.group(7, 8, 9)]):
            expect((name, symbols_of(right)) in rules, f"{what}: no such rule")
            lines = examples.count("\n")
            expect(lines <= EXAMPLES, f"{what}: {lines} examples")
        expect(not part["shift"] or tokens == (part["shift"],), f"{what} is on other tokens")
        examples = part[6] + (part["examples"] or part[9] or "")
        unknown = {it for line in examples.split("\n") for it in symbols_of(line)[3:]} - symbols - {"(*)"}
        expect(not unknown, f"{what}: unknown symbol {', '.join(sorted(unknown))}")
        place = part.end()
    return count


def step(at, symbol, least, tokens):
    """Where a symbol leads from places among the tokens. Each place has the nodes it needed."""
    reached = {}
    for place, nodes in at.items():
        if is_literal(symbol):
            ends = {place + 1: 1} if tokens[place:place + 1] == [symbol] else {}
        else:
            ends = least[symbol, place]
        for end, more in ends.items():
            reached[end] = min(nodes + more, reached.get(end, nodes + more))
    return reached


def least_nodes(rules, tokens):
    """For a name and a place among the tokens, the places to which it derives them. Each has the
    nodes of the least tree."""
    least = collections.defaultdict(dict)
    changed = True
    while changed:
        changed = False
        for name, right in rules:
            for start in range(len(tokens) + 1):
                at = {start: 1}
                for symbol in right:
                    at = step(at, symbol, least, tokens)
                known = least[name, start]
                better = {end: nodes for end, nodes in at.items() if end not in known or nodes < known[end]}
                known.update(better)
                changed = changed or bool(better)
    return least


def right_tokens(rules, start, tokens, least):
    """The most tokens with which a list of symbols begins that the start symbol derives."""
    count, met, waiting = 0, {(start, 0)}, [(start, 0)]
    while waiting:
        name, place = waiting.pop()
        for right in (it for other, it in rules if other == name):
            at = {place: 0}
            for symbol in right:
                count = max([count, *at])
                news = {(symbol, it) for it in at if not is_literal(symbol)} - met
                met |= news
                waiting.extend(news)
                at = step(at, symbol, least, tokens)
            count = max([count, *at])
    return count
