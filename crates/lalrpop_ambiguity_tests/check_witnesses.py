"""Checks witnesses of ambiguity against the text of a grammar, and shares no code with the crates.

    check_witnesses.py GRAMMAR < LINES

A line that begins with spaces and `[` is a derivation, as `lrshow` prints it. Each two of them in a
row are a witness. Its derivations must differ, have the same nonterminal at the root and the same
symbols at the leaves, and each node must be a production of the grammar. Derivations that look the
same differ if a production of theirs is there twice. Each has one mark `(*)`, after the moves of a
bottom-up parser that both begin with. Prints how many witnesses there are, and fails at the first
wrong one.
"""

import itertools
import re
import sys
from collections import Counter

WORD = re.compile(r'\[|\]|"(?:[^"])*"|[^\s\[\]]+')
MARK = "(*)"


def productions(path):
    """How often the text has each production: a pair of a name and a tuple of symbols."""
    rules = Counter()
    with open(path, encoding="utf-8") as lines:
        for line in lines:
            words = line.split()
            if not words:
                continue
            if words[0] == "inline" and words[1:2] != ["="]:
                continue
            assert words[1] == "=", line
            rules[words[0], tuple(words[2:])] += 1
    return rules


def read(words, at):
    """The tree that begins at a word, and the place of the word after it."""
    if words[at] != "[":
        return words[at], at + 1
    name = words[at + 1]
    assert name.endswith(":"), name
    children, at = [], at + 2
    while words[at] != "]":
        child, at = read(words, at)
        children.append(child)
    return (name[:-1], tuple(children)), at + 1


def root(tree):
    return tree if isinstance(tree, str) else tree[0]


def leaves(tree):
    if isinstance(tree, str):
        return [tree]
    return [leaf for child in tree[1] for leaf in leaves(child)]


def nodes(tree):
    """The productions of the inner nodes."""
    if isinstance(tree, str):
        return []
    name, children = tree
    here = (name, tuple(root(child) for child in children))
    return [here] + [node for child in children for node in nodes(child)]


def moves(tree):
    """The moves of a bottom-up parser: it reads a leaf, or reduces by the production of an inner node
    after the moves of its children."""
    if isinstance(tree, str):
        return [tree]
    name, children = tree
    return [move for child in children for move in moves(child)] + [(name, tuple(map(root, children)))]


def marked(words):
    """The tree of words with a mark, and how many moves are before the mark. It is right before a
    move: a leaf, or the end of a node. If all moves are before it, it is the last word."""
    assert words.count(MARK) == 1, words
    place = words.index(MARK)
    words = words[:place] + words[place + 1 :]
    tree, end = read(words, 0)
    assert end == len(words), words
    # (the word after a bracket is a name)
    ends = [at for at, word in enumerate(words) if word != "[" and words[at - 1 : at] != ["["]]
    assert place in [*ends, len(words)], words
    return tree, sum(at < place for at in ends)


def check_marks(left, right, before, rules):
    """The marks are after so many moves, which both trees have in common, and the next ones differ. Two
    reductions that look the same differ if their production is there twice."""
    ones, others = moves(left), moves(right)
    common = len([*itertools.takewhile(lambda pair: pair[0] == pair[1], zip(ones, others))])
    assert before[0] == before[1] <= common, (before, common)
    rest = ones[before[0] :], others[before[0] :]
    assert any(rest), "all moves are in common"
    assert before[0] == common or rules[rest[0][0]] > 1, (before, common)


def check(left, right, rules):
    assert left != right or any(rules[node] > 1 for node in nodes(left)), left
    assert root(left) == root(right) and not root(left).startswith('"'), (left, right)
    assert leaves(left) == leaves(right), (left, right)
    assert all(node in rules for node in nodes(left) + nodes(right)), (left, right)


def main():
    sys.setrecursionlimit(100000)
    rules = productions(sys.argv[1])
    trees = []
    for line in sys.stdin:
        if line.startswith(" ") and line.lstrip().startswith("["):
            trees.append(marked(WORD.findall(line)))
    assert len(trees) % 2 == 0
    for place in range(0, len(trees), 2):
        (left, here), (right, there) = trees[place : place + 2]
        check(left, right, rules)
        check_marks(left, right, (here, there), rules)
    print(len(trees) // 2, "witnesses are right")


if __name__ == "__main__":
    main()
