"""Parse trees."""

from __future__ import annotations

import re
from typing import List, Union

# A terminal, the beginning of a node, and its end.
_PART = re.compile(r'"(?P<terminal>[^"]*)"|\[(?P<name>[A-Za-z0-9_]+): |(?P<end>\])')


class Node:
    """A node of a parse tree: a nonterminal and its children.

    A child is a node, or a terminal as a `str`. `str(node)` has brackets around each node:

    >>> str(Node("S", [Node("E", []), "+"]))
    '[S: [E: ], "+"]'
    """

    __slots__ = ("children", "name")

    def __init__(self, name: str, children: List[Child]) -> None:
        self.name = name
        self.children = children

    def __repr__(self) -> str:
        return f"<Node {self.name} with {len(self.children)} children>"

    def __str__(self) -> str:
        # A tree may be too deep for calls of itself.
        texts: List[str] = []
        left: List[Union[Child, None]] = [self]
        while left:
            child = left.pop()
            if texts and child is not None and not texts[-1].endswith(": "):
                texts.append(", ")
            if isinstance(child, Node):
                texts.append(f"[{child.name}: ")
                left.append(None)
                left.extend(reversed(child.children))
            else:
                texts.append("]" if child is None else f'"{child}"')
        return "".join(texts)

    def terminals(self) -> List[str]:
        """The terminals of the tree, from left to right."""
        found: List[str] = []
        left: List[Child] = [self]
        while left:
            child = left.pop()
            if isinstance(child, Node):
                left.extend(reversed(child.children))
            else:
                found.append(child)
        return found


Child = Union[Node, str]


def tree_of(text: str) -> Node:
    """The tree of a text."""
    top = Node("", [])
    open_nodes = [top]
    for part in _PART.finditer(text):
        if part["end"]:
            open_nodes.pop()
        elif part["name"]:
            node = Node(part["name"], [])
            open_nodes[-1].children.append(node)
            open_nodes.append(node)
        else:
            open_nodes[-1].children.append(part["terminal"])
    (tree,) = top.children
    assert isinstance(tree, Node)
    return tree
