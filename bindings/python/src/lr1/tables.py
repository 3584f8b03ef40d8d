"""Tables of a grammar, or its states and conflicts."""

from __future__ import annotations

import json
import re
from typing import Any, Dict, Iterable, List, Optional

from ._library import FAULT, ask, counted
from .errors import ConflictsError, GrammarError, LimitError, Lr1Error, RefusedError
from .trees import Node, tree_of


class Tables:
    """LR(1) tables of a grammar, or its states and conflicts if the grammar is not LR(1).

    `data` is what the command `lrshow .. json` writes, of which docs/FORMATS.md has each member.
    """

    def __init__(self, text: str, start: str, canonical: bool = False) -> None:
        self.text = text
        self.start = start
        self.canonical = canonical
        self.data: Dict[str, Any] = json.loads(self._asked("json"))

    def __repr__(self) -> str:
        return f"<Tables for {self.start} with {len(self.states)} states and {len(self.conflicts)} conflicts>"

    def _asked(self, *words: str) -> str:
        """The answer to a question on these tables. A fault raises GrammarError."""
        answer = ask(self.text, [self.start, *words], self.canonical)
        if answer.status == FAULT:
            raise GrammarError(answer.text.strip())
        return answer.text

    @property
    def is_lr1(self) -> bool:
        """Whether there are tables, and no conflicts."""
        return not self.conflicts

    @property
    def terminals(self) -> List[str]:
        """The texts of the terminals."""
        return self.data["terminals"]

    @property
    def productions(self) -> List[Dict[str, Any]]:
        """The productions, with marked nonterminals inlined."""
        return self.data["productions"]

    @property
    def states(self) -> List[Dict[str, Any]]:
        """The states, each with its items, shifts, gotos and reductions."""
        return self.data["states"]

    @property
    def conflicts(self) -> List[Dict[str, Any]]:
        """The conflicts, each with its state, tokens and actions."""
        return self.data["conflicts"]

    def lookahead(self, number: int) -> List[Optional[str]]:
        """The tokens of a `lookahead` of the data. None is the end of the input."""
        return self.data["sets"][number]

    def parse(self, tokens: Iterable[str], limit: int = 1_000_000) -> Node:
        """The parse tree of tokens, each the text of a terminal.

        Each shift and each reduction is a step, of which a parse makes at most `limit`. Raises
        RefusedError, LimitError, or ConflictsError if there are no tables.
        """
        text = self._asked("parse", str(counted("the limit", limit)), *tokens)
        if text.startswith("["):
            return tree_of(text)
        if found := re.match(r"conflicts: (\d+)$", text):
            raise ConflictsError(int(found[1]))
        if found := re.match(r'refused at (?:"(.*)"|Eof)\n', text, re.DOTALL):
            raise RefusedError(found[1])
        if text == "limit\n":
            raise LimitError(limit)
        raise Lr1Error(f"an answer of another form: {text!r}")

    def report(self) -> str:
        """The states as a text, with their conflicts."""
        return self._asked("report")

    def explain(self) -> str:
        """The conflicts with examples of input, as a text."""
        return self._asked("explain")

    def causes(self) -> str:
        """The conflicts by their causes, with two derivations of one input, as a text."""
        return self._asked("conflicts")

    def html(self) -> str:
        """A page for a browser."""
        return self._asked("html")

    def dot(self, around: Optional[int] = None, depth: int = 1, conflicts: bool = False) -> str:
        """A graph of the states for Graphviz.

        It has all states, or those at most `depth` steps from the state `around`, or those on
        shortest paths to conflicts.
        """
        if around is None:
            return self._asked("dot", *["--conflicts"] * conflicts)
        if conflicts:
            raise ValueError("a graph is around a state or to conflicts, and not both")
        words = ["--around", str(counted("the state", around)), "--depth", str(counted("the depth", depth))]
        return self._asked("dot", *words)
