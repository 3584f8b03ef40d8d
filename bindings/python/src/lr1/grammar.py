"""Grammars, production by production or as a text."""

from __future__ import annotations

import json
import re
from dataclasses import dataclass
from typing import Iterable, List, Union

from ._library import FAULT, ask
from .errors import GrammarError
from .tables import Tables

_NAME = re.compile(r"[A-Za-z_][A-Za-z0-9_]*")


@dataclass(frozen=True)
class Literal:
    """A terminal, by its text."""

    text: str


# A nonterminal by its name, or a terminal.
Symbol = Union[str, Literal]


@dataclass(frozen=True)
class Finding:
    """What is wrong or doubtful with a grammar.

    `severity` is "error" or "warning". `line` and `column` count from 1. `start` and `end` are
    offsets in bytes of the text. `hint` is a way out. `str(finding)` is a line for an editor:

    >>> print(Grammar('S = Exp').check("S")[0])
    1:5: warning: `Exp` has no production; write one, or mend the name
    """

    severity: str
    line: int
    column: int
    start: int
    end: int
    message: str
    hint: str

    def __str__(self) -> str:
        return f"{self.line}:{self.column}: {self.severity}: {self.message}; {self.hint}"


def checked_name(name: str) -> str:
    """A name that a grammar text may have. Any other raises GrammarError."""
    if not _NAME.fullmatch(name):
        raise GrammarError(f"{name!r} is not a name: use ASCII letters, digits and _, and no digit first")
    return name


def _word_of(symbol: Symbol) -> str:
    """A symbol as a word of a grammar text."""
    if isinstance(symbol, str):
        return checked_name(symbol)
    if not isinstance(symbol, Literal):
        raise TypeError(f"{symbol!r} is no symbol: give a name as a str, or a Literal")
    if not symbol.text:
        raise GrammarError("a literal is empty: leave it out")
    if re.search('["\0 \t\n]', symbol.text):
        raise GrammarError(f"the literal {symbol.text!r} has a double quote, a blank, a tab, a line end or U+0000")
    return f'"{symbol.text}"'


class Grammar:
    """A grammar, which begins with a text of productions, or without any.

    The text has one production in a line, such as `E = E "+" T`.
    """

    def __init__(self, text: str = "") -> None:
        self._text = text

    @property
    def text(self) -> str:
        """The text of the grammar."""
        return self._text

    def _add_line(self, line: str) -> None:
        separator = "\n" if self._text and not self._text.endswith("\n") else ""
        self._text += f"{separator}{line}\n"

    def add_production(self, name: str, symbols: Iterable[Symbol]) -> None:
        """Adds a production of a nonterminal.

        A symbol is the name of a nonterminal, or a `Literal`. A name or a text that a grammar cannot
        have raises GrammarError, and then the grammar is as before. Symbols are a list of them, so a
        `str` raises TypeError.
        """
        if isinstance(symbols, str):
            raise TypeError(f"{symbols!r} is one symbol: give a list of symbols")
        words = [checked_name(name), "=", *map(_word_of, symbols)]
        self._add_line(" ".join(words))

    def inline(self, name: str) -> None:
        """Marks a nonterminal, which is replaced by its right sides before tables are made."""
        self._add_line(f"inline {checked_name(name)}")

    def tables(self, start: str, canonical: bool = False) -> Tables:
        """The tables for a start symbol, or the states and conflicts if the grammar is not LR(1).

        `canonical` asks for the canonical tables in place of lane tables, which are smaller.
        """
        return Tables(self._text, checked_name(start), canonical)

    def check(self, start: str) -> List[Finding]:
        """What is wrong or doubtful with the grammar, in the order of the command `lrshow .. check`.

        Conflicts are warnings. A faulty line is an error, and no exception.
        """
        answer = ask(self._text, [checked_name(start), "check", "--json"])
        if answer.status == FAULT and not answer.text.startswith("["):
            raise GrammarError(answer.text.strip())
        names = Finding.__dataclass_fields__
        return [Finding(**{name: row[name] for name in names}) for row in json.loads(answer.text)]
