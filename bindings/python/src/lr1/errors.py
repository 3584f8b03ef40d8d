"""The exceptions of the package. An allocation failure is Python's own MemoryError."""

from __future__ import annotations

import re
from typing import Optional


class Lr1Error(Exception):
    """The base of the exceptions of this package."""


class GrammarError(Lr1Error, ValueError):
    """A grammar, or what is asked of it, has a fault.

    `line` is the number of the faulty line of the grammar's text, from 1, or None.
    """

    def __init__(self, message: str) -> None:
        super().__init__(message)
        found = re.match(r"line (\d+): ", message)
        self.line: Optional[int] = int(found[1]) if found else None


class ConflictsError(Lr1Error):
    """A parse was asked of a grammar that is not LR(1). `count` is the number of its conflicts."""

    def __init__(self, count: int) -> None:
        super().__init__(f"the grammar has {count} conflict{'' if count == 1 else 's'}")
        self.count = count


class ParseError(Lr1Error):
    """A parse has no tree."""


class RefusedError(ParseError):
    """A token is wrong. `token` is the first wrong one, or None if it is the end of the input."""

    def __init__(self, token: Optional[str]) -> None:
        super().__init__("refused at the end of the input" if token is None else f'refused at "{token}"')
        self.token = token


class LimitError(ParseError):
    """A parse made as many steps as its limit allows."""

    def __init__(self, limit: int) -> None:
        super().__init__(f"no end within {limit} steps")
        self.limit = limit
