"""Actions, gotos and parses by the numbers of tables, which `lr1.table_numbers` returns.

Terminals, nonterminals, productions and states have the numbers that docs/FORMATS.md gives them. The
end of the input is the number of terminals.

>>> from lr1 import table_numbers
>>> _, numbers = table_numbers('S = "x"', "S")
>>> tables = NumberedTables(numbers)
>>> tables.parse([0]).steps
[('shift', 0), ('reduce', 0)]
>>> tables.expected([0])
[1]
"""

from __future__ import annotations

import ctypes
from typing import Iterable, List, NamedTuple, Optional, Tuple, Union

from ._library import FAULT, REFUSED, array_of, counted, numbered, position

_STEPS = ("shift", "reduce", "refused", "limit")


class Reduction(NamedTuple):
    """A reduction: the production, the nonterminal on its left side, and the length of its right one."""

    production: int
    nonterminal: int
    length: int


class NumberedParse(NamedTuple):
    """A parse. `end` is "parsed", "refused" or "limit".

    `steps` has pairs: "shift" and a token, or "reduce" and a production. `read` is how many tokens were
    shifted, which is the position of a refused token. `state` is the state on top if the end is not
    "parsed".
    """

    end: str
    steps: List[Tuple[str, int]]
    read: int
    state: Optional[int]


class NumberedTables:
    """Tables as numbers. Numbers that are not those of tables raise a ValueError, in the call that
    needs them."""

    def __init__(self, numbers: Iterable[int]) -> None:
        self._numbers = array_of(numbers)

    def action(self, state: int, token: int) -> Union[int, Reduction, None]:
        """The state to which a token is shifted, or a reduction, or None."""
        status, numbers = self._called("lr1_action", *array_of((state, token)))
        if status == REFUSED:
            return None
        return numbers[1] if numbers[0] == 0 else Reduction(*numbers[1:])

    def goto(self, state: int, nonterminal: int) -> Optional[int]:
        """The state to which a state leads on a nonterminal, or None."""
        status, numbers = self._called("lr1_goto", *array_of((state, nonterminal)))
        return None if status == REFUSED else numbers[0]

    def parse(self, tokens: Iterable[int], limit: int = 1 << 40) -> NumberedParse:
        """Parses tokens in at most so many steps."""
        given, read = array_of(tokens), position()
        steps = counted("the limit", limit)
        status, numbers = self._called(
            "lr1_parse", given, len(given), steps, room=2 * len(given) + 64, more=[ctypes.byref(read)]
        )
        made = [(_STEPS[kind], number) for kind, number in zip(numbers[::2], numbers[1::2])]
        end, state = made.pop() if status == REFUSED else ("parsed", None)
        return NumberedParse(end, made, read.value, state)

    def expected(self, tokens: Iterable[int], limit: int = 1 << 40) -> Optional[List[int]]:
        """The tokens that may come after tokens, or None if these are refused or pass the limit."""
        given = array_of(tokens)
        status, numbers = self._called("lr1_expected", given, len(given), counted("the limit", limit))
        return None if status == REFUSED else numbers

    def _called(self, call: str, *words: object, room: int = 64, more: Iterable[object] = ()) -> Tuple[int, List[int]]:
        given = (self._numbers, len(self._numbers), *words)
        status, numbers = numbered(call, *given, room=room, more=list(more))
        if status == FAULT:
            raise ValueError("the numbers are not those of tables, or have no such number")
        return status, numbers
