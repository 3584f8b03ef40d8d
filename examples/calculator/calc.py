# A parser by the LR(1) tables of lrshow 0.23.1. Do not edit it.
#
# Start symbol: Input. Method: lane. Conflicts: none. States: 18.
# The tables are exact: a state has an action on a terminal only if the LR(1) tables have one.
# Import it. It needs Python 3.9 and no other package.

import sys
from collections.abc import Iterable
from enum import IntEnum
from typing import Optional, Protocol


class Terminal(IntEnum):
    """A terminal, or the end of the input."""

    LPAREN = 0  # "("
    RPAREN = 1  # ")"
    STAR = 2  # "*"
    PLUS = 3  # "+"
    MINUS = 4  # "-"
    SLASH = 5  # "/"
    NUMBER = 6  # "number"
    END = 7  # the end of the input

    @property
    def text(self) -> str:
        """Its text."""
        return _TERMINAL_TEXTS[self]


class Nonterminal(IntEnum):
    """A nonterminal."""

    FACTOR = 0  # Factor
    INPUT = 1  # Input
    PRODUCT = 2  # Product
    SUM = 3  # Sum

    @property
    def text(self) -> str:
        """Its name."""
        return _NONTERMINAL_TEXTS[self]


class Production(IntEnum):
    """A production."""

    FACTOR_IS_NUMBER = 0  # Factor = "number"
    FACTOR_IS_MINUS_FACTOR = 1  # Factor = "-" Factor
    FACTOR_IS_LPAREN_SUM_RPAREN = 2  # Factor = "(" Sum ")"
    INPUT_IS_SUM = 3  # Input = Sum
    PRODUCT_IS_PRODUCT_STAR_FACTOR = 4  # Product = Product "*" Factor
    PRODUCT_IS_PRODUCT_SLASH_FACTOR = 5  # Product = Product "/" Factor
    PRODUCT_IS_FACTOR = 6  # Product = Factor
    SUM_IS_SUM_PLUS_PRODUCT = 7  # Sum = Sum "+" Product
    SUM_IS_SUM_MINUS_PRODUCT = 8  # Sum = Sum "-" Product
    SUM_IS_PRODUCT = 9  # Sum = Product

    @property
    def left(self) -> Nonterminal:
        """The nonterminal on its left side."""
        return Nonterminal(_LEFT[self])

    @property
    def length(self) -> int:
        """How many symbols its right side has."""
        return _LENGTH[self]


# fmt: off
# the texts of the terminals
_TERMINAL_TEXTS: tuple[str, ...] = (
    "(",
    ")",
    "*",
    "+",
    "-",
    "/",
    "number",
    "end of input",
)
# the names of the nonterminals
_NONTERMINAL_TEXTS: tuple[str, ...] = (
    "Factor",
    "Input",
    "Product",
    "Sum",
)
# where the row of a state begins in the next two arrays
_ROW: tuple[int, ...] = (
    0, 0, 0, 0, 0, 0, 0, 1, 7, 10, 1, 4, 1, 1, 1, 7, 7, 1,
)
# the terminal to which a cell belongs
_COLUMN: tuple[int, ...] = (
    0, 8, 8, 8, 4, 1, 6, 3, 4, 2, 8, 8, 5, 3, 4, 8, 8, 8,
)
# the action in a cell
_CELL: tuple[int, ...] = (
    12, 0, 0, 0, 13, 28, 21, 16, 17, 14, 0, 0, 15, 16, 17, 0, 0, 0,
)
# the usual reduction of a state, as an action, or 0
_REDUCTION: tuple[int, ...] = (
    0, 0, 0, 0, 0, 0, 0, 7, 10, 4, 1, 0, 2, 5, 6, 8, 9, 3,
)
# the set of the terminals on which a state makes its usual reduction
_SET: tuple[int, ...] = (
    0, 0, 0, 0, 0, 0, 0, 0, 1, 2, 0, 0, 0, 0, 0, 1, 1, 0,
)
# the sets, by their bits: the lowest bit of a byte is of the first terminal
_SETS: tuple[int, ...] = (
    190, 154, 128,
)
# where the row of a state begins in the next two arrays
_GOTO_ROW: tuple[int, ...] = (
    6, 0, 1, 2, 4, 3, 5, 6, 6, 6, 6, 6, 6, 6, 6, 6, 6, 6,
)
# the nonterminal to which a cell belongs
_GOTO_COLUMN: tuple[int, ...] = (
    4, 0, 0, 3, 0, 2, 4, 2, 4, 4,
)
# the state to which a goto leads
_GOTO_CELL: tuple[int, ...] = (
    0, 12, 13, 11, 14, 15, 0, 16, 0, 0,
)
# where the gotos on a nonterminal lead in most states
_GOTO_USUAL: tuple[int, ...] = (
    7, 0, 8, 9,
)
# the nonterminal of a production
_LEFT: tuple[int, ...] = (
    0, 0, 0, 1, 2, 2, 2, 3, 3, 3,
)
# how many symbols the right side of a production has
_LENGTH: tuple[int, ...] = (
    1, 2, 3, 1, 3, 3, 1, 3, 3, 1,
)
# fmt: on
# how many bytes a set has
_SET_BYTES = 1
_TERMINALS = tuple(Terminal)
_PRODUCTIONS = tuple(Production)


def _action_of(state: int, terminal: int) -> int:
    """The action of a state on a terminal.

    0 refuses it, a number up to that of productions reduces by the production before it, and
    a larger one shifts. A shift to state 0 accepts the input.
    """
    place = _ROW[state] + terminal
    if _COLUMN[place] == terminal:
        return _CELL[place]
    if _SETS[_SET[state] * _SET_BYTES + terminal // 8] >> terminal % 8 & 1:
        return _REDUCTION[state]
    return 0


def _goto_of(state: int, nonterminal: int) -> int:
    """The state to which the goto of a state leads, or 0 if there is none."""
    place = _GOTO_ROW[state] + nonterminal
    if _GOTO_COLUMN[place] == nonterminal:
        return _GOTO_CELL[place]
    return _GOTO_USUAL[nonterminal]


class Handler(Protocol):
    """What takes the steps of a run. An exception of its own stops the run."""

    def shift(self, position: int, terminal: Terminal) -> None:
        """Takes the shift of a terminal at a position of the input."""

    def reduce(self, production: Production, first: int, end: int) -> None:
        """Takes a reduction, of the terminals from the position first up to end."""


class ParseError(Exception):
    """Why a run ends without a parse."""


class LimitError(ParseError):
    """No step was left."""


class RefusedError(ParseError):
    """A terminal is wrong: its position, the terminal, and those that may be there."""

    def __init__(
        self, position: int, terminal: Terminal, expected: list[Terminal]
    ) -> None:
        texts = " ".join(it.text for it in expected)
        super().__init__(
            f"token {position + 1}, {terminal.text}, is wrong; expected: {texts}"
        )
        self.position = position
        self.terminal = terminal
        self.expected = expected


class Run:
    """A run that is given one terminal after the other.

    It makes at most so many steps: each shift and each reduction is one. Its stack has the
    states below its own, each with the position at which the symbol after it begins.
    """

    def __init__(self, limit: Optional[int] = None) -> None:
        self.position = 0
        self.left = sys.maxsize if limit is None else limit
        self._state = 0
        self._stack: list[tuple[int, int]] = []

    def push(self, terminal: int, handler: Handler) -> bool:
        """Reads a terminal, or the end of the input. Returns whether the input is accepted.

        After a refusal the run is as before. But the handler may have taken reductions.
        """
        if not 0 <= terminal <= Terminal.END:
            raise ValueError(f"there is no terminal {terminal}")
        trial = _Trial(self)
        target = trial.reduce_all(terminal, handler)
        if target is None:
            raise RefusedError(self.position, _TERMINALS[terminal], self.expected())
        if target == 0:
            return True
        if trial.left == 0:
            raise LimitError("the parse needs more steps than the limit allows")
        handler.shift(self.position, _TERMINALS[terminal])
        self._stack[trial.base :] = trial.fresh
        self._stack.append((trial.state, self.position))
        self._state = target
        self.left = trial.left - 1
        self.position += 1
        return False

    def expected(self) -> list[Terminal]:
        """The terminals that may come next in the steps that are left, after trials."""
        return [terminal for terminal in _TERMINALS if self._may_follow(terminal)]

    def _may_follow(self, terminal: int) -> bool:
        trial = _Trial(self)
        try:
            target = trial.reduce_all(terminal, None)
        except LimitError:
            return False
        return target == 0 or (target is not None and trial.left > 0)


class _Trial:
    """A run on a terminal that is not shifted yet.

    Of the stack, the first base entries are in force, and the fresh ones after them. So the
    stack of the run is kept.
    """

    def __init__(self, run: Run) -> None:
        self.stack = run._stack
        self.base = len(self.stack)
        self.fresh: list[tuple[int, int]] = []
        self.state = run._state
        self.position = run.position
        self.left = run.left

    def reduce_all(self, terminal: int, handler: Optional[Handler]) -> Optional[int]:
        """Makes the reductions on a terminal.

        Returns the state to which it is shifted, 0 if the input is accepted, or None if the
        terminal is refused.
        """
        while True:
            action = _action_of(self.state, terminal)
            if action > len(_PRODUCTIONS):
                return action - len(_PRODUCTIONS) - 1
            if action == 0:
                return None
            if self.left == 0:
                raise LimitError("the parse needs more steps than the limit allows")
            self.left -= 1
            below, first = self._pop(_LENGTH[action - 1])
            if handler is not None:
                handler.reduce(_PRODUCTIONS[action - 1], first, self.position)
            self.state = _goto_of(below, _LEFT[action - 1])
            if self.state == 0:
                return 0

    def _pop(self, length: int) -> tuple[int, int]:
        """Pops the entries of a right side but the first one, which is returned.

        An empty right side has none, and so one is pushed.
        """
        if length > len(self.fresh):
            self.base -= length - len(self.fresh) - 1
            self.fresh.clear()
            return self.stack[self.base - 1]
        if length == 0:
            self.fresh.append((self.state, self.position))
        else:
            del self.fresh[len(self.fresh) - length + 1 :]
        return self.fresh[-1]


def parse(
    terminals: Iterable[int], handler: Handler, limit: Optional[int] = None
) -> None:
    """Parses terminals, up to their end or the first Terminal.END, in so many steps."""
    run = Run(limit)
    for terminal in terminals:
        if run.push(terminal, handler):
            return
    run.push(Terminal.END, handler)
