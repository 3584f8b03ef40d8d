"""LR(1) tables of a grammar, whose construction is proved.

>>> from lr1 import Grammar, Literal
>>> grammar = Grammar()
>>> grammar.add_production("S", ["E"])
>>> grammar.add_production("E", ["E", Literal("+"), Literal("n")])
>>> grammar.add_production("E", [Literal("n")])
>>> tables = grammar.tables("S")
>>> tables.is_lr1, len(tables.states)
(True, 5)
>>> print(tables.parse(["n", "+", "n"]))
[S: [E: [E: "n"], "+", "n"]]
"""

from ._library import Answer, ask, check, table_numbers, version
from .errors import ConflictsError, GrammarError, LimitError, Lr1Error, ParseError, RefusedError
from .grammar import Finding, Grammar, Literal, Symbol
from .numbers import NumberedParse, NumberedTables, Reduction
from .tables import Tables
from .trees import Child, Node

__all__ = [
    "Answer",
    "Child",
    "ConflictsError",
    "Finding",
    "Grammar",
    "GrammarError",
    "LimitError",
    "Literal",
    "Lr1Error",
    "Node",
    "NumberedParse",
    "NumberedTables",
    "ParseError",
    "Reduction",
    "RefusedError",
    "Symbol",
    "Tables",
    "ask",
    "check",
    "table_numbers",
    "version",
]
