"""main.py EXPRESSION prints the value of the expression."""
import re
import sys

from calc import ParseError, Production as P, Terminal, parse

SIGNS = {it.text: it for it in Terminal}


def read(text):
    """The terminals of a text, each with its own text."""
    words = re.findall(r"[0-9.]+|[^ ]", text)
    if any(it not in SIGNS and it[0] not in "0123456789." for it in words):
        raise ValueError("a sign is none of + - * / ( )")
    return [(SIGNS.get(it, Terminal.NUMBER), it) for it in words]


class Values:
    """The terminals, and the value of each symbol on the stack."""

    def __init__(self, terminals):
        self.terminals, self.values = terminals, []

    def shift(self, position, terminal):
        text = self.terminals[position][1]
        self.values.append(float(text) if terminal == Terminal.NUMBER else None)

    def reduce(self, production, first, end):
        rest = len(self.values) - production.length
        self.values[rest:] = [
            ACTIONS.get(production, lambda value: value)(*self.values[rest:])
        ]


ACTIONS = {
    P.SUM_IS_SUM_PLUS_PRODUCT: lambda left, _, right: left + right,
    P.SUM_IS_SUM_MINUS_PRODUCT: lambda left, _, right: left - right,
    P.PRODUCT_IS_PRODUCT_STAR_FACTOR: lambda left, _, right: left * right,
    P.PRODUCT_IS_PRODUCT_SLASH_FACTOR: lambda left, _, right: left / right,
    P.FACTOR_IS_MINUS_FACTOR: lambda _, value: -value,
    P.FACTOR_IS_LPAREN_SUM_RPAREN: lambda _, value, __: value,
}


if __name__ == "__main__":
    try:
        VALUES = Values(read(" ".join(sys.argv[1:])))
        parse([it[0] for it in VALUES.terminals], VALUES)
        print(f"{VALUES.values[0]:g}")
    except (ParseError, ArithmeticError, ValueError) as why:
        sys.exit(str(why))
