"""Names of constants. docs/GENERATED.md has the rules."""
import collections
import re

# The words for the signs of ASCII. A double quote is in no literal, and an underscore separates words.
SIGNS = {
    "!": "bang", "#": "hash", "$": "dollar", "%": "percent", "&": "amp", "'": "quote", "(": "lparen",
    ")": "rparen", "*": "star", "+": "plus", ",": "comma", "-": "minus", ".": "dot", "/": "slash",
    ":": "colon", ";": "semicolon", "<": "lt", "=": "eq", ">": "gt", "?": "question", "@": "at",
    "[": "lbracket", "\\": "backslash", "]": "rbracket", "^": "caret", "`": "backquote", "{": "lbrace",
    "|": "pipe", "}": "rbrace", "~": "tilde",
}
# How many symbols of a right side the name of a production has.
SYMBOLS = 6
END = "end"


def words_of(text):
    """The words of a symbol's text. If it has none, it has underscores alone."""
    parts = re.findall(r"(?:[A-Z]|[a-z0-9])(?:(?<![a-z0-9])[A-Z]|[a-z0-9])*|[^A-Za-z0-9_]", text)
    words = [it if it[0].isascii() and it[0].isalnum() else SIGNS.get(it, f"u{ord(it):x}") for it in parts]
    return words or ["underscore"]


def upper(words):
    """The words as a name in capitals. One that begins with a digit gets a letter before it."""
    name = "_".join(words).upper()
    return f"N{name}" if name[0].isdecimal() else name


def camel(words):
    """The words as a name of which each word begins with a capital."""
    name = "".join(it[0].upper() + it[1:].lower() for it in words)
    return f"N{name}" if name[0].isdecimal() else name


def production_words(left, symbols):
    """The words of a production, of which the symbols are texts."""
    right = [word for it in symbols[:SYMBOLS] for word in words_of(it)]
    return [*words_of(left), "is", *(right or ["empty"])]


def distinct(bases, mark, taken=()):
    """The bases as names. One that is not the only one, or that is taken, gets the mark and its number."""
    counts = collections.Counter([*bases, *taken])
    return [it if counts[it] == 1 else f"{it}{mark}{number}" for number, it in enumerate(bases)]


class Names:
    """The names of the terminals with the end, of the nonterminals and of the productions."""

    def __init__(self, tables, style, mark, reserved=()):
        end = style([END])
        self.terminals = [*distinct([style(words_of(it)) for it in tables.terminals], mark, [end, *reserved]), end]
        self.nonterminals = distinct([style(words_of(it)) for it in tables.nonterminals], mark, reserved)
        words = [production_words(it.nonterminal, [text for _, text in it.symbols]) for it in tables.productions]
        long = [style(it) for it, production in zip(words, tables.productions) if len(production.symbols) > SYMBOLS]
        self.productions = distinct([style(it) for it in words], mark, [*reserved, *long])
