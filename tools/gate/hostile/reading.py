"""The grammar text of docs/FORMATS.md, and inlining. A symbol is a word: literals have quotes."""
import collections
import re

NAME, LITERAL = r"[A-Za-z_][A-Za-z0-9_]*", r'"[^" \t\n]+"'
# How many symbols all right sides together may have after marked names are inlined.
MOST_SYMBOLS = 4_000

# A rule is a name and the tuple of its symbols; `marked` is a set of names.
Grammar = collections.namedtuple("Grammar", "rules marked")


class FaultyLine(Exception):
    """The first line that is no grammar line, by its number."""


class TooLarge(Exception):
    """A grammar with more symbols after inlining than are looked at here."""


def is_name(word):
    return re.fullmatch(NAME, word) is not None


def is_literal(word):
    return re.fullmatch(LITERAL, word) is not None


def read(text):
    rules, marked = [], set()
    for number, line in enumerate(text.split("\n"), 1):
        words = re.findall("[^ \t]+", line.removesuffix("\r"))
        if len(words) == 2 and words[0] == "inline" and is_name(words[1]):
            marked.add(words[1])
        elif words[1:2] == ["="] and is_name(words[0]) and all(is_name(it) or is_literal(it) for it in words[2:]):
            rules.append((words[0], tuple(words[2:])))
        elif words:
            raise FaultyLine(number)
    return Grammar(rules, marked)


def literals_of(rules):
    return {it for _, right in rules for it in right if is_literal(it)}


def reached(rules, names):
    """For each of the names, those of them to which its right sides lead, in some steps."""
    found = {name: set() for name in names}
    for name, right in rules:
        found.get(name, set()).update(it for it in right if it in found)
    for middle in names:
        for name in names:
            found[name] |= found[middle] if middle in found[name] else set()
    return found


def on_rings(grammar):
    """The marked names that mention themselves, directly or by way of other marked names."""
    return {name for name, met in reached(grammar.rules, grammar.marked).items() if name in met}


def inlined(grammar):
    """All rules, those of marked names too, after inlining. No marked name is on a ring."""
    alternatives = {}

    def expanded(right):
        lists = [()]
        for symbol in right:
            if symbol in grammar.marked and symbol not in alternatives:
                alternatives[symbol] = [it for name, other in grammar.rules if name == symbol for it in expanded(other)]
            lists = [front + end for front in lists for end in alternatives.get(symbol, [(symbol,)])]
            if sum(len(it) + 1 for it in lists) > MOST_SYMBOLS:
                raise TooLarge
        return lists

    rules = []
    for name, right in grammar.rules:
        rules.extend((name, it) for it in expanded(right))
        if sum(len(it) + 1 for _, it in rules) > MOST_SYMBOLS:
            raise TooLarge
    return rules
