"""The lines of a text that are no grammar lines, by docs/FORMATS.md: their faulty words, and hints."""
import re

from gate.hostile import reading
from gate.shown.places import Finding, lines_of

NO_LEFT_SIDE, NO_NAME, NO_SIGN, NOT_THE_SIGN, TOO_MANY, EMPTY, NO_SYMBOL = REASONS = (
    "has no name before it", "is not a name", 'has no "=" after it', 'is in the place of "="', "is one word too many",
    "is an empty literal", "is neither a name nor a literal",
)
EQUALS, GROUP = 'write "=" between the left side and the right side', "write the group as a nonterminal of its own"
PRODUCTION = 'a production is a name, "=" and symbols'
# The hints that don't go by the signs in the word, and what the others are if no sign is known.
FIXED = {
    NO_LEFT_SIDE: PRODUCTION, NO_SIGN: PRODUCTION, TOO_MANY: 'a mark is "inline" and one name',
    EMPTY: 'an empty right side is a line that ends with "="',
}
USUAL = {
    NO_NAME: 'a name has ASCII letters, digits and "_", and begins with no digit', NOT_THE_SIGN: PRODUCTION,
    NO_SYMBOL: "a symbol is a name, or a literal between double quotes",
}
# Words and their hints, by crates/grammar_diagnostics/specs/Hints.antt. The first one that fits counts.
ARROW, QUOTES = "->|::=|:=|=>|<-|==", "write a literal between double quotes"
LITERAL = "a literal ends with a quote, and has no blank and no quote in it"
SIGNS = (
    (ARROW, EQUALS),
    ("\ufeff.*", "save the file without a byte order mark"),
    ("[\u2018-\u201f].*", "write straight double quotes"),
    ("//.*|/[*].*|--.*|#.*", "leave the comment out, there are no comments"),
    ('"[^"]*|"', LITERAL),
    ('"[^"]*"', None),
    ("'.*", QUOTES),
    ("%.*", "leave it out, there are no directives"),
    (r"[(\[{].*", GROUP),
    (r".*[*+?]", "write the repetition as productions of a nonterminal"),
    (".*;", "leave the end sign out, a production ends with its line"),
    (".*,", "separate symbols by blanks alone"),
    (".*:", EQUALS),
    (r".*[)\]}]", GROUP),
    (r".*\|.*", "write the alternative as a production on a line of its own"),
    ('".*', LITERAL),
    ("[^<]*>.*|[^<].*>.*", EQUALS),
    (".*=.*", 'write blanks around "="'),
    (".*-.*", 'write "_" and not "-" in a name'),
)


def fault_of(words):
    """The number of the faulty word of a line, from 0, and what is wrong with it; or None."""
    if not words or (words[1:2] == ["="] and reading.is_name(words[0])):
        wrong = [at for at, it in enumerate(words[2:], 2) if not (reading.is_name(it) or reading.is_literal(it))]
        return (wrong[0], EMPTY if words[wrong[0]] == '""' else NO_SYMBOL) if wrong else None
    if not reading.is_name(words[0]):
        return 0, NO_LEFT_SIDE if words[0] == "=" else NO_NAME
    if not words[1:]:
        return 0, NO_SIGN
    if words[0] != "inline":
        return 1, NOT_THE_SIGN
    if not reading.is_name(words[1]):
        return 1, NO_NAME
    return (2, TOO_MANY) if words[2:] else None


def hint_of(reason, word):
    """The hint for a faulty word."""
    if reason == NOT_THE_SIGN:
        return EQUALS if re.fullmatch(f"{ARROW}|.*:", word) else PRODUCTION
    if reason == NO_SYMBOL and word in ("=", "+", "-", "/", "<", ">"):
        return PRODUCTION if word == "=" else QUOTES
    by_sign = [hint for form, hint in SIGNS if re.fullmatch(form, word)]
    return FIXED.get(reason) or (by_sign or [None])[0] or USUAL[reason]


def errors_of(text):
    """An error for each line with a fault, in their order."""
    faults = [(line, *it) for line in lines_of(text) if (it := fault_of(line.words))]
    return [
        Finding("error", *line.place(at), f"`{line.words[at]}` {reason}", hint_of(reason, line.words[at]))
        for line, at, reason in faults
    ]
