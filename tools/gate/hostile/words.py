"""Words for the programs by chance: known, unknown and wrong ones, and tokens."""
from gate.hostile import reading
from gate.hostile.grammars import Grammars

# A limit for a start symbol on a right side, whose parse need not end.
SMALL_LIMIT = 50_000
LIMITS = (
    *"0 1 2 3 4 5 7 9 12 00 007".split(), "0" * 300 + "9", *4 * ["1000000"],
    "18446744073709551615", "18446744073709551614", "9223372036854775808", "4294967296",
)
NO_LIMITS = (
    "18446744073709551616", "99999999999999999999", "9" * 3_000, "+2", "-1", "-0", "", " 5", "5 ", "x", "0x10",
    "1_0", "1e3", "5.0", "\u0665", "\u00b2", "5\n", "parse",
)
STARTS = (*"S S S A B T _ X inline Eof parse".split(), "N" * 3_000)
NO_STARTS = ("", "5", "5S", "é", "S=", "S ", " S", "S\n", '"a"', "-", "--help", "S.A", "\u00a0", "S\u0301")
VERBS = ("", "Parse", "parse ", "reports", "REPORT", "explain\n", "-h", "lex", "é")
SHOWN_VERBS = (
    "", "JSON", "json json", "json --around 0", "html 0", "html --around 0", "dot 0", "dot --around",
    "dot 0 --around", "dot -around 0", "dot --around=0", "dot --around 0 0", "dot --around 0 --around 0", "report",
    "parse 1", "explain", "svg", "check 0", "check --around 0", "check --json --json", "conflicts 0", "dot --depth 1",
    "dot --depth 1 --around 0", "dot --around 0 --depth", "dot --around 0 --depth x", "dot --conflicts 0",
    "dot --around 0 --depth 1 1", "trees", "c --prefix", "c --prefix 9", "c calc", "c --small", "rust --prefix calc",
    "python 0", "C", "c --augment 0", "html --augment",
)
ODD_TOKENS = (
    "", "-", "--", "--help", "Eof", '"', '"a"', "a b", "\n", "\t", "é", "\u2028", "🦀", "?", "[S: ]", "]",
    "T" * 2_000, "unknown", "a\r", "\\",
)
NO_UTF8 = (b"\xff", b"a\x80", b"\xc3", b"\xed\xa0\x80", b"\xc0\x80", b"\xf5\x80\x80\x80")
# Files that can be read: the grammar's, and one that is empty; and others that cannot be read. The last
# one is standard input for `lrshow`, and the name of a file for `lrtab`.
READABLE = ("g", "./g", ".//g", "/dev/null")
NOT_READABLE = (
    "none", ".", "..", "g/", "g/g", "", "\n", "é", "none/g", "n" * 300, "n" * 5_000, "/", "'g'", "g ", "--", "-",
)
# Words for parsers, which are all right.
PARSERS = ("c", "rust", "python", "c --prefix calc", "c --prefix _9", "rust --augment", "c --augment --prefix calc")
SHOWN_READABLE = (*READABLE, "-")


class Inputs(Grammars):
    """Inputs of the programs, which follow from a number."""

    def random_words(self, rules, text):
        """Words of `lrtab` as bytes, for a file's text, and the rules from which it was made."""
        words = [self.file_of(READABLE), self.one_of(NO_STARTS) if self.is_one_in(30) else self.start_of(rules)]
        kind = self.below(20)
        if kind < 13:
            tokens = self.tokens_of(rules, words[1])
            words += ["parse", self.limit_of(words[1], text), *tokens]
        elif kind < 19:
            words += ["report" if kind % 2 else "explain"]
        else:
            words += [self.one_of(VERBS), *self.some_of(LIMITS, self.below(3))]
        return self.spoilt([it.encode() for it in words])

    def random_shown_words(self, rules):
        """Words of `lrshow` as bytes, for the rules from which a text was made."""
        words = [self.file_of((*READABLE, *6 * ["-"])), self.start_of(rules)]
        kind = self.below(20)
        if kind < 8:
            words += [("json", "html", "dot", "check", "conflicts", "json", "html", "dot")[kind]]
        elif kind < 10:
            words += [("check", "--json"), ("dot", "--conflicts")][kind - 8]
        elif kind < 12:
            words += self.one_of(PARSERS).split(" ")
        elif kind < 14:
            words += ["tree", *["--dot"] * self.below(2), *self.tokens_of(rules, words[1])]
        elif kind < 19:
            words += ["dot", "--around", str(self.below(9)) if self.below(8) else self.one_of(LIMITS + NO_LIMITS)]
            words += ["--depth", str(self.below(5))] if kind > 15 else []
        else:
            words += self.one_of(SHOWN_VERBS).split(" ")
        return self.spoilt([it.encode() for it in words])

    def file_of(self, readable):
        return self.one_of(NOT_READABLE) if self.is_one_in(30) else self.one_of(readable[:1] * 20 + readable)

    def start_of(self, rules):
        return rules[0][0] if rules and not self.is_one_in(5) else self.one_of(STARTS)

    def limit_of(self, start, text):
        if self.is_one_in(25):
            return self.one_of(NO_LIMITS)
        limit = self.one_of(LIMITS)
        try:
            rules = reading.read(text.decode()).rules
        except (UnicodeDecodeError, reading.FaultyLine):
            return limit
        is_mentioned = any(start in right for _, right in rules)
        return str(min(int(limit), SMALL_LIMIT)) if is_mentioned else limit

    def tokens_of(self, rules, start):
        """A sentence, if one is found, or the same with a change; else any tokens."""
        literals = sorted(reading.literals_of(rules)) or ['"a"']
        tokens = None if self.is_one_in(6) else self.sentence(rules, start, 7)
        if tokens is None or len(tokens) > 12:
            tokens = self.some_of(literals, self.below(8))
        tokens = [it.strip('"') for it in tokens]
        if self.is_one_in(3):
            place = self.below(len(tokens) + 1)
            new = self.one_of(ODD_TOKENS) if self.is_one_in(3) else self.one_of(literals).strip('"')
            tokens[place:place + self.below(2)] = [new] * self.below(3)
        return [it for it in tokens if "\0" not in it]

    def sentence(self, rules, name, depth):
        """The literals that a name derives by some of its rules, or None where none is found."""
        rights = [right for other, right in rules if other == name]
        if not rights or not depth:
            return None
        tokens = []
        for symbol in self.one_of(rights) if depth > 3 else min(rights, key=lambda it: sum(map(reading.is_name, it))):
            part = [symbol] if reading.is_literal(symbol) else self.sentence(rules, symbol, depth - 1)
            if part is None:
                return None
            tokens += part
        return tokens

    def spoilt(self, words):
        """The words, of which once in a while one is lost, too many, or not UTF-8."""
        if not self.is_one_in(20):
            return words
        place, change, new = self.below(len(words) + 1), self.below(4), []
        if change == 0:
            return words[:place]
        if change != 2:
            new = [self.one_of(NO_UTF8 if change == 1 else (b"parse", b"report", b"", b"1"))]
        return words[:place] + new + words[place + (change != 3):]
