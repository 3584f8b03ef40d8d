"""Texts of grammars by chance, of few names and literals. Some are damaged."""
from gate.hostile import reading
from gate.hostile.chance import Chance

NAMES = ("S", "A", "B", "C", "D", "_1", "inline", "Eof")
PLAIN = tuple(f'"{it}"' for it in "a b c d ( ) + - x y z if 0".split())
ODD = (
    '"é"', '"Eof"', '"],"', '"[S:"', r'"\n"', '"="', '"\u00a0"', '"\ufeff"', '"\0"', '"x\ry"', '"🦀"', "\"'\"",
    '"->"',
)
LITERALS = PLAIN + ODD
# Literals that mean something elsewhere: to JSON, to a page, to a graph, to scripts.
HOSTILE = (
    "</script>", "<script>alert(1)</script>", "</style>", "</BODY>", "<!--", "-->", "]]>", "<", ">", "&", "&lt;",
    "&#0;", "'", "`", "${1}", "\\", "\\\\", "\\N", "\\G", "a\\E", "\\\\N", "\\u0022", "\\u003c", "\\n", "{", "}", "];",
    "//", "/*", "#s0", "javascript:0", "%s", "null", "__proto__", "constructor", "\x01", "\x0b", "\x1b[0m", "\x7f",
    "\u0080", "\u0085", "\u2028", "\u202e", "\ufffe", "\uffff", "\U0010ffff", "é" * 300, "\\" * 301,
)
# The shapes of a name's rules: N stands for it, L and M for later names, l and m for literals.
SHAPES = (
    ("N = N l L", "N = L"), ("N = N L", "N ="), ("N = N L", "N = L"), ("N = L l N", "N = L"), ("N = L N", "N ="),
    ("N = l L m", "N = M"), ("N = L", "N = l"), ("N = L M",), ("N = l L", "N = l M"), ("N = L l", "N = M m"),
    ("N = l L M", "N = m"), ("N = N l N", "N = L"), ("N = l M L", "N = m M", "N = L"),
)
# Those that mention no later name.
LAST_SHAPES = (
    ("N = l",), ("N = l", "N = m"), ("N = l", "N ="), ("N = l N", "N = m"), ("N = l N m", "N ="), ("N =",),
)
ODD_LINES = (
    "inline", "inline A B", "inline =", "inline = A", "inline inline", 'inline "x"', 'S="x"', "S", "= A", "A == B",
    "A = = B", 'A = ""', 'A = "', 'A = x"', 'A = "a"b', 'A = "a" "b', "1A = B", "A = 1", 'é = "x"', "A = é", "A = -",
    "A.B = C", "S = S", "A\u00a0= B", "A = B\u3000C", "A\v= B", "A = B\f", "A = \u2028", "\ufeffA = B", "A = B\r\r",
    "A \r= B", "\r", "# A = B", "A : B", "S =", "\t \t", "=", '"x"', "A = B ;", "A = 'a'", 'A = "\'"', "\0", "A = \0",
    "A = B inline C", "inline _", "_ = _", "A =\tB",
)
ODD_BYTES = (
    b"\xff", b"\x80", b"\xc3", b"\xed\xa0\x80", b"\xc0\x80", b"\xf4\x90\x80\x80", b"\xe2\x82", b"\0", b"\r", b"\n",
    b"\t", b" ", b"\x0b", b"\x0c", b"\xc2\xa0", b"\xe3\x80\x80", b"\xe2\x80\xa8", b"\xef\xbb\xbf", b'"', b"=",
    b"\x1b[0m", b"\x7f", b"inline ",
)
NOISE = ("S", "=", "inline", '"a"', "A", "\n", "\n", "\r\n", "\t", '"')


class Grammars(Chance):
    """Rules, lines and texts of grammars, which follow from a number."""

    def simple_rules(self, names):
        """Each right side begins with a literal, and none of a name with that of another."""
        rules = []
        for name in names:
            first = self.below(len(LITERALS))
            for step in range(self.between(1, 3)):
                rest = self.some_of((*names[1:], *self.some_of(LITERALS, 3)), self.below(4))
                rules.append((name, (LITERALS[(first + 5 * step) % len(LITERALS)], *rest)))
        return rules

    def shaped_rules(self, names):
        """The rules of each name have one of the shapes; what it mentions are later names."""
        fresh = list(PLAIN)
        rules = []
        for place, name in enumerate(names):
            later = names[place + 1:]
            for line in self.one_of(SHAPES + LAST_SHAPES if later else LAST_SHAPES):
                rules.append((name, tuple(self.shaped(it, name, later, fresh) for it in line.split()[2:])))
        return rules

    def shaped(self, letter, name, later, fresh):
        if letter == "N":
            return name
        if letter in "LM":
            return self.one_of(later)
        return fresh.pop(self.below(len(fresh))) if fresh and not self.is_one_in(8) else self.one_of(LITERALS)

    def free_rules(self, names):
        """Anything: names that have no rule, rings, and rules twice."""
        symbols = (*names, *self.some_of(NAMES, 1), *self.some_of(LITERALS, self.between(1, 4)))
        count = self.below(9)
        return [(self.one_of(names), tuple(self.some_of(symbols, self.below(5)))) for _ in range(count)]

    def chain_rules(self, names):
        """Each name stands for the next, the last for a literal or itself. One rule is added."""
        ends = ((self.one_of(LITERALS),), (), (names[0],), (names[-1],))
        rules = [(name, (after,)) for name, after in zip(names, names[1:])] + [(names[-1], self.one_of(ends))]
        return rules + [(self.one_of(names), tuple(self.some_of((*names, *LITERALS), self.below(3))))]

    def marked_names(self, rules):
        """Names to be marked: mostly on no ring, and with few enough rules after inlining."""
        if not self.is_one_in(3):
            return []
        names = sorted({name for name, _ in rules} | {"A"})
        reached = reading.reached(rules, names)
        safe = [name for name in names if name not in reached[name]]
        marked = self.some_of(names if self.is_one_in(4) or not safe else safe, self.between(1, 3))
        grammar = reading.Grammar(rules, set(marked))
        try:
            if not reading.on_rings(grammar):
                reading.inlined(grammar)
        except reading.TooLarge:
            return []
        return marked

    def random_lines(self):
        """The rules of a grammar, and its lines."""
        names = NAMES[: self.between(1, 4)] if not self.is_one_in(6) else ("S", *self.some_of(NAMES[1:], 3))
        kinds = (self.simple_rules, self.shaped_rules, self.shaped_rules, self.free_rules, self.chain_rules)
        rules = self.one_of(kinds)(names)
        if not self.is_one_in(3):
            rules = [("T", ("S",))] + rules
        if rules and self.is_one_in(12):
            rules.insert(self.below(len(rules) + 1), self.one_of(rules))
        lines = [" ".join([name, "=", *right]) for name, right in rules]
        for name in self.marked_names(rules):
            lines.insert(self.below(len(lines) + 1), f"inline {name}")
        return rules, lines

    def laid_out(self, lines):
        """The lines with ends and blanks of their own, some of them."""
        if not self.is_one_in(3):
            return "\n".join([*lines, ""])
        text = ""
        for line in lines:
            blanks = self.one_of((" ", "  ", "\t", " \t "))
            text += self.one_of(("", "", " ", "\t\t")) + line.replace(" ", blanks) + self.one_of(("", "", " ", "\t"))
            text += self.one_of(("\n", "\n", "\r\n", "\n\n", "\n \r\n"))
        return text.rstrip("\n") if self.is_one_in(3) else text

    def spoilt_line(self, text):
        lines = text.split(b"\n")
        lines.insert(self.below(len(lines) + 1), self.one_of(ODD_LINES).encode())
        return b"\n".join(lines)

    def spoilt_byte(self, text):
        place = self.below(len(text) + 1)
        return text[:place] + self.one_of(ODD_BYTES) + text[place:]

    def lost_byte(self, text, places):
        place = self.one_of(places)
        return text[:place] + text[place + 1:]

    def lost_quote(self, text):
        places = [place for place, it in enumerate(text) if it == ord('"')]
        return self.lost_byte(text, places) if places else text + b'"'

    def long_word(self, text):
        letter, count = self.one_of((b"A", "é".encode(), b"_", b'"', b"=")), self.between(1, 40_000)
        line = self.one_of((b"S = %s", b'S = "%s"', b"%s = S", b"inline %s", b"%s")) % (letter * count)
        return text + line if self.is_one_in(2) else line + b"\n" + text

    # Each makes another text of a text. The last three keep nothing of it.
    DAMAGES = (
        spoilt_line, spoilt_line, spoilt_byte, spoilt_byte,
        lambda self, text: self.lost_byte(text, range(len(text) + 1)),
        lambda self, text: text[: self.below(len(text) + 1)],
        lost_quote,
        lambda _, text: b"\xef\xbb\xbf" + text,
        long_word,
        lambda self, _: bytes(self.below(256) for _ in range(self.below(60))),
        lambda self, _: " ".join(self.some_of(NOISE, self.below(24))).encode(),
        lambda self, _: self.one_of((b"", b"\n", b"\r\n", b" ", b"\r", b"\0", b"\xef\xbb\xbf", b"\n" * 2_000)),
    )

    def random_text(self):
        """The bytes of a grammar's file, and the rules from which they were made."""
        rules, lines = self.random_lines()
        text = self.laid_out(lines).encode()
        if self.is_one_in(3):
            for _ in range(self.between(1, 3)):
                text = self.one_of(self.DAMAGES)(self, text)
        return text, rules

    def with_hostile_literals(self, text):
        """A grammar's text in which some literals are others."""
        if self.is_one_in(3):
            return text
        for literal in self.some_of(PLAIN, self.between(1, 12)):
            text = text.replace(literal.encode(), f'"{self.one_of(HOSTILE)}"'.encode())
        return text
