"""What is doubtful with a grammar, from the textbook's definitions, computed in a plain way."""
from gate.hostile import reading
from gate.shown.places import Finding, lines_of

# What is said of a name, of the start symbol or of the number of a line, and the hint for it.
KINDS = {
    "no start": ("`{0}` has no production", "name another start symbol"),
    "undefined": ("`{0}` has no production", "write one, or mend the name"),
    "unreachable": ("`{0}` is in no list that `{1}` derives", "use it, or leave it out"),
    "unproductive": ("`{0}` derives no list of terminals", "write a production without it"),
    "cyclic": ("`{0}` derives itself", "leave out the production that leads back"),
    "nothing to inline": ("`{0}` is to be inlined and has no production", "write one"),
    "never inlined": ("`{0}` is to be inlined and is on no right side", "leave the mark out"),
    "start used": ("`{0}` is on a right side", "add a start symbol that is on none"),
    "repeated": ("the right side is that of line {0}", "leave one of the two out"),
}


def distance(one, other):
    """The least number of insertions, deletions and substitutions of characters (Levenshtein)."""
    row = [*range(len(other) + 1)]
    for count, letter in enumerate(one, 1):
        last = count
        steps = zip(other, row, row[1:])
        row = [count, *(last := min(last + 1, above + 1, corner + (letter != it)) for it, corner, above in steps)]
    return row[-1]


def nearest_of(name, names):
    """The nearest of some names to another, and the first of several; or None if none is within a
    distance of a third of its bytes and one more."""
    reach = (len(name) + 1) // 3
    near = [(distance(name, it), it) for it in names if abs(len(name) - len(it)) <= reach]
    return min((it for it in near if it[0] <= reach), default=(0, None))[1]


def word_of(kind, name, words):
    """The number of the word that a warning is about, or None if there is no such word."""
    if kind == "repeated":
        return 2 if words[2:] else None
    if kind in ("undefined", "start used"):
        return words.index(name, 2)
    return 0 if words[1:2] == ["="] else 1


class Numbered:
    """The rules of a text without faults, each with the number of its line; the marked names; and for
    each name the number of the first line that has it before an `=` or after `inline`."""

    def __init__(self, text):
        self.rules, self.marked, self.lines, self.text = [], set(), {}, lines_of(text)
        for line in self.text:
            if line.words[1:2] == ["="]:
                self.rules.append((line.number, line.words[0], line.words[2:]))
                self.lines.setdefault(line.words[0], line.number)
            elif line.words:
                self.marked.add(line.words[1])
                self.lines.setdefault(line.words[1], line.number)
        self.defined = {name for _, name, _ in self.rules}

    def productive(self):
        """The names that derive a list of terminals: the least set that the rules allow."""
        found, before = set(), None
        while found != before:
            before = set(found)
            found |= {name for _, name, right in self.rules if all(reading.is_literal(it) or it in found for it in right)}
        return found

    def nullable(self):
        found, before = set(), None
        while found != before:
            before = set(found)
            found |= {name for _, name, right in self.rules if all(it in found for it in right)}
        return found

    def reachable(self, start):
        """The names in the lists that the start symbol derives."""
        found, before = {start}, None
        while found != before:
            before = set(found)
            found |= {it for _, name, right in self.rules if name in found for it in right if reading.is_name(it)}
        return found

    def unit_steps(self):
        """The pairs of names of which the first derives the second alone: the others derive nothing."""
        empty, places = self.nullable(), [(*it, at) for it in self.rules for at in range(len(it[2]))]
        return {
            (name, right[at]) for _, name, right, at in places
            if reading.is_name(right[at]) and empty.issuperset(right[:at] + right[at + 1 :])
        }

    def cyclic(self):
        """The names A with A =>+ A: in each step one name stays, and the others derive nothing."""
        steps = self.unit_steps()
        found, before = set(steps), None
        while found != before:
            before = set(found)
            found |= {(a, d) for a, b in found for c, d in steps if b == c}
        return {a for a, b in found if a == b}

    def has_way_back(self, name, most):
        """Whether there is a way of at most so many steps from a name back to itself."""
        steps, found = self.unit_steps(), {name}
        for _ in range(most):
            found = {b for a, b in steps if a in found}
            if name in found:
                return True
        return False

    def first_use(self, name):
        """The line of the first production with the name on its right side, by names and then lines."""
        uses = [(left, number) for number, left, right in self.rules if name in right]
        return min(uses, key=lambda it: (it[0].encode(), it[1]))[1] if uses else None

    def repeats(self):
        """Each line with the right side of an earlier production of its name, and the first such line."""
        first, found = {}, set()
        for number, name, right in self.rules:
            at = first.setdefault((name, *right), number)
            if at != number:
                found.add((number, at))
        return found

    def expected(self, start):
        """The warnings that hold, as a kind, a name or a line, and the line of the place."""
        used = {it for _, _, right in self.rules for it in right if reading.is_name(it)}
        reachable, productive = self.reachable(start), self.productive()
        found = {("undefined", it, self.first_use(it)) for it in used - self.defined}
        # (if the start symbol has no production, all others are unreachable, and nothing says so)
        found |= {("unreachable", it, self.lines[it]) for it in self.defined - reachable if start in self.defined}
        found |= {("unproductive", it, self.lines[it]) for it in self.defined - productive}
        found |= {("cyclic", it, self.lines[it]) for it in self.cyclic()}
        found |= {("nothing to inline", it, self.lines[it]) for it in self.marked - self.defined}
        found |= {("never inlined", it, self.lines[it]) for it in self.marked - used}
        found |= {("repeated", str(at), number) for number, at in self.repeats()}
        found |= {("no start", start, 1)} if start not in self.defined else set()
        return found | ({("start used", start, self.first_use(start))} if start in used else set())

    def nearest(self, name):
        """The name with a production that is nearest to another, or None."""
        return nearest_of(name, self.defined)

    def warning(self, start, kind, name, number):
        """A warning in words, but for the way back of a name that derives itself."""
        says, hint = KINDS[kind]
        line = self.text[number - 1]
        place = line.place(word_of(kind, name, line.words)) if kind != "no start" else (1, 1, 0, 0)
        near = self.nearest(name) if kind in ("undefined", "no start") else None
        return Finding("warning", *place, says.format(name, start), f"perhaps `{near}` is meant" if near else hint)

    def warnings(self, start):
        return [self.warning(start, *it) for it in self.expected(start)]
