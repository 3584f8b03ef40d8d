#!/usr/bin/env python3
"""Certifies the LR tables that bison makes of a grammar, by the proved check `lr1_check`.

    check_bison.py FILE.y [OPTION..]               bison gets the options, for example -Dlr.type=ielr
    check_bison.py --texts GRAMMARS [OPTION..]     one JSON object in a line, with a grammar text as "text"

bison writes its rules and its automaton, with all items of each state, as XML. This script writes
them as a grammar text and as numbers (docs/FORMATS.md, "Tables as numbers"), and asks `lr1.check`
whether these tables are faithful to the grammar. So nothing of bison, and nothing of this script, has
to be trusted but that the grammar text is the grammar that was meant. `--print` prints that text.

The grammar has no conflict, and no precedence resolves one. Rules that no input reaches are left out, as
in bison. bison's rule 0 is `$accept: START $end`. It becomes a production of a new start symbol
without `$end`: the shift of `$end` becomes its reduction at the end of the input.

LR1_LIBRARY names liblr1.so, and PYTHONPATH has bindings/python/src. It needs bison 3.4 or later.
The status is 0 if all tables are faithful, 1 if some are not, and 2 if bison has no tables.
"""
import json
import re
import subprocess
import sys
import tempfile
import xml.etree.ElementTree as xml

import lr1

MAGIC, VERSION, HEAD = 1280454996, 1, 8
END = "$end"


class NoTables(Exception):
    """bison made no tables that this script can write."""


def report_of(path, options, room):
    """What bison writes of a grammar, without default reductions."""
    words = ["bison", "-Dlr.default-reduction=accepting", *options, f"--xml={room}/tables.xml", "-o", f"{room}/parser.c", path]
    ended = subprocess.run(words, capture_output=True, text=True, check=False)
    if ended.returncode:
        raise NoTables(ended.stderr.strip())
    return xml.parse(f"{room}/tables.xml").getroot()


def as_name(symbol, used):
    """A name for a nonterminal of bison, which may have other characters."""
    name = re.sub("[^A-Za-z0-9_]", "_", symbol)
    name = name if re.match("[A-Za-z_]", name) else f"_{name}"
    while name in used:
        name += "_"
    return name


def as_literal(symbol, used):
    """The text of a literal for a terminal of bison, such as n, '+' or "while"."""
    text = symbol[1:-1] if len(symbol) > 2 and symbol[0] in "'\"" else symbol
    text = re.sub('["\\s]', "_", text)
    while text in used:
        text += "_"
    return text


class Grammar:
    """The rules of a report, and the numbers that docs/FORMATS.md gives to what they name."""

    def __init__(self, root):
        self.rules = {}
        for rule in root.find("grammar/rules"):
            if rule.get("usefulness") != "useless-in-grammar":
                right = [it.text for it in rule.find("rhs") if it.tag == "symbol"]
                self.rules[int(rule.get("number"))] = (rule.find("lhs").text, [it for it in right if it != END])
        self.name, self.literal = {}, {}
        for left, _ in self.rules.values():
            if left not in self.name:
                self.name[left] = as_name(left, self.name.values())
        for symbol in (it for _, right in self.rules.values() for it in right):
            if symbol not in self.name and symbol not in self.literal:
                self.literal[symbol] = as_literal(symbol, self.literal.values())
        self.start = self.name[self.rules[0][0]]
        self.terminals = self.numbered(self.literal, str.encode)
        self.nonterminals = self.numbered(self.name, str.encode)
        # (rules of one nonterminal keep their order)
        order = sorted(self.rules, key=lambda it: (self.nonterminals[self.rules[it][0]], it))
        self.productions = {rule: number for number, rule in enumerate(order)}

    @staticmethod
    def numbered(names, key):
        return {it: number for number, it in enumerate(sorted(names, key=lambda it: key(names[it])))}

    def word(self, symbol):
        return self.name[symbol] if symbol in self.name else f'"{self.literal[symbol]}"'

    def text(self):
        """The grammar as a text."""
        lines = [" ".join([self.name[left], "=", *map(self.word, right)]) for left, right in self.rules.values()]
        return "".join(f"{it}\n" for it in lines)


def transitions(state, kind):
    """The symbols and the targets of the shifts or of the gotos of a state."""
    found = state.find("actions/transitions").iter("transition")
    return [(it.get("symbol"), int(it.get("state"))) for it in found if it.get("type") == kind]


def reductions(state):
    """The tokens of each rule by which a state reduces."""
    found = {}
    for it in state.find("actions/reductions"):
        if it.get("enabled") != "true":
            raise NoTables("the grammar has conflicts")
        if it.get("rule") != "accept":
            if it.get("symbol") == "$default":
                raise NoTables("bison wrote a default reduction")
            found.setdefault(int(it.get("rule")), []).append(it.get("symbol"))
    if any(symbol == END for symbol, _ in transitions(state, "shift")):
        found[0] = [END]
    return found


class Tables:
    """The parts of tables as numbers: sets, states and lists of items."""

    def __init__(self, grammar, root):
        self.grammar, self.sets = grammar, {(): 0}
        states = [it for it in root.find("automaton") if not self.accepts(it)]
        # (the state in which the end was shifted is left out)
        self.number = {int(it.get("number")): at for at, it in enumerate(states)}
        self.states = [self.state(it) for it in states]
        self.items = [self.items_of(it) for it in states]

    @staticmethod
    def accepts(state):
        return any(it.get("rule-number") == "0" and it.get("dot") == "2" for it in state.find("itemset"))

    def set(self, symbols):
        """The number of the set of some tokens."""
        terminals = {**self.grammar.terminals, END: len(self.grammar.terminals)}
        tokens = tuple(sorted(terminals[it] for it in symbols))
        return self.sets.setdefault(tokens, len(self.sets))

    def pairs(self, found, numbers):
        return sorted((numbers[symbol], self.number[target]) for symbol, target in found if symbol != END)

    def state(self, it):
        """The shifts, the gotos and the reductions of a state."""
        if len(it.find("solved-conflicts")):
            raise NoTables("precedence resolves conflicts")
        reduced = [(self.grammar.productions[rule], self.set(tokens)) for rule, tokens in reductions(it).items()]
        shifts = self.pairs(transitions(it, "shift"), self.grammar.terminals)
        return shifts, self.pairs(transitions(it, "goto"), self.grammar.nonterminals), sorted(reduced)

    def items_of(self, state):
        """The items of a state. The check does not look at their lookaheads, which are set 0."""
        found = [(int(it.get("rule-number")), int(it.get("dot"))) for it in state.find("itemset")]
        return [(self.grammar.productions[rule], dot, 0) for rule, dot in found]

    def numbers(self):
        """All numbers, one part after the other."""
        grammar = self.grammar
        sides = [grammar.rules[rule] for rule in grammar.productions]
        productions = [it for left, right in sides for it in (grammar.nonterminals[left], len(right))]
        counted = [[len(rows), *(it for row in rows for it in row)] for rows in self.items]
        states = [[it for rows in state for it in (len(rows), *sum(rows, ()))] for state in self.states]
        blocks = [[len(it), *it] for it in self.sets] + states + counted
        place, places = HEAD + len(blocks) + len(productions), []
        for block in blocks:
            places.append(place)
            place += len(block)
        counts = [len(self.items), len(grammar.terminals), len(grammar.nonterminals), len(sides), len(self.sets)]
        return [MAGIC, VERSION, *counts, len(self.states), *places, *productions, *sum(blocks, [])]


def tables_of(path, options=()):
    """The grammar of a file and the numbers of the tables that bison makes of it."""
    with tempfile.TemporaryDirectory() as room:
        root = report_of(path, options, room)
    grammar = Grammar(root)
    return grammar, Tables(grammar, root).numbers()


def bison_text(text):
    """A grammar text in the form of bison, with the start symbol S. Marks are left out."""
    lines = [it.split() for it in text.split("\n")]
    rules = [(it[0], it[2:]) for it in lines if len(it) > 1 and it[1] == "="]
    literals = sorted({it for _, right in rules for it in right if it[0] == '"'})
    word = {it: f"t{number}" for number, it in enumerate(literals)}
    tokens = "".join(f"%token {it}\n" for it in word.values())
    body = "".join(f"n_{left}: {' '.join(word.get(it, f'n_{it}') for it in right)};\n" for left, right in rules)
    return f"{tokens}%start n_S\n%%\n{body}%%\n"


def check_texts(path, options):
    """Checks the tables of each text, and the same with the dot of the last item at another place."""
    faithful, other, left_out = 0, [], 0
    with open(path, encoding="utf-8") as file, tempfile.TemporaryDirectory() as room:
        for line in file:
            row = json.loads(line)
            with open(f"{room}/grammar.y", "w", encoding="utf-8") as it:
                it.write(bison_text(row["text"]))
            try:
                grammar, numbers = tables_of(f"{room}/grammar.y", options)
            except NoTables:
                left_out += 1
                continue
            changed = [*numbers[:-2], numbers[-2] + 1, numbers[-1]]
            if lr1.check(grammar.text(), grammar.start, changed).status == 0:
                other.append(f"{row['file']}: tables with another dot are faithful")
            answer = lr1.check(grammar.text(), grammar.start, numbers)
            faithful += answer.status == 0
            other += [f"{row['file']}: {answer.text.strip()}"] * (answer.status != 0)
    print(*other, f"{faithful} tables are faithful; bison has none for {left_out} texts", sep="\n")
    return 1 if other else 0


def main(words):
    if len(words) > 1 and words[0] == "--texts":
        return check_texts(words[1], words[2:])
    show, words = "--print" in words, [it for it in words if it != "--print"]
    if not words:
        print(__doc__.split("\n\n")[1], file=sys.stderr)
        return 2
    try:
        grammar, numbers = tables_of(words[0], words[1:])
    except NoTables as why:
        print(why, file=sys.stderr)
        return 2
    if show:
        print(grammar.text(), end="")
    answer = lr1.check(grammar.text(), grammar.start, numbers)
    print(answer.text or f"the tables are faithful: {len(numbers)} numbers", end="" if answer.text else "\n")
    return answer.status


if __name__ == "__main__":
    sys.exit(main(sys.argv[1:]))
