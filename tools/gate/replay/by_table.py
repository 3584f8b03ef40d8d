"""tools/run replay-by-table [PROGRAM [LRTAB [CASES]]]

Replays the parse cases of `lrtab` by `parse_replay`, which parses by a parse table and makes nodes.
It compares the status and both outputs byte for byte. It does the same for a few trees that are
deep, and for one of a million nodes.
Then it compares what `parse_replay FILE START expected` prints with what trials find, after the
tokens of each case that has tables, and after each beginning of them. A terminal is expected if
`lrtab` does not refuse it after them. The end is expected if `lrtab` prints a tree of them. If
`lrtab` refuses one of the tokens, both programs must print so. No clause says what is expected if
the start symbol is on a right side. Those tables are compared, too. There a run may never end: a
list of which a trial reaches the limit is left out. How many lists of both kinds there are is
printed.
PROGRAM is crates/parse_replay/out/parse_replay, and LRTAB is crates/lrtab/out/lrtab. `rt ci` and
`rt run` leave them there. CASES is the folder crates/lrtab/cases. Others can be given. The stack is
1 MB. The status is 0 if all agree, and there are some cases and some lists.
"""
import concurrent.futures
import os
import re

from gate.hostile import deep, reading, trials
from gate.programs import arguments, program_of, small_stack
from gate.replay.lrtab import (
    CASES, first_difference, kind_of, print_differences, print_kinds, read_cases, result_of,
)
from gate.shown.data import WrongData, expect

# The limit of a trial, which no run of so few tokens reaches.
STEPS = "10000"
END = "Eof"


def doubled(levels):
    """A tree of 2 ** levels nodes, none of which is a terminal."""
    last, tree = levels - 1, f"[A{levels - 1}: ]"
    for it in reversed(range(last)):
        tree = f"[A{it}: {tree}, {tree}]"
    lines = ["S = A0", *[f"A{it} = A{it + 1} A{it + 1}" for it in range(last)], f"A{last} ="]
    return deep.trial(lines, deep.ENOUGH.format("S"), deep.printed(f"[S: {tree}]"))


# Parses with many nodes: each returns a run, with what is expected of it.
DEEP = {it: deep.DEEP[it] for it in ("right_recursion", "left_recursion", "refused_at_end", "brackets")}
DEEP["million_nodes"] = lambda: doubled(20)


class NotDecided(Exception):
    """A trial that reaches the limit, by a table whose start symbol is on a right side."""


class Tables:
    """The tables of a grammar for a start symbol by a method, of which both programs are asked."""

    def __init__(self, program, lrtab, name, text):
        self.program, self.lrtab, self.text = program, lrtab, text
        self.file, self.start, self.method = name
        self.grammar = reading.read(text)
        literals = reading.literals_of(self.grammar.rules)
        self.terminals = sorted(literals, key=lambda it: it[1:-1].encode())
        self.parses, self.read, self.left_out = {}, set(), 0

    def has_clause(self):
        """Whether the start symbol is on no right side, after inlining."""
        return all(self.start not in right for _, right in reading.inlined(self.grammar))

    def asked(self, program, verb, tokens):
        words = [self.start, verb, STEPS, *tokens]
        return result_of(program, {"file": self.file, "words": words, "method": self.method}, self.text)

    def refused(self, tokens):
        """The token that `lrtab` refuses, as it prints it, or None if it prints a tree."""
        if tokens not in self.parses:
            self.parses[tokens] = self.asked(self.lrtab, "parse", tokens)
        result = self.parses[tokens]
        if result["stdout"] == b"limit\n" and not self.has_clause():
            raise NotDecided(tokens)
        found = re.fullmatch(r"refused at (.+)\n", result["stdout"].decode(errors="replace"), re.DOTALL)
        is_right = result["status"] == (1 if found else 0) and not result["stderr"]
        expect(is_right, f"lrtab prints {result['stdout']!a} for {tokens}, with status {result['status']}")
        return found[1] if found else None

    def may_follow(self, tokens, terminal):
        """Whether `lrtab` does not refuse a terminal after tokens, of which it refuses none."""
        refused = self.refused((*tokens, terminal[1:-1]))
        expect(refused in (None, END, terminal), f"lrtab refuses {refused} before {terminal} after {tokens}")
        return refused != terminal

    def expected(self, tokens):
        """What `parse_replay` must print of what is expected after tokens, and its status."""
        refused = self.refused(tokens)
        if refused not in (None, END):
            return {"status": 1, "stdout": f"refused at {refused}\n", "stderr": ""}
        names = [it for it in self.terminals if self.may_follow(tokens, it)]
        self.read.add(tokens)
        names += [END] if refused is None else []
        return {"status": 0, "stdout": "".join(f"{it}\n" for it in names), "stderr": ""}

    def is_decided(self, tokens):
        """Whether no trial of the list reaches the limit. If one does, the list is left out."""
        try:
            self.expected(tokens)
        except NotDecided:
            self.left_out += 1
            return False
        except WrongData:
            pass
        return True

    def difference(self, tokens):
        """A text on how the expected tokens differ from those that the trials find, or None."""
        try:
            return first_difference(self.expected(tokens), self.asked(self.program, "expected", tokens))
        except WrongData as why:
            return str(why)

    def differences(self, lists):
        """A name for each list of tokens, and the text on it."""
        name = f"expected by {self.method} for {self.start} of {self.file} after"
        decided = [it for it in lists if self.is_decided(it)]
        return [({"name": f"{name} {' '.join(it) or 'nothing'}"}, self.difference(it)) for it in decided]


def lists_of(cases):
    """For the tables of each case that has some, the lists of its tokens, and their beginnings."""
    found = {}
    for it in cases:
        if it["status"] in (0, 1) and not it["stdout"].startswith("conflicts: "):
            tokens = it["words"][3:]
            lists = [tuple(tokens[:count]) for count in range(len(tokens) + 1)]
            found.setdefault((it["file"], it["words"][0], it["method"]), {}).update(dict.fromkeys(lists))
    return found


def deep_difference(program, run):
    """A text on what is wrong with the results of a deep run, or None."""
    try:
        for answer in trials.answers_of(program, run, None):
            run.expected(answer)
    except WrongData as why:
        return str(why)[: trials.LONGEST]
    return None


def compared(pool, program, lrtab, cases, grammars):
    """The texts on the expected tokens of all lists. It prints how many lists there are."""
    found = [(Tables(program, lrtab, it, grammars[it[0]]), lists) for it, lists in lists_of(cases).items()]
    without = [it for it in found if not it[0].has_clause()]
    results = [more for it in pool.map(lambda it: it[0].differences(it[1]), found) for more in it]
    beginnings, parses = sum(len(it.read) for it, _ in found), sum(len(it.parses) for it, _ in found)
    print(f"lists: {beginnings} that are read, {len(results) - beginnings} others, of {len(found)} tables")
    print(f"start symbol on a right side: {sum(len(it) for _, it in without)} lists, of {len(without)} tables")
    print(f"left out: {sum(it.left_out for it, _ in found)} lists of which a trial reaches the limit")
    print(f"parses by lrtab: {parses}")
    return results


def main(words, deep_runs=DEEP):
    program, lrtab, folder = arguments(words, __doc__, None, None, CASES)
    program, lrtab = program_of("parse_replay", program), program_of("lrtab", lrtab)
    cases, grammars = read_cases(folder)
    cases = [it for it in cases if kind_of(it) == "parse"]
    with concurrent.futures.ThreadPoolExecutor(os.cpu_count()) as pool, small_stack():
        ended = pool.map(lambda it: result_of(program, it, grammars.get(it["file"])), cases)
        replayed = [(case, first_difference(case, result)) for case, result in zip(cases, ended)]
        wrong = pool.map(lambda it: deep_difference(program, it()), deep_runs.values())
        deeply = [({"name": f"deep run {name}"}, why) for name, why in zip(deep_runs, wrong)]
        expected = compared(pool, program, lrtab, cases, grammars)
    print_kinds(replayed)
    is_right = bool(replayed and expected)
    for what, results in (("parse cases", replayed), ("deep runs", deeply), ("expected tokens", expected)):
        agree, differ = print_differences(results)
        print(f"{what} by table: {agree} agree, {differ} differ")
        is_right = is_right and not differ
    return 0 if is_right else 1
