"""Tests of the check of causes of conflicts, in data and as a text."""
import unittest

from gate.shown import causes
from gate.shown.data import WrongData, expect

# Sums and products, and the two derivations of three terms of each.
PLUS, TIMES = ("E", ("E", "+", "E")), ("E", ("E", "*", "E"))
LEFT, RIGHT = '[E: [E: E "{0}" E (*)] "{0}" E]', '[E: E "{0}" [E: E (*) "{0}" E]]'
SUMS, PRODUCTS = ([it.format(sign) for it in (LEFT, RIGHT)] for sign in "+*")
WITHOUT = "  no input with two derivations was found: the search was "
HEAD = '1 conflict of 1 cause\ncause 1: shift/reduce on "+" in state 5\n'
SHIFT, REDUCTION = '  shift by   E = E (*) "+" E\n', '  reduce     E = E "+" E\n'
BEGUN = HEAD + SHIFT + REDUCTION
EXAMPLES = "  an input for each action:\n"
CUT = f"{WITHOUT}cut at 10000 steps or its memory limit\n{EXAMPLES}"
EXHAUSTED = f"{WITHOUT}exhausted\n{EXAMPLES}"
# (first the derivation by the shift, as docs/FORMATS.md says)
FOUND = f"  two derivations of E:\n    {SUMS[1]}\n    {SUMS[0]}\n"
TURNED = f"  two derivations of E:\n    {SUMS[0]}\n    {SUMS[1]}\n"
NEITHER, OTHER = "no search and no derivations", "it does not take the actions of the conflict"


def symbol(text):
    return {"nonterminal": text} if text.isalpha() else {"terminal": text}


def production(number, name, right):
    return {"number": number, "nonterminal": name, "symbols": [*map(symbol, right)]}


def action(productions, dot, shift=None):
    items = [{"production": it, "dot": dot, "examples": []} for it in productions]
    other = {"shift": shift, "state": 4, "items": items}
    return {"reduce": productions[0], "items": items} if shift is None else other


def data_of(rules, conflicts, *searches):
    """The parts of data that have causes. A conflict is its state and two actions."""
    return {
        "terminals": ["*", "+"], "productions": [production(at, *it) for at, it in enumerate(rules)],
        "conflicts": [{"state": state, "tokens": ["+"], "actions": it} for state, *it in conflicts],
        "causes": [{"conflicts": it, "search": how, "derivations": those} for it, how, those in searches],
    }


def sums(how="found", derivations=SUMS):
    conflict = 5, action([0], 3), action([0], 1, "+")
    return data_of([PLUS, TIMES], [conflict], ([0], how, derivations if how == "found" else []))


def reductions(derivations):
    """Both names derive the sign. The reduction is that of A, and the other action that of B."""
    rules = [("A", ("+",)), ("B", ("+",)), ("S", ("A",)), ("S", ("B",))]
    return data_of(rules, [(1, action([0], 1), action([1], 1))], ([0], "found", derivations))


def twins(derivations):
    """Two reductions by productions that are equal."""
    return data_of(2 * [("E", ("+",))], [(1, action([0], 1), action([1], 1))], ([0], "found", derivations))


def empty(derivations):
    """The reduction is that of A, which derives nothing."""
    rules = [("A", ()), ("S", ("A", "+")), ("S", ("+",))]
    return data_of(rules, [(0, action([0], 0), action([2], 0, "+"))], ([0], "found", derivations))


BY_A, BY_B = '[S: [A: "+" (*)]]', '[S: [B: "+" (*)]]'
AFTER_A, ALONE = '[S: [A: (*)] "+"]', '[S: (*) "+"]'
RIGHT_DATA = (
    sums(), sums("cut"), sums("exhausted"), reductions([BY_A, BY_B]), empty([AFTER_A, ALONE]), twins(2 * ['[E: "+" (*)]']))
# The sums with a mark at another move, at no move, without blanks, twice, or not at all.
MISMARKED = (
    ['[E: [E: E "+" (*) E] "+" E]', '[E: E "+" (*) [E: E "+" E]]'], ['[E: [E: E "+" (*) E] "+" E]', SUMS[1]],
    ['[E: [E: E "+" E] (*) "+" E]', '[E: E "+" [E: E "+" (*) E]]'], [SUMS[0], '[E: E "+" [E: (*) E "+" E]]'],
    [SUMS[0].replace(" (*)", "(*)"), SUMS[1]], [SUMS[0].replace("(*)", "(*) (*)"), SUMS[1]],
    [SUMS[0], SUMS[1].replace(" (*)", "")], [it.replace(" (*)", "") for it in SUMS], [f"{it} (*)" for it in SUMS],
)
WRONG_DATA = (
    # (the order of the two, and another ambiguity)
    (OTHER, sums("found", SUMS[::-1])), (OTHER, reductions([BY_B, BY_A])), (OTHER, empty([ALONE, AFTER_A])),
    (OTHER, sums("found", PRODUCTS)), ("no witness", sums("found", [SUMS[0], SUMS[0]])),
    ("no witness", sums("found", [SUMS[0], PRODUCTS[1]])), ("no witness", sums("found", ['[E: "+"]', '[E: "+"]'])),
    ("no witness", sums("found", [SUMS[0].replace('"+"', ' "+"'), SUMS[1]])),
    ("no witness", sums("found", [f"{SUMS[0]} E", SUMS[1]])),
    *(("no witness", sums("found", it)) for it in MISMARKED),
    *(("no witness", twins([it, it])) for it in ('[E: (*) "+"]', '[E: "+"] (*)')),
    ("no witness", reductions([BY_A.replace(' (*)]]', '] (*)]'), BY_B.replace(' (*)]]', '] (*)]')])),
    ("1 derivations of a search found", sums("found", SUMS[:1])),
)
RIGHT_TEXTS = (
    (BEGUN + FOUND, sums()), (BEGUN + FOUND, sums("cut")), (BEGUN + EXHAUSTED, sums("exhausted")),
    (BEGUN + EXHAUSTED, sums("cut")), (BEGUN + CUT, sums("cut")), ("0 conflicts of 0 causes\n", data_of([PLUS], [])),
)
# A part of the text of found sums, what is put in its place, and a part of the reason.
SPOILT_TEXTS = (
    ("expected 1 conflict of 1 cause", "1 conflict of", "1 conflicts of"),
    ("expected ['cause 1", "state 5", "states 5"), ("expected ['cause 1", '"+" in', '"*" in'),
    ("expected ['  shift by", "E (*)", "(*) E"), ("expected ['  red", REDUCTION, ""),
    ("another root", "of E", "of S"), ("no witness", SUMS[1], SUMS[1].replace("+", "*")),
    ("no line end", FOUND, FOUND[:-1]),
    (OTHER, FOUND, TURNED), (OTHER, FOUND, FOUND.replace("+", "*")), ("more lines", FOUND, f"{FOUND}so\n"),
    (NEITHER, "    [E: E", "[E: E"), ("no witness", "    [E: E", "     [E: E"), (NEITHER, FOUND, ""),
    (NEITHER, FOUND, CUT.replace("10000", "banana")), (NEITHER, FOUND, CUT.replace("10000", "2000")),
    ("ended as cut, and as found", FOUND, CUT), ("ended as exhausted, and as found", FOUND, EXHAUSTED),
)


class Causes(unittest.TestCase):
    def refuse(self, reason, check, *given):
        with self.subTest(reason=reason, given=given):
            with self.assertRaises(WrongData) as found:
                check(*given, expect)
            self.assertIn(reason, str(found.exception))

    def test_places_in_trees(self):
        item = causes.Item("E", ("E", '"+"', "E"), 1)
        for text, dot, expected in (
            (SUMS[0], 1, {1, 3}), (SUMS[0], 3, {3, 5}), (SUMS[1], 1, {1, 3}), (SUMS[1], 3, {5}), ("E (*)", 1, set()),
        ):
            self.assertEqual(causes.places_of(causes.tree_of(text)[0], {item._replace(dot=dot)}), expected)
        self.assertEqual(causes.places_of(causes.tree_of(AFTER_A)[0], {causes.Item("A", (), 0)}), {0})

    def test_moves_before_marks(self):
        for text, expected in (
            (SUMS[0], 3), (SUMS[1], 3), (BY_A, 1), (AFTER_A, 0), (ALONE, 0), ("(*) E", 0), ("E (*)", 1),
            ('[S: [A: ] (*) "+"]', 1), ('[S: [A: ] "+" (*)]', 2), ('[S: [A: ] "+"] (*)', 3), ('[S: "(*)" (*)]', 1),
        ):
            self.assertEqual(causes.tree_of(text)[1], expected)

    def test_right_data(self):
        for it in RIGHT_DATA:
            causes.check(it, expect)

    def test_witnesses_in_data(self):
        for reason, given in WRONG_DATA:
            self.refuse(reason, causes.check, given)

    def test_conflicts_of_causes(self):
        one, other = (5, action([0], 3), action([0], 1, "+")), (7, action([0], 3), action([1], 1, "*"))
        causes.check(data_of([PLUS, TIMES], [one, one, other], ([0, 1], "cut", []), ([2], "cut", [])), expect)
        for wrong in ([[0], [1], [2]], [[0, 1, 2]], [[1, 0], [2]], [[2], [0, 1]]):
            given = data_of([PLUS, TIMES], [one, one, other], *((it, "cut", []) for it in wrong))
            self.refuse("causes of the conflicts", causes.check, given)

    def test_right_texts(self):
        for text, given in RIGHT_TEXTS:
            causes.check_text(text, given, expect)

    def test_spoilt_texts(self):
        for reason, old, new in SPOILT_TEXTS:
            self.assertIn(old, BEGUN + FOUND)
            self.refuse(reason, causes.check_text, (BEGUN + FOUND).replace(old, new), sums())
        self.refuse("ended as cut, and as exhausted", causes.check_text, BEGUN + CUT, sums("exhausted"))
        others = [it.replace(" E]", ' [E: E "*" E]]', 1) for it in SUMS]
        self.refuse("in the data", causes.check_text, BEGUN + FOUND, sums("found", others))

    def test_examples(self):
        given = sums("cut")
        reduced, other = given["conflicts"][0]["actions"]
        terms = [{"nonterminal": "E"}, {"terminal": "+"}]
        reduced["items"][0]["examples"] = [{"symbols": terms + terms[:1], "place": 3}]
        other["items"][0]["examples"] = [{"symbols": [None, *terms], "place": 2}, {"symbols": terms, "place": 0}]
        text = BEGUN + CUT + '    shift   E (*) "+"\n' + '    reduce  E "+" E (*)\n'
        causes.check_text(text, given, expect)
        for old, new in (("    shift   E", "    shift  E"), ('E (*) "+"', '(*) E "+"'), ("    reduce  ", "    reduces ")):
            self.refuse("expected the examples", causes.check_text, new.join(text.rsplit(old, 1)), given)

    def test_two_reductions(self):
        head = '1 conflict of 1 cause\ncause 1: reduce/reduce on "+" in state 1\n'
        lines, given = ('  reduce     B = "+"\n', '  reduce     A = "+"\n'), reductions([BY_A, BY_B])
        found, turned = (
            f"  two derivations of S:\n    {one}\n    {other}\n" for one, other in ((BY_B, BY_A), (BY_A, BY_B)))
        causes.check_text(f"{head}{''.join(lines)}{found}", given, expect)
        self.refuse(OTHER, causes.check_text, f"{head}{''.join(lines)}{turned}", given)
        self.refuse("expected ['  reduce", causes.check_text, f"{head}{''.join(reversed(lines))}{found}", given)

    def test_items_with_the_same_text(self):
        """Two equal productions shift the same token, so that two lines are equal."""
        conflict, other = (5, action([0], 3), action([0, 1, 2], 1, "+")), '  shift by   E = E (*) "+"\n'
        given = data_of([PLUS, PLUS, ("E", ("E", "+"))], [conflict], ([0], "cut", []))
        causes.check_text(HEAD + 2 * SHIFT + other + REDUCTION + CUT, given, expect)
        causes.check_text(HEAD + SHIFT + other + SHIFT + REDUCTION + CUT, given, expect)
        for shifts in (SHIFT + other, SHIFT + 2 * other, 3 * SHIFT, 3 * SHIFT + other):
            self.refuse("expected ['  shift by", causes.check_text, HEAD + shifts + REDUCTION + CUT, given)
