"""Inputs of `lrtab` that nest deep, or are long or many, and the parts of such inputs.

Each has its limits. What is expected of it follows from its own shape.
"""
import collections
import functools
import re

from gate.hostile import reading
from gate.hostile.forms import NUMBER
from gate.hostile.reports import check_report
from gate.hostile.verdicts import Answer
from gate.shown.data import WrongData, expect

MEGABYTE = 1 << 20
SMALL_STACK, LARGE_STACK = MEGABYTE, 8 * MEGABYTE
SECONDS, MEMORY = 60, 4096 * MEGABYTE
LANE, METHODS = ("Lane",), ("Lane", "Canonical")
# The words may fill a fourth of the stack, ten bytes for each of one letter.
FEW, HALF, MANY = 24_000, 12_000, 180_000
MARKED, UNITS, CHAIN = 16_000, 10_000, 5_000
BLANKS = 2_500_000
LISTS = ["T = S", 'S = S "a"', "S ="]
# A limit that no parse of these reaches.
ENOUGH = "{} parse 99999999"
LEAF, LONG_NAME, LONG_WORD = '"x"', "N" * 2_000_000, "x" * 120_000

# The words are texts or bytes. `expected` raises `WrongData` at a wrong answer. `seconds` are of
# processor time, since how long a run takes depends on what runs beside it. `lane` is the value of
# the variable for the lane way.
Case = collections.namedtuple("Case", "text words expected methods stack memory seconds lane")


def trial(
    lines, words, expected, tokens=(), stack=SMALL_STACK, memory=MEMORY, seconds=SECONDS, methods=METHODS, file="g",
):
    text = "".join(f"{line}\n" for line in lines) if isinstance(lines, list) else lines
    return Case(text.encode(), [file, *words.split(), *tokens], expected, methods, stack, memory, seconds, None)


def printed(line, status=0):
    return functools.partial(check_same, Answer(status, f"{line}\n".encode(), b""))


def refused(line, status=2):
    return functools.partial(check_same, Answer(status, b"", f"{line}\n".encode()))


def check_same(expected, answer):
    is_right = (answer.status, answer.stderr) == (expected.status, expected.stderr)
    expect(is_right, f"expected status {expected.status}, and {expected.stderr!r} on standard error")
    check_text(expected.stdout, answer.stdout, "standard output")


def check_text(expected, got, what):
    """Two texts are the same. Else the reason says where they begin to differ."""
    if expected != got:
        pairs = enumerate(zip(expected, got))
        place = next((it for it, (one, other) in pairs if one != other), min(len(expected), len(got)))
        parts = f"expected {expected[place:place + 40]!r}, got {got[place:place + 40]!r}"
        raise WrongData(f"{what} from place {place} on: {parts}")


NO_MEMORY, CYCLE, ONE_LEAF = refused("out of memory", 3), refused("cyclic inline of a0"), printed('[S: "x"]')


def chain(name, count, *ends):
    """Names of which each stands for the next, and the last for each of the ends."""
    links = [f"{name}{it} = {name}{it + 1}" for it in range(count - 1)]
    return links + [f"{name}{count - 1} = {end}" for end in ends]


def marks(name, count):
    return [f"inline {name}{it}" for it in range(count)]


def nested(names, inner):
    """A tree of nodes with one child each."""
    return printed("".join(f"[{it}: " for it in names) + inner + "]" * len(names))


def leaves(lines, count, last="x"):
    """A node with so many leaves, of which the last may be another."""
    tree = "".join(["[S: ", '"x", ' * (count - 1), f'"{last}"]'])
    return trial(lines, f"S parse {count + 1}", printed(tree), [*(count - 1) * ["x"], last])


def marked(end, expected, words="S parse 2 x", stack=SMALL_STACK):
    """A chain of marked names. The order of inlining begins with the first one."""
    return trial(["S = a0", *chain("a", MARKED, end), *marks("a", MARKED)], words, expected, stack=stack)


def little(lines, words, expected, megabytes):
    """Little memory, and one method."""
    return trial(lines, words, expected, memory=megabytes * MEGABYTE, methods=LANE)


def tail_of_chain(task, lines, rest=()):
    """A conflict at the end of a chain. Its state has any number."""
    return trial(lines, f"S {task}", functools.partial(check_tail, task, reading.read("\n".join(lines)).rules, rest))


def check_tail(task, rules, rest, answer):
    expect((answer.status, answer.stderr) == (1, b""), "expected status 1, and nothing on standard error")
    text = answer.stdout.decode()
    if task == "report":
        count = check_report(text, rules, reading.literals_of(rules))
        expect(count == 1, f"expected one conflict, got {count}")
        return
    head, _, others = text.partition("\n")
    expect(re.fullmatch(rf'conflict 1 in state {NUMBER} on "z"', head), f"the first line is {head[:200]!r}")
    check_text("".join(f"{it}\n" for it in rest), others, "the other lines")


RECURSIONS = {
    "right_recursion": lambda count, stack: trial(
        ['S = "a" S', 'S = "b"'], ENOUGH.format("S"), printed('[S: "a", ' * count + '[S: "b"]' + "]" * count),
        [*count * "a", "b"], stack),
    "left_recursion": lambda count, stack: trial(
        LISTS, ENOUGH.format("T"), printed("[T: " + "[S: " * count + "[S: ]" + ', "a"]' * count + "]"),
        count * "a", stack),
    "refused_at_end": lambda count, stack: trial(
        ['T = S "z"', *LISTS[1:]], ENOUGH.format("T"), printed("refused at Eof", 1), count * "a", stack),
}
DOUBLED = ["S = a0", *[f"a{it} = a{it + 1} a{it + 1}" for it in range(40)], 'a40 = "x"', *marks("a", 41)]
MANY_NAMES = [f"a{it}" for it in range(4_000)]
MIDDLE = f"b{MARKED // 2}"
# Each name of FALLING stands for the one before it in the order of names.
RISING, FALLING = [f"N{it}" for it in range(UNITS)], [f"N{it:05}" for it in reversed(range(UNITS))]
# Chains that begin after the first token, and end with a conflict.
REDUCTIONS = ['S = "y" A0 "z"', *chain("A", CHAIN, '"x"', '"x"')]
SHIFT = [REDUCTIONS[0], *chain("A", CHAIN, '"x"', '"x" "z"')]
# After each name of this one stands one that may be empty.
SUFFIXES = [REDUCTIONS[0], *[f"A{it} = A{it + 1} N" for it in range(CHAIN - 1)], *REDUCTIONS[-2:], "N ="]
REDUCED = f'  reduce A{CHAIN - 1} -> "x"'
# Each two of so many equal productions are in conflict. These conflicts have no examples.
EQUAL = 142
EXPLAINED = "\n".join(
    f'conflict {it} in state 1 on Eof\n  reduce S -> "x"\n  reduce S -> "x"' for it in range(1, EQUAL * (EQUAL - 1) // 2 + 1)
)
EXAMPLE, SUFFIXED = '    "y" "x" (*) "z"', f'    "y" "x" (*){" N" * (CHAIN - 1)} "z"'
DEEP = {
    # (those that take long come first)
    # Each two productions are in conflict. Memory and time suffice to count them, not to list them.
    "equal_lines": lambda: trial(
        10_000 * ['S = "x"'], "S parse 2 x", printed("conflicts: 49995000", 1), memory=256 * MEGABYTE, seconds=10),
    # After inlining, S has a million million symbols or right sides.
    "marked_doubling": lambda: little(DOUBLED, "S report", NO_MEMORY, 512),
    "marked_choices": lambda: little(["S = " + "a " * 40, "a =", 'a = "x"', "inline a"], "S explain", NO_MEMORY, 512),
    **{name: functools.partial(it, FEW, SMALL_STACK) for name, it in RECURSIONS.items()},
    **{f"{name}_of_many": functools.partial(it, MANY, LARGE_STACK) for name, it in RECURSIONS.items()},
    "marked_chain": lambda: marked(LEAF, ONE_LEAF),
    "marked_chain_by_a_large_stack": lambda: marked(LEAF, ONE_LEAF, stack=LARGE_STACK),
    "marked_ring": lambda: marked("a0", CYCLE),
    "marked_ring_by_a_large_stack": lambda: marked("a0", CYCLE, stack=LARGE_STACK),
    # The first name leads into the middle of the ring, where the order of inlining comes back.
    "marked_ring_after_a_name": lambda: trial(
        [f"a = {MIDDLE}", "inline a", *chain("b", MARKED, "b0"), *marks("b", MARKED)], "a report",
        refused(f"cyclic inline of {MIDDLE}")),
    "marked_mentions": lambda: leaves(["S = " + "a " * 20_000, 'a = "x"', "inline a"], 20_000),
    "marked_mentions_of_many": lambda: leaves(
        ["S = " + " ".join(MANY_NAMES), *[f'{it} = "x"' for it in MANY_NAMES], *marks("a", 4_000)], 4_000),
    "marked_mention_at_end": lambda: leaves(["S = " + '"x" ' * 19_999 + "a", 'a = "y"', "inline a"], 20_000, "y"),
    "long_right_side": lambda: leaves(["S = " + '"x" ' * 5_000], 5_000),
    "brackets": lambda: trial(
        ['S = "(" S ")"', "S ="], ENOUGH.format("S"), printed('[S: "(", ' * HALF + "[S: ]" + ', ")"]' * HALF),
        HALF * "(" + HALF * ")"),
    "refused_after_the_sentence": lambda: trial(
        ["T = S", 'S = "a" S', 'S = "b"'], ENOUGH.format("T"), printed('refused at "c"', 1), [*FEW * "a", "b", "c"]),
    # One step more than the limit would complete the tree.
    "limit_within": lambda: trial(LISTS, f"T parse {2 * FEW + 1}", printed("limit", 1), FEW * "a"),
    # S is on a right side, and is reduced to itself for ever.
    "endless_reductions": lambda: trial(["S = S", 'S = "a"'], "S parse 1000000 a", printed("limit", 1)),
    "units": lambda: trial(chain("N", UNITS, LEAF), f"N0 parse {UNITS + 1} x", nested(RISING, LEAF)),
    "falling_units": lambda: trial(
        [f"{one} = {other}" for one, other in zip(FALLING, [*FALLING[1:], LEAF])],
        f"{FALLING[0]} parse {UNITS + 1} x", nested(FALLING, LEAF)),
    "nullable_units": lambda: trial(chain("N", UNITS, ""), f"N0 parse {UNITS}", nested(RISING, "")),
    # No name of the ring derives anything, so two productions can be reduced where it is closed.
    "ring_of_units": lambda: trial(
        ['S = "x"', 'S = "y" N0', *chain("N", UNITS, "N0")], "S parse 9 x", printed("conflicts: 1", 1)),
    "terminals": lambda: trial([f'S = "t{it}"' for it in range(10_000)], "S parse 2 t5000", printed('[S: "t5000"]')),
    "long_name": lambda: trial(
        [f"S = {LONG_NAME}", f'{LONG_NAME} = "x"'], "S parse 3 x", printed(f'[S: [{LONG_NAME}: "x"]]')),
    "long_literal": lambda: trial([f'S = "{LONG_WORD}"'], f"S parse 2 {LONG_WORD}", printed(f'[S: "{LONG_WORD}"]')),
    "empty_lines": lambda: little("\n" * BLANKS + 'S = "x"' + "\n" * BLANKS, "S parse 2 x", ONE_LEAF, 64),
    "fault_after_empty_lines": lambda: little(
        "\r\n" * BLANKS + "S x", "S report", refused(f"line {BLANKS + 1}: not a grammar line"), 64),
    "explained_reductions": lambda: tail_of_chain("explain", REDUCTIONS, 2 * [REDUCED, EXAMPLE]),
    "explained_shift": lambda: tail_of_chain("explain", SHIFT, [REDUCED, EXAMPLE, '  shift "z"', f'{EXAMPLE} "z"']),
    "explained_suffixes": lambda: tail_of_chain("explain", SUFFIXES, 2 * [REDUCED, SUFFIXED]),
    "explained_equal_lines": lambda: trial(EQUAL * ['S = "x"'], "S explain", printed(EXPLAINED, 1)),
    "reported_reductions": lambda: tail_of_chain("report", REDUCTIONS),
    "reported_shift": lambda: tail_of_chain("report", SHIFT),
}
