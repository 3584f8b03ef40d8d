"""Inputs of `lrshow` that nest deep, or are long or many.

Each has its limits. What is expected of it follows from its own shape, and of few lines also from the
definitions.
"""
import functools
import re

from gate.hostile import reading
from gate.hostile.deep import (
    BLANKS, CYCLE, DOUBLED, EQUAL, FEW, LANE, LARGE_STACK, LEAF, LISTS, MANY, MEGABYTE, NO_MEMORY, SMALL_STACK,
    SUFFIXES, UNITS, chain, check_same, check_text, little, marked, marks, trial,
)
from gate.hostile.shown_verdicts import check_data, check_shown
from gate.hostile.verdicts import Answer, Request
from gate.shown import checks, doubts, graph, page, tree
from gate.shown import data as shown_data
from gate.shown.data import expect
from gate.shown.places import Finding, lines_of

STATES, RING = 400, 400
# How deep a tree is whose lines are written. Each level has two blanks more than the one before.
LEVELS = 3_000
NAME, WORD, LONG = "N" * 500_000, "<" * 100_000, "S = " + '"x" ' * 5_000
SAME, CHAIN, TERMINALS = EQUAL * ['S = "x"'], chain("N", UNITS // 2, LEAF), [f'S = "t{it}"' for it in range(STATES)]
PAIRS = EQUAL * (EQUAL - 1) // 2
# Each name of the ring derives itself, and after all of them two productions can be reduced.
ROUND = [f"N{it}" for it in range(RING)]
RINGS = ["S = N0", *chain("N", RING, "N0", LEAF)]
# One of the derivations has a list after the conflict. Each two steps of a search make it longer by one.
LONG_SEARCH = ['S = A L "p"', 'S = B "c" "q"', 'A = "y"', 'B = "y"', 'L = L "c"', 'L = "c"']


def shows(text, status=0, errors=""):
    return functools.partial(check_same, Answer(status, text.encode(), errors.encode()))


def start_of(lines):
    return lines[0].split()[0]


def empty_lines():
    """A production between many empty lines."""
    return "\n" * BLANKS + 'S = "x"' + "\n" * BLANKS


# ---- data, graphs and pages
def shown_trial(lines, form, conflicts=0, around=None):
    """All data of the lines are expected, and so many conflicts."""
    start = start_of(lines)
    words = f"{start} {form}" if around is None else f"{start} {form} --around {around}"
    request = Request("g", start, form, around, [])
    return trial(lines, words, functools.partial(check_shown_answer, lines, request, conflicts))


def check_shown_answer(lines, request, conflicts, answer):
    if request.task == "dot":
        check_graph(answer, request.number, conflicts)
        return
    text = answer.stdout
    data = shown_data.read(page.held(text.decode()).encode() if request.task == "html" else text)
    expect(len(data["conflicts"]) == conflicts, f"expected {conflicts} conflicts")
    check_data(data, request.start, reading.read("\n".join(lines)))
    check_shown(answer, request, data, None)


def check_graph(answer, around, conflicts):
    """A graph that is well-formed, and has as many red lines as there are conflicts."""
    expect(answer.status == (1 if conflicts else 0), f"expected another status than {answer.status}")
    nodes, edges = graph.read(answer.stdout.decode(), around)
    remark = graph.remark_on(len(edges), around, conflicts)
    expect(answer.stderr == remark.encode(), f"expected {remark!r} on standard error")
    reds = sum(is_red for _, lines, *_ in nodes for _, is_red in lines)
    expect(reds == conflicts, f"expected {conflicts} red lines")


# ---- checks
def checked(lines, form, causes):
    """A check that is right by the definitions, of few names. Each cause is about equal lines."""
    text, start = "".join(f"{it}\n" for it in lines), start_of(lines)
    return trial(lines, f"{start} {form}", functools.partial(check_findings, text, start, form, causes))


def check_findings(text, start, form, causes, answer):
    expect(answer.stderr == b"", "a text on standard error")
    check = checks.check_json if form == "check --json" else checks.check
    places = [it.place(0) for it in lines_of(text) if it.words] if causes else []
    choices = [Finding("warning", *it, EQUAL_LINES, checks.CONFLICTS) for it in places]
    check(answer.status, answer.stdout.decode(), text, start, "g", None if causes is None else causes * [choices])


def said(place, kind, name):
    """The line of a warning."""
    says, hint = doubts.KINDS[kind]
    return f"g:{place}: warning: {says.format(name)}; {hint}\n"


def collides(line, token, one, other):
    """The line on a cause of two reductions, without its state."""
    return f"g:{line}:1: warning: reduce/reduce conflict on {token}: reduce {one}, or reduce {other}; {checks.CONFLICTS}\n"


def without_state(check, answer):
    check(answer._replace(stdout=re.sub(rb"(?m)( conflict on .*?) in state [0-9]+: ", rb"\1: ", answer.stdout)))


def cyclic(first):
    """The lines on the names of the ring, of which the first is before the `=` of some line. The way
    back is too long to be said."""
    return "".join(said(f"{first + at}:1", "cyclic", it) for at, it in enumerate(ROUND))


def check_ring(expected, answer):
    """The error of one of the names of the ring, and after it the expected lines."""
    expect((answer.status, answer.stderr) == (2, b""), "expected status 2, and nothing on standard error")
    rest = "would have to be inlined into itself; leave a mark out"
    errors = {f"g:{at + 2}:1: error: `{it}` {rest}\n".encode() for at, it in enumerate(ROUND)}
    lines = answer.stdout.splitlines(keepends=True)
    expect(lines and lines[0] in errors, f"expected an error at the beginning, not {lines[:1]}")
    check_text(expected.encode(), b"".join(lines[1:]), "standard output")


# ---- causes of conflicts
def caused(lines, causes, conflicts, **limits):
    """The text of conflicts of so many causes, each in one state. Its number is not compared."""
    counts = f"{conflicts} conflict{'s' * (conflicts != 1)} of {len(causes)} cause{'s' * (len(causes) != 1)}\n"
    text = counts + "".join(f"cause {number}: {it}" for number, it in enumerate(causes, 1))
    expected = functools.partial(check_causes, shows(text, 1 if conflicts else 0))
    return trial(lines, f"{start_of(lines)} conflicts", expected, **limits)


def check_causes(check, answer):
    check(answer._replace(stdout=re.sub(rb"(?m)^(cause [0-9]+: .*) in state [0-9]+$", rb"\1", answer.stdout)))


def reduced(token, one, other, search):
    """A cause of two reductions."""
    return f"reduce/reduce on {token}\n  reduce     {one}\n  reduce     {other}\n{search}"


def derived(root, *derivations):
    return f"  two derivations of {root}:\n" + "".join(f"    {it}\n" for it in derivations)


LAST = f"A{len(SUFFIXES) - 4}"
TWICE = reduced("Eof", *2 * ['S = "x"'], derived("S", *2 * ['[S: "x" (*)]']))
SUFFIXED = reduced('"z"', *2 * [f'{LAST} = "x"'], derived(LAST, *2 * [f'[{LAST}: "x" (*)]']))
AROUND = "[S: " + "".join(f"[{it}: " for it in ROUND) + "N0 (*)" + "]" * (RING + 1)
RINGED = reduced("Eof", "S = N0", f"{ROUND[-1]} = N0", derived("S", "[S: N0 (*)]", AROUND))
CUT = reduced(
    '"c"', 'B = "y"', 'A = "y"', "  no input with two derivations was found: the search was cut at 10000 steps or its memory limit\n"
    '  an input for each action:\n    reduce  "y" (*) "c" "q"\n    reduce  "y" (*) L "p"\n')


# ---- trees
def drawn(lines, tokens, made, is_graph, stack=SMALL_STACK):
    """The tree of tokens, as lines or as a graph."""
    words, write = ("tree --dot", tree.graph_of) if is_graph else ("tree", tree.lines_of)
    return trial(lines, f"{start_of(lines)} {words}", shows(write(made)), tokens, stack)


def undrawn(lines, tokens, remark, **limits):
    return trial(lines, f"{start_of(lines)} tree", shows("", 1, f"{remark}\n"), tokens, **limits)


def leaf(text):
    return f'"{text}"', None


def right_recursion(count, is_graph, stack=SMALL_STACK):
    made = functools.reduce(lambda inner, _: ("S", [leaf("a"), inner]), range(count), ("S", [leaf("b")]))
    return drawn(['S = "a" S', 'S = "b"'], [*count * "a", "b"], made, is_graph, stack)


def left_recursion(count, is_graph, stack=SMALL_STACK):
    made = functools.reduce(lambda inner, _: ("S", [inner, leaf("a")]), range(count), ("S", []))
    return drawn(LISTS, count * "a", ("T", [made]), is_graph, stack)


def nested(names, text):
    """A tree of nodes with one child each."""
    return functools.reduce(lambda inner, it: (it, [inner]), reversed(names), leaf(text))


LONG_NAME = [f"S = {NAME}", f'{NAME} = "x"']
# What is said of two equal lines of which either can be reduced.
EQUAL_LINES = 'reduce/reduce conflict on Eof in state 1: reduce S = "x", or reduce S = "x"'
# Names, lines, how many conflicts they have, each with a cause of its own, and the forms that are tried.
FORMS, CHECKS = ("json", "dot", "html"), ("check", "check --json")
SHAPES = (
    # Of equal productions each two are in conflict.
    ("conflicts", SAME, PAIRS, (*FORMS, *CHECKS)),
    # An example is as long as the chain of names.
    ("suffixes", SUFFIXES, 1, ("json", "html")),
    ("units", CHAIN, 0, ("json", "html")),
    ("long_name", LONG_NAME, 0, (*FORMS, *CHECKS)),
    ("long_literal", [f'S = "{WORD}"'], 0, (*FORMS, *CHECKS)),
    ("terminals", TERMINALS, 0, (*FORMS, *CHECKS)),
    ("long_right_side", [LONG], 0, ("json", *CHECKS)),
    ("long_right_side", ["S = " + '"x" ' * STATES], 0, ("dot",)),
    ("long_undefined_name", [f"S = {NAME}"], 0, CHECKS),
    ("last_of_a_long_right_side", ["S = " + '"é" ' * 5_000 + "A"], 0, CHECKS),
    ("long_word", [f"S = {WORD}*"], None, CHECKS),
    ("faulty_lines", 10_000 * ["S : S"], None, CHECKS),
)
# Those of many names, of which the definitions take long.
SLOW_CHECKS = {
    # (0.1 and 1.3 seconds, measured)
    "units": lambda: trial(CHAIN, "N0 check", shows(""), seconds=30, methods=LANE),
    "suffixes": lambda: trial(
        SUFFIXES, "S check", functools.partial(without_state, shows(
            said(f"{len(SUFFIXES) - 1}:9", "repeated", len(SUFFIXES) - 2)
            + collides(len(SUFFIXES) - 2, '"z"', *2 * [f'{LAST} = "x"']), 1)),
        seconds=60, methods=LANE),
    "ring": lambda: trial(RINGS, "S check", functools.partial(without_state, shows(
        cyclic(2) + collides(RING + 1, "Eof", f"{ROUND[-1]} = N0", "S = N0"), 1))),
    "marked_ring": lambda: trial(
        [*RINGS, *marks("N", RING)], "S check", functools.partial(check_ring, cyclic(2))),
    "empty_lines": lambda: little(empty_lines(), "S check", shows(""), 384),
    "fault_after_empty_lines": lambda: little(
        "\r\n" * BLANKS + "S x", "S check",
        shows(f'g:{BLANKS + 1}:3: error: `x` is in the place of "="; a production is a name, "=" and symbols\n', 2), 128),
}
CAUSES = {
    "conflicts": lambda: caused(SAME, PAIRS * [TWICE], PAIRS),
    "suffixes": lambda: caused(SUFFIXES, [SUFFIXED], 1),
    "units": lambda: caused(CHAIN, [], 0),
    "long_name": lambda: caused(LONG_NAME, [], 0),
    "ring": lambda: caused(RINGS, [RINGED], 1),
    # (24 seconds and more than a gigabyte, measured)
    "long_search": lambda: caused(LONG_SEARCH, [CUT], 1, seconds=90, methods=LANE),
}
TREES = {
    "right_recursion_as_tree": lambda: right_recursion(LEVELS, False),
    "left_recursion_as_tree": lambda: left_recursion(LEVELS, False),
    "right_recursion_as_tree_graph": lambda: right_recursion(FEW - 2, True),
    "left_recursion_as_tree_graph": lambda: left_recursion(FEW - 2, True),
    "right_recursion_of_many_as_tree_graph": lambda: right_recursion(MANY, True, LARGE_STACK),
    "left_recursion_of_many_as_tree_graph": lambda: left_recursion(MANY, True, LARGE_STACK),
    "units_as_tree": lambda: drawn(CHAIN, ["x"], nested([f"N{it}" for it in range(UNITS // 2)], "x"), False),
    "long_name_as_tree": lambda: drawn(LONG_NAME, ["x"], nested(["S", NAME], "x"), False),
    "long_literal_as_tree_graph": lambda: drawn([f'S = "{WORD}"'], [WORD], nested(["S"], WORD), True),
    "long_right_side_as_tree": lambda: drawn([LONG], 5_000 * ["x"], ("S", 5_000 * [leaf("x")]), False),
    "conflicts_as_tree": lambda: undrawn(SAME, ["x"], f"conflicts: {PAIRS}"),
    # There is memory to count the conflicts, and none to list them.
    "equal_lines_as_tree": lambda: undrawn(
        10_000 * ['S = "x"'], ["x"], "conflicts: 49995000", memory=256 * MEGABYTE, seconds=10),
    "terminals_as_tree": lambda: undrawn(
        TERMINALS, ["x"], 'token 1, "x", is wrong; expected: ' + " ".join(sorted(it[4:] for it in TERMINALS))),
    "refused_at_end_as_tree": lambda: undrawn(
        ['T = S "z"', *LISTS[1:]], FEW * "a", 'the input ends too early; expected: "a" "z"'),
    "refused_after_the_sentence_as_tree": lambda: undrawn(
        ["T = S", 'S = "a" S', 'S = "b"'], [*FEW * "a", "b", "c"], f'token {FEW + 2}, "c", is wrong; expected: Eof'),
    "endless_reductions_as_tree": lambda: undrawn(["S = S", 'S = "a"'], ["a"], "no tree within 1000000 steps"),
}
DEEP = {
    # There is no memory to list the conflicts.
    "shown_equal_lines": lambda: little(10_000 * ['S = "x"'], "S json", NO_MEMORY, 256),
    "shown_marked_doubling": lambda: little(DOUBLED, "S html", NO_MEMORY, 512),
    "shown_marked_ring": lambda: marked("a0", CYCLE, "S html"),
    **{f"shown_{name}_as_{form.replace(' --', '_')}": functools.partial(
        shown_trial if form in FORMS else checked, lines, form, count)
       for name, lines, count, forms in SHAPES for form in forms},
    "shown_long_right_side_around_a_state": functools.partial(shown_trial, [LONG], "dot", 0, 2_500),
    **{f"shown_{name}_as_check": it for name, it in SLOW_CHECKS.items()},
    **{f"shown_{name}_as_conflicts": it for name, it in CAUSES.items()},
    **{f"shown_{name}": it for name, it in TREES.items()},
    "shown_empty_lines_of_standard_input": lambda: trial(
        empty_lines(), "S conflicts", shows("0 conflicts of 0 causes\n"), memory=64 * MEGABYTE, file="-"),
    "shown_long_name_of_standard_input": lambda: trial(
        LONG_NAME, "S tree", shows(tree.lines_of(nested(["S", NAME], "x"))), ["x"], file="-"),
}
