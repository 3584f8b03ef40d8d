"""The causes of conflicts in the data of `lrshow`: which conflicts have one, and its witness."""
import collections
import importlib.util
import itertools

from gate.files import ROOT
from gate.shown.visible import VISIBLE


def loaded(path):
    """The module of a program that lies outside this package."""
    spec = importlib.util.spec_from_file_location("witnesses", path)
    module = importlib.util.module_from_spec(spec)
    spec.loader.exec_module(module)
    return module


# How a search of the text may end. The searches of the data end after fewer steps.
CUT = "cut at 10000 steps or its memory limit"
WITNESSES = loaded(f"{ROOT}/crates/lalrpop_ambiguity_tests/check_witnesses.py")


def actions_of(conflict):
    """What conflicts of one cause share: the production that is reduced, the kind of the other action,
    and the items of that action."""
    reduced, other = conflict["actions"]
    return reduced["reduce"], "shift" in other, frozenset((it["production"], it["dot"]) for it in other["items"])


def symbol_text(symbol):
    return f'"{symbol["terminal"]}"' if "terminal" in symbol else symbol["nonterminal"]


def text_of(tree):
    return tree if isinstance(tree, str) else f"[{tree[0]}: {' '.join(map(text_of, tree[1]))}]"


def tree_of(text):
    """The tree of a text with a mark, and how many moves of a parser are before the mark."""
    words = WITNESSES.WORD.findall(text)
    # (the mark is read as a leaf, or is after the tree)
    tree, end = WITNESSES.read(words, 0)
    assert " ".join([text_of(tree), *words[end:]]) == text, text
    return WITNESSES.marked(words)


def rules_of(data):
    """How often the data have each production: a name and a tuple of symbols."""
    return collections.Counter((it["nonterminal"], tuple(map(symbol_text, it["symbols"]))) for it in data["productions"])


# A place in a production: its name and symbols, and how many of them are before the place.
Item = collections.namedtuple("Item", "name symbols dot")


def items_of(action, productions):
    """The items of an action, with the symbols of their productions, which are by number."""
    rules = [(productions[it["production"]], it["dot"]) for it in action["items"]]
    return {Item(rule["nonterminal"], tuple(map(symbol_text, rule["symbols"])), dot) for rule, dot in rules}


def places_of(tree, items):
    """How many leaves are before the dot of one of the items, at each node that is by its production."""
    found, leaves, waiting = set(), 0, [tree]
    while waiting:
        it = waiting.pop()
        if isinstance(it, str):
            leaves += 1
        elif isinstance(it, Item):
            found |= {leaves} if it in items else set()
        else:
            name, children = it
            roots = tuple(map(WITNESSES.root, children))
            first, *dots = [Item(name, roots, dot) for dot in range(len(roots) + 1)]
            waiting += [first, *itertools.chain(*zip(children, dots))][::-1]
    return found


def fault_of(derivations, rules, actions):
    """Why two texts are no witness of ambiguity for actions, which are sets of items, or None. At the
    marks the first derivation takes the first action, and the second one takes the other."""
    try:
        trees, before = zip(*map(tree_of, derivations))
        WITNESSES.check(*trees, rules)
        WITNESSES.check_marks(*trees, before, rules)
    except (AssertionError, IndexError, TypeError, RecursionError) as why:
        return repr(why)
    leaves = sum(isinstance(it, str) for it in WITNESSES.moves(trees[0])[: before[0]])
    is_taken = all(leaves in it for it in map(places_of, trees, actions))
    return None if is_taken else "it does not take the actions of the conflict"


def witnessed(data):
    """Each cause with the actions of its first conflict, which are sets of items: first the reduction."""
    productions = {it["number"]: it for it in data["productions"]}
    firsts = [data["conflicts"][it["conflicts"][0]]["actions"] for it in data["causes"]]
    return [(cause, [items_of(it, productions) for it in actions]) for cause, actions in zip(data["causes"], firsts)]


def check(data, expect):
    """Each conflict has one cause, with all others of the same actions, in the order of the first ones.
    A witness is right."""
    expected = collections.defaultdict(list)
    for place, it in enumerate(data["conflicts"]):
        expected[actions_of(it)].append(place)
    got = [it["conflicts"] for it in data["causes"]]
    expect(got == [*expected.values()], f"causes of the conflicts {got}")
    check_witnesses(data, expect)


def check_witnesses(data, expect):
    """Each search has ended in one of three ways. What it found is a witness for the first conflict."""
    rules = rules_of(data)
    for it, actions in witnessed(data):
        expect(sorted(it) == ["conflicts", "derivations", "search"], "a cause has other members")
        expect(it["search"] in ("found", "exhausted", "cut"), f"a search ended as {it['search']!r}")
        count = 2 if it["search"] == "found" else 0
        expect(len(it["derivations"]) == count, f"{len(it['derivations'])} derivations of a search {it['search']}")
        why = fault_of(it["derivations"], rules, actions) if count else None
        expect(why is None, f"no witness: {it['derivations']}: {why}")


def plural(count):
    return "" if count == 1 else "s"


def rule_text(rules, number, dot=None):
    rule = rules[number]
    symbols = [*map(symbol_text, rule["symbols"])]
    symbols = symbols if dot is None else [*symbols[:dot], "(*)", *symbols[dot:]]
    return " ".join([rule["nonterminal"], "=", *symbols])


def extent_of(data, place, between):
    """The kind of a cause, its tokens and its states, with a text after the kind."""
    conflicts = [data["conflicts"][it] for it in data["causes"][place]["conflicts"]]
    tokens = {it for conflict in conflicts for it in conflict["tokens"]}
    tokens = [symbol_text({"terminal": it}) if it is not None else "Eof" for it in [*data["terminals"], None] if it in tokens]
    states = sorted({it["state"] for it in conflicts})
    kind = "shift/reduce" if "shift" in conflicts[0]["actions"][1] else "reduce/reduce"
    return f"{kind}{between} on {' '.join(tokens)} in state{plural(len(states))} {' '.join(map(str, states))}"


def line_of(data, place):
    """A cause in one line, as a check has it."""
    reduced, other = data["conflicts"][data["causes"][place]["conflicts"][0]]["actions"]
    rules = {it["number"]: it for it in data["productions"]}
    if "shift" in other:
        others = [f"shift by {rule_text(rules, it['production'], it['dot'])}" for it in other["items"]]
    else:
        others = [f"reduce {rule_text(rules, other['reduce'])}"]
    choices = ", or ".join([f"reduce {rule_text(rules, reduced['reduce'])}", *others])
    return f"{extent_of(data, place, ' conflict')}: {choices}"


def lines_of(data, place):
    """The lines of the text about a cause, but for those of its search: a list of those that may be in
    any order, for each part of the text."""
    reduced, other = data["conflicts"][data["causes"][place]["conflicts"][0]]["actions"]
    yield [f"cause {place + 1}: {extent_of(data, place, '')}"]
    rules = {it["number"]: it for it in data["productions"]}
    if "shift" in other:
        yield [f"  shift by   {rule_text(rules, it['production'], it['dot'])}" for it in other["items"]]
    else:
        yield [f"  reduce     {rule_text(rules, other['reduce'])}"]
    yield [f"  reduce     {rule_text(rules, reduced['reduce'])}"]


def example_text(example):
    """An example of input, with a mark after the symbols that were read. An empty right side is not shown."""
    shown = ["" if it is None else symbol_text(it) for it in example["symbols"]]
    before, after = shown[: example["place"]], shown[example["place"] :]
    return "".join(f"{it} " for it in before if it) + "(*)" + "".join(f" {it}" for it in after if it)


def example_lines(conflict):
    """The lines of the first example of each item of a conflict."""
    reduced, other = conflict["actions"]
    name = "shift " if "shift" in other else "reduce"
    named = [(name, it) for it in other["items"]] + [("reduce", it) for it in reduced["items"]]
    return ["  an input for each action:"] + [
        f"    {name}  {example_text(it['examples'][0])}" for name, it in named if it["examples"]
    ]


def expect_search(lines, cause, conflict, actions, rules, expect):
    """The lines from a search on agree with the data, whose search has fewer steps. Returns how many of
    them are about it."""
    without = {it: f"  no input with two derivations was found: the search was {it}" for it in ("exhausted", CUT)}
    if lines[:1] in [[it] for it in without.values()]:
        ended = "exhausted" if lines[0] == without["exhausted"] else "cut"
        expect(cause["search"] in (ended, "cut"), f"a search that ended as {ended}, and as {cause['search']} in the data")
        expected = example_lines(conflict)
        got = lines[1 : 1 + len(expected)]
        expect(got == expected, f"expected the examples {expected}, got {got}")
        return 1 + len(expected)
    lines = lines[:3]
    is_found = len(lines) == 3 and all(it.startswith("    ") for it in lines[1:])
    expect(is_found, f"no search and no derivations: {lines}")
    # (the text has the derivation of the reduction last, and the data have it first)
    derivations = [it.removeprefix("    ") for it in (lines[2], lines[1])]
    why = fault_of(derivations, rules, actions)
    expect(why is None, f"no witness: {derivations}: {why}")
    root = WITNESSES.root(tree_of(derivations[0])[0])
    expect(lines[0] == f"  two derivations of {root}:", f"another root: {lines[0]}")
    is_same = cause["search"] == "cut" or cause["derivations"] == derivations
    expect(is_same, f"derivations {derivations} and {cause['derivations']} in the data")
    return 3


def expect_parts(lines, parts, expect):
    """The lines begin with those of some parts, each in any order. Returns how many they are."""
    at = 0
    for expected in parts:
        got = lines[at : at + len(expected)]
        expect(sorted(got) == sorted(expected), f"expected {expected}, got {got}")
        at += len(expected)
    return at


def visible(data):
    """The data with control characters as a text shows them."""
    if isinstance(data, dict):
        return {visible(key): visible(it) for key, it in data.items()}
    if isinstance(data, list):
        return [*map(visible, data)]
    return data.translate(VISIBLE) if isinstance(data, str) else data


def check_text(text, data, expect):
    """The text of causes is that of the data, which are as a text shows them."""
    lines, count = text.split("\n"), len(data["causes"])
    expect(lines.pop() == "", "no line end after the last line")
    conflicts = len(data["conflicts"])
    first = f"{conflicts} conflict{plural(conflicts)} of {count} cause{plural(count)}"
    expect(lines[:1] == [first], f"expected {first}, got {lines[:1]}")
    rules, at = rules_of(data), 1
    for place, (cause, actions) in enumerate(witnessed(data)):
        parts = [*lines_of(data, place)]
        at += expect_parts(lines[at : at + sum(map(len, parts))], parts, expect)
        first = data["conflicts"][cause["conflicts"][0]]
        at += expect_search(lines[at:], cause, first, actions, rules, expect)
    expect(at == len(lines), f"more lines: {lines[at:at + 1]}")
