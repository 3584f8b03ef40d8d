"""The form of a report in docs/FORMATS.md: it is read, checked, and laid out to the same text."""
import itertools
import re

from gate.hostile.forms import LITERAL, NAME, NUMBER, SYMBOL, TOKEN, symbols_of
from gate.hostile.reading import is_literal, is_name
from gate.shown.data import expect
from gate.shown.listings import TABLE, State, reduce_conflict, shift_conflict, state_block, summary

AHEAD, TOKENS = (rf"(?:        lookahead{it}\n)?" for it in (f"(?: {TOKEN})+", f"((?: {TOKEN})+)"))
RULE = rf"{NAME} ->(?: {SYMBOL})*"
SHIFT = rf"        shift     {LITERAL} * shift and goto {NUMBER}\n"
CONFLICT = (
    rf"\n    shift/reduce conflict\n        reduction {RULE}\n{SHIFT}{AHEAD}"
    rf"|\n    reduce/reduce conflict\n        reduction {RULE}\n        reduction {RULE}\n{AHEAD}"
)
STATE = re.compile(
    rf"\nState (?P<number>{NUMBER}) {{\n"
    rf"(?P<items>(?:\n    {NAME} *->(?: {SYMBOL})* \.(?: {SYMBOL})*\n{AHEAD})*)"
    rf"(?:\n(?P<reductions>(?:\n    reduction {RULE}\n{AHEAD})+))?"
    rf"\n(?P<shifts>(?:    {LITERAL} * shift and goto {NUMBER}\n)*)"
    rf"\n(?P<gotos>(?:    {NAME} * goto {NUMBER}\n)*)"
    rf"(?P<conflicts>(?:{CONFLICT})*)}}\n"
)
ITEM = re.compile(rf"\n    ({NAME}) *->((?: {SYMBOL})*) \.((?: {SYMBOL})*)\n{TOKENS}")
REDUCTION = re.compile(rf"\n    reduction ({NAME}) ->((?: {SYMBOL})*)\n{TOKENS}")
EDGE = re.compile(rf"    ({SYMBOL}) * (?:shift and )?goto ({NUMBER})\n")


def read_state(match):
    items = [(it[1], *map(symbols_of, it.groups("")[1:])) for it in ITEM.finditer(match["items"])]
    reductions = REDUCTION.finditer(match["reductions"] or "")
    edges = [[(it[1], int(it[2])) for it in EDGE.finditer(match[part])] for part in ("shifts", "gotos")]
    return State(items, [(it[1], *map(symbols_of, it.groups("")[1:])) for it in reductions], *edges)


def text_of(symbol):
    """The bytes by which symbols are ordered: a literal's are those between its quotes."""
    return symbol.strip('"').encode()


def conflicts_of(state):
    """The blocks of a state's conflicts of each kind, which its shifts and reductions define."""
    shifted, reduced = [], []
    for symbol, target in state.shifts:
        reductions = [it[:2] for it in state.reductions if symbol in it[2]]
        shifted += [shift_conflict(it, symbol, target, [symbol]) for it in reductions]
    for one, other in itertools.combinations(state.reductions, 2):
        both = [it for it in one[2] if it in other[2]]
        reduced += [reduce_conflict(one[:2], other[:2], both)] if both else []
    return shifted, reduced


def check_state(state, rules, states, order):
    """A state agrees with the rules and with itself. Tokens stand in an order."""
    for tokens in [it[-1] for it in state.items + state.reductions]:
        places = [order.get(it, -1) for it in tokens]
        expect(-1 not in places and places == sorted(set(places)), f"lookahead {tokens}")
    unknown = [it for it in state.items if (it[0], it[1] + it[2]) not in rules]
    expect(not unknown, f"no rule has the item {unknown[:1]}")
    finished = [it[:2] for it in state.items if not it[2]]
    are_reduced = sorted(finished) == sorted(it[:2] for it in state.reductions)
    expect(are_reduced, "the reductions are not the finished items")
    nexts = sorted({it[2][0] for it in state.items if it[2]}, key=text_of)
    for edges, symbols in ((state.shifts, filter(is_literal, nexts)), (state.gotos, filter(is_name, nexts))):
        is_right = [it for it, _ in edges] == list(symbols) and all(target < states for _, target in edges)
        expect(is_right, f"edges {edges}")


def check_edges(states):
    """Each edge leads to the state whose items with a dot past the start are those it moves."""
    for number, state in enumerate(states):
        for symbol, target in state.shifts + state.gotos:
            moving = [it for it in state.items if it[2][:1] == (symbol,)]
            moved = sorted((name, (*before, symbol), after[1:]) for name, before, after, _ in moving)
            kernel = sorted(it[:3] for it in states[target].items if it[1])
            expect(kernel == moved, f"the edge by {symbol} from state {number} to {target}")


def check_report(text, rules, literals):
    """Checks a report, and returns how many conflicts it has. The literals may be in any order."""
    place, rules, matches, sums, failed = text.find(TABLE) + len(TABLE), set(rules), [], [0, 0], []
    expect(TABLE in text, "no state table")
    while place < len(text):
        matches.append(STATE.match(text, place))
        is_next = matches[-1] and int(matches[-1]["number"]) == len(matches) - 1
        expect(is_next, f"state {len(matches) - 1} is not as it should be")
        place = matches[-1].end()
    states = [read_state(it) for it in matches]
    order = {it: place for place, it in enumerate([*sorted(literals, key=text_of), "Eof"])}
    for number, (state, match) in enumerate(zip(states, matches)):
        check_state(state, rules, len(states), order)
        blocks, given = conflicts_of(state), re.findall(CONFLICT, match["conflicts"])
        is_same = sorted(given) == sorted(blocks[0] + blocks[1]) and state_block(number, state, given) == match[0]
        expect(is_same, f"state {number} is not laid out as it should be, or has other conflicts")
        sums = [count + len(it) for count, it in zip(sums, blocks)]
        failed += [number] if given else []
    head = summary(len(states), *sums, failed)
    expect(text.startswith(head), f"the summary is not {head!r}")
    check_edges(states)
    return sum(sums)
