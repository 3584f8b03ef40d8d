"""Reports and explanations in the form of docs/FORMATS.md, and those of the data of `lrshow`."""
import collections

LINE = "-" * 40
TABLE = f"\nState Table\n{LINE}\n"
# An item is a name, the symbols before and after its dot, and its tokens. A reduction is a name,
# symbols and tokens. Shifts and gotos are symbols with the number of a state.
State = collections.namedtuple("State", "items reductions shifts gotos")


def symbol_of(symbol):
    return token_of(symbol["terminal"]) if "terminal" in symbol else symbol["nonterminal"]


def token_of(token):
    return "Eof" if token is None else f'"{token}"'


def tokens_of(it):
    """The tokens of an item, a reduction or a conflict."""
    return [token_of(token) for token in it["tokens"]]


def widest(texts):
    """The greatest length in bytes. (A text is padded to so many characters, though.)"""
    return max((len(it.encode()) for it in texts), default=0)


def rule_of(name, symbols):
    return " ".join([name, "->", *symbols])


def ahead_of(tokens):
    return " ".join(["        lookahead", *tokens]) + "\n" if tokens else ""


def summary(states, shifts, reductions, failed):
    """A report before its first state. The states that failed have conflicts."""
    lines = ["Lalrpop Report File", "=" * 40, "", "Summary", LINE, ""]
    if not failed:
        return "\n".join([*lines, f"Constructed {states} states", TABLE])
    lines += ["Failure", f"Constructed {states} states", f"Has {shifts + reductions} conflicts"]
    lines += [f"    shift/reduce:  {shifts}"] if shifts else []
    lines += [f"    reduce/reduce: {reductions}"] if reductions else []
    return "\n".join([*lines, f"States with conflicts: {''.join(f' {it}' for it in failed)}", TABLE])


def state_block(number, state, conflicts):
    """A state's part of a report, with the empty line before it."""
    text = [f"\nState {number} {{\n"]
    width = widest(it[0] for it in state.items)
    for name, before, after, tokens in state.items:
        text.append(f"\n    {rule_of(name.ljust(width), [*before, '.', *after])}\n{ahead_of(tokens)}")
    text += ["\n"] if state.reductions else []
    text += [f"\n    reduction {rule_of(name, right)}\n{ahead_of(tokens)}" for name, right, tokens in state.reductions]
    width = widest(it[0] for it in state.shifts + state.gotos)
    text += ["\n"] + [f"    {symbol.ljust(width)} shift and goto {target}\n" for symbol, target in state.shifts]
    text += ["\n"] + [f"    {symbol.ljust(width)} goto {target}\n" for symbol, target in state.gotos]
    return "".join([*text, *conflicts, "}\n"])


def shift_conflict(rule, symbol, target, tokens):
    shift = f"        shift     {symbol.ljust(widest([symbol, rule[0]]))}    shift and goto {target}\n"
    return f"\n    shift/reduce conflict\n        reduction {rule_of(*rule)}\n{shift}{ahead_of(tokens)}"


def reduce_conflict(one, other, tokens):
    lines = "".join(f"        reduction {rule_of(*it)}\n" for it in (one, other))
    return f"\n    reduce/reduce conflict\n{lines}{ahead_of(tokens)}"


class Listings:
    """The listings of data. `rules` has names and symbols of productions, `texts` their texts."""

    def __init__(self, data):
        self.data = data
        rules = [(it["number"], it["nonterminal"], it["symbols"]) for it in data["productions"]]
        self.rules = {number: (name, tuple(map(symbol_of, symbols))) for number, name, symbols in rules}
        self.texts = {number: rule_of(*rule) for number, rule in self.rules.items()}

    def report(self):
        conflicts, blocks = self.data["conflicts"], collections.defaultdict(list)
        for it in conflicts:
            blocks[it["state"]].append(self.conflict_block(it))
        shifts = sum("shift" in it["actions"][1] for it in conflicts)
        head = summary(len(self.data["states"]), shifts, len(conflicts) - shifts, sorted(blocks))
        states = [(it["number"], self.state_of(it)) for it in self.data["states"]]
        return "".join([head, *(state_block(number, it, blocks[number]) for number, it in states)])

    def state_of(self, state):
        items = [(*self.rules[it["production"]], it["dot"], tokens_of(it)) for it in state["items"]]
        return State(
            [(name, symbols[:dot], symbols[dot:], tokens) for name, symbols, dot, tokens in items],
            [(*self.rules[it["production"]], tokens_of(it)) for it in state["reductions"]],
            [(token_of(it), target) for it, target in state["shifts"].items()], list(state["gotos"].items()),
        )

    def conflict_block(self, conflict):
        one, other = conflict["actions"]
        rule, tokens = self.rules[one["reduce"]], tokens_of(conflict)
        if "reduce" in other:
            return reduce_conflict(rule, self.rules[other["reduce"]], tokens)
        return shift_conflict(rule, token_of(other["shift"]), other["state"], tokens)

    def explanation(self):
        return "".join(self.explained(*it) for it in enumerate(self.data["conflicts"], 1)) or "no conflicts\n"

    def explained(self, number, conflict):
        text = [f"conflict {number} in state {conflict['state']} on {' '.join(tokens_of(conflict))}\n"]
        for action in conflict["actions"]:
            is_shift = "shift" in action
            what = f"shift {token_of(action['shift'])}" if is_shift else f"reduce {self.texts[action['reduce']]}"
            text += [f"  {what}\n", *(example_of(it) for item in action["items"] for it in item["examples"])]
        return "".join(text)


def example_of(example):
    symbols, place = ["" if it is None else f" {symbol_of(it)}" for it in example["symbols"]], example["place"]
    return "".join(["   ", *symbols[:place], " (*)", *symbols[place:], "\n"])
