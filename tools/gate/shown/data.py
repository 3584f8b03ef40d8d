"""The data that `lrshow` writes, read as docs/FORMATS.md has them.

Each member must be there, and each number and each name must refer to something. In what is read,
items, reductions and conflicts have one member more: `tokens`, the list of their tokens.
"""
import json

from gate.shown import causes

# The version of their form, and how many examples of an item are shown at most.
VERSION, EXAMPLES = 3, 3


class WrongData(Exception):
    """The reason why an answer is not as it should be."""


def expect(is_so, what):
    if not is_so:
        raise WrongData(what)


def once(pairs):
    names = [name for name, _ in pairs]
    expect(len(set(names)) == len(names), f"a member stands twice among {names}")
    return dict(pairs)


def no_number(word):
    raise WrongData(f"{word} is no JSON")


def read(text):
    """The data of a text, which is bytes, after their check."""
    try:
        data = json.loads(text.decode(), object_pairs_hook=once, parse_constant=no_number)
        Check(data)
        causes.check(data, expect)
    except ValueError as why:
        raise WrongData(f"no JSON: {why}") from why
    except (AttributeError, KeyError, TypeError) as why:
        raise WrongData(f"data of another form: {why!r}") from why
    whole = [*data["terminals"], None]
    for it in naming(data):
        it["tokens"] = whole if it["lookahead"] is None else data["sets"][it["lookahead"]]
    return data


def naming(data):
    """The parts of data that name a set: items, reductions and conflicts."""
    for state in data["states"]:
        yield from state["items"]
        yield from state["reductions"]
    yield from data["conflicts"]


def members(it, names, what):
    expect(isinstance(it, dict) and sorted(it) == sorted(names.split()), f"{what} has other members than {names}")
    return [it[name] for name in names.split()]


def is_below(number, count):
    return type(number) is int and 0 <= number < count


class Check:
    """The check of data. It keeps the places of tokens, productions by numbers, sets, and states."""

    def __init__(self, data):
        names = "format version start terminals productions sets states conflicts causes"
        form, version, start, terminals, productions, self.sets, self.states, conflicts, _ = members(data, names, "the whole")
        expect((form, version) == ("lrshow", VERSION) and isinstance(start, str), "another format, version or start")
        expect(terminals == sorted(set(terminals), key=str.encode), "terminals twice, or in another order")
        self.tokens = {it: place for place, it in enumerate([*terminals, None])}
        names = [it["nonterminal"] for it in productions]
        expect(names == sorted(names, key=str.encode), "productions in another order than their names")
        for it in productions:
            number, name, symbols = members(it, "number nonterminal symbols", "a production")
            is_known = type(number) is int and number >= 0 and isinstance(name, str)
            expect(is_known, f"production {number!r} of {name!r}")
            self.symbols(symbols, f"production {number}")
        self.rules = {it["number"]: it for it in productions}
        expect(len(self.rules) == len(productions), "a production's number twice")
        for place, it in enumerate(self.sets):
            self.tokens_of_set(it, f"set {place}")
        expect(len({*map(tuple, self.sets)}) == len(self.sets), "a set twice")
        for number, state in enumerate(self.states):
            self.state(state, number, f"state {number}")
        for place, it in enumerate(conflicts):
            self.conflict(it, f"conflict {place}")
        order = [it["state"] for it in conflicts]
        expect(order == sorted(order), "conflicts in another order than their states")
        unnamed = {*range(len(self.sets))} - {it["lookahead"] for it in naming(data)}
        expect(not unnamed, f"sets {sorted(unnamed)} of nothing")

    def symbols(self, symbols, what):
        for it in symbols:
            kind = "terminal" if "terminal" in it else "nonterminal"
            name, = members(it, kind, f"{what}: a symbol")
            is_known = isinstance(name, str) and (kind == "nonterminal" or name in self.tokens)
            expect(is_known, f"{what}: unknown symbol {name!r}")

    def tokens_of_set(self, tokens, what):
        places = [self.tokens.get(it, -1) for it in tokens]
        expect(-1 not in places and places == sorted(set(places)), f"{what}: tokens {tokens}")

    def lookahead(self, number, what):
        expect(is_below(number, len(self.sets)), f"{what}: no set {number!r}")
        return self.sets[number]

    def state(self, state, number, what):
        given, items, shifts, gotos, reductions = members(state, "number items shifts gotos reductions", what)
        expect(given == number, f"{what} has number {given!r}")
        kinds = ((items, "production dot lookahead"), (reductions, "production lookahead"))
        for it, names in ((it, names) for those, names in kinds for it in those):
            members(it, names, f"{what}: an item or a reduction")
            expect(it["production"] in self.rules, f"{what}: no production {it['production']!r}")
            length = len(self.rules[it["production"]]["symbols"])
            expect(is_below(it.get("dot", length), length + 1), f"{what}: dot {it.get('dot')!r} of {length}")
            if "dot" not in it or it["lookahead"] is not None:
                tokens = self.lookahead(it["lookahead"], what)
                expect("dot" not in it or len(tokens) < len(self.tokens), f"{what}: an item names the set of all tokens")
        expect(all(it in self.tokens for it in shifts), f"{what}: shifts {list(shifts)}")
        targets = [*shifts.values(), *gotos.values()]
        expect(all(is_below(it, len(self.states)) for it in targets), f"{what}: an edge to no state")

    def conflict(self, conflict, what):
        number, lookahead, actions = members(conflict, "state lookahead actions", what)
        expect(is_below(number, len(self.states)), f"{what}: no state {number!r}")
        tokens = self.lookahead(lookahead, what)
        has_actions = tokens and len(actions) == 2 and "reduce" in actions[0]
        expect(has_actions, f"{what}: tokens {tokens}, {len(actions)} actions")
        known = {(it["production"], it["dot"]) for it in self.states[number]["items"]}
        for action in actions:
            self.action(action, what, self.states[number])
            for it in action["items"]:
                members(it, "production dot examples", f"{what}: an item")
                expect((it["production"], it["dot"]) in known, f"{what}: no such item in state {number}")
                expect(len(it["examples"]) <= EXAMPLES, f"{what}: {len(it['examples'])} examples")
                for example in it["examples"]:
                    self.example(example, f"{what}: an example")

    def action(self, action, what, state):
        if "reduce" in action:
            number, items = members(action, "reduce items", what)
            expect(number in [it["production"] for it in state["reductions"]], f"{what}: no reduction by {number!r}")
            finished = [(number, len(self.rules[number]["symbols"]))]
            is_finished = [(it["production"], it["dot"]) for it in items] == finished
            expect(is_finished, f"{what}: other items than the finished one")
        else:
            terminal, target, items = members(action, "shift state items", what)
            expect(state["shifts"].get(terminal) == target, f"{what}: no shift of {terminal!r} to {target!r}")
            nexts = {json.dumps(self.rules[it["production"]]["symbols"][it["dot"]:][:1]) for it in items}
            expect(nexts == {json.dumps([{"terminal": terminal}])}, f"{what}: items that don't shift {terminal!r}")

    def example(self, example, what):
        symbols, place, reductions = members(example, "symbols place reductions", what)
        self.symbols([it for it in symbols if it is not None], what)
        expect(is_below(place, len(symbols) + 1) and reductions, f"{what} with place {place!r} of {len(symbols)}")
        within = (len(symbols), 0)
        for it in reductions:
            start, end, name = members(it, "start end nonterminal", f"{what}: a reduction")
            is_known = is_below(start, end) and end <= len(symbols) and isinstance(name, str)
            expect(is_known, f"{what}: symbols {start!r} to {end!r}")
            expect(start <= within[0] and end >= within[1], f"{what}: a reduction within the one before it")
            within = (start, end)
