"""The tables of a grammar, from the data of `lrshow FILE START json`."""
import collections

# The symbols are pairs: whether one is a terminal, and its text.
Production = collections.namedtuple("Production", "nonterminal symbols")
# By number: the target of each shift and of each goto, and the tokens of each reduction.
State = collections.namedtuple("State", "shifts gotos reductions")


class NoTables(Exception):
    """Why there is no file, with the status of the program."""

    def __init__(self, message, status):
        super().__init__(message)
        self.status = status


class Tables:
    """Terminals, nonterminals, productions and states by number. The end has the number of terminals.
    The production of the nonterminal `hidden`, a new start symbol, is none of them: the input is
    accepted if it is reduced. It has the number after the others, `accepting`, which else is None."""

    def __init__(self, data, hidden=None):
        check_conflicts(data)
        rows = [(it["number"], production_of(it)) for it in data["productions"]]
        check_start(data["start"], [it for _, it in rows])
        shown = [(number, it) for number, it in rows if it.nonterminal != hidden]
        self.terminals, self.end = data["terminals"], len(data["terminals"])
        self.productions = [it for _, it in shown]
        self.nonterminals = nonterminals_of(self.productions)
        self.accepting = None if hidden is None else len(shown)
        self.start = next((it.symbols[0][1] for _, it in rows if it.nonterminal == hidden), data["start"])
        numbers = {number: place for place, (number, _) in enumerate(shown)}
        self.states = [self.state_of(it, data["sets"], numbers) for it in data["states"]]

    def state_of(self, state, sets, numbers):
        tokens = {None: self.end, **{it: number for number, it in enumerate(self.terminals)}}
        names = {it: number for number, it in enumerate(self.nonterminals)}
        reductions = {
            numbers.get(it["production"], self.accepting): {tokens[one] for one in sets[it["lookahead"]]}
            for it in state["reductions"]
        }
        return State(
            {tokens[it]: target for it, target in state["shifts"].items()},
            {names[it]: target for it, target in state["gotos"].items() if it in names},
            {production: reductions[production] for production in sorted(reductions) if reductions[production]},
        )


def production_of(it):
    return Production(it["nonterminal"], [("terminal" in one, *one.values()) for one in it["symbols"]])


def check_conflicts(data):
    if data["conflicts"]:
        raise NoTables(f"conflicts: {len(data['conflicts'])}; see `lrshow FILE START conflicts`", 1)


def check_start(start, productions):
    if all(it.nonterminal != start for it in productions):
        raise NoTables(f"`{start}` has no production", 2)
    if any((False, start) in it.symbols for it in productions):
        raise NoTables(f"`{start}` is on a right side; make a new start symbol, and ask for `--augmented`", 2)


def nonterminals_of(productions):
    """The names on left sides, in the order of their bytes. Nothing is reduced to another name."""
    return sorted({it.nonterminal for it in productions})
