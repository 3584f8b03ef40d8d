"""Packs tables into arrays, and looks them up. docs/GENERATED.md has the rules."""


class Rows:
    """Rows that share one list of cells. A row is a dictionary from columns to numbers. Equal rows are
    one. `start[row]` is where each begins. The cell of a column is that many places after it. It is of
    the row if `column` there says so, and then `cell` has the number."""

    def __init__(self, rows, columns):
        numbers = {}
        places = [numbers.setdefault(tuple(sorted(it.items())), len(numbers)) for it in rows]
        starts = starts_of(list(numbers))
        length = max(starts) + columns
        self.start = [starts[it] for it in places]
        self.column, self.cell = [columns] * length, [0] * length
        for row, start in zip(numbers, starts):
            for column, number in row:
                self.column[start + column], self.cell[start + column] = column, number


def starts_of(rows):
    """Where rows begin. Those with more cells come first. Each begins at the first place at which no
    other row begins, and from which on its cells are free. Sets of places are numbers, by their bits."""
    starts, begun = [0] * len(rows), 0
    full, rest = 0, 0  # the first so many cells are used, and `rest` has the cells after them
    for number in sorted(range(len(rows)), key=lambda it: -len(rows[it])):
        columns = [column for column, _ in rows[number]]
        low = max(0, full - max(columns, default=full))
        taken = begun >> low
        for it in columns:
            taken |= shifted(rest, full - low - it)
        start = low + first_free(taken)
        starts[number], begun = start, begun | 1 << start
        for it in columns:
            rest |= 1 << (start + it - full)
        full, rest = full + first_free(rest), rest >> first_free(rest)
    return starts


def first_free(places):
    """The first place that is none of a set."""
    return (~places & (places + 1)).bit_length() - 1


def shifted(places, up):
    """The places of a set that is shifted up, with all places before, or down."""
    return places << up | (1 << up) - 1 if up > 0 else places >> -up


class Packed:
    """The arrays of tables. Actions are numbers: 0 refuses the token, one up to the number of
    productions reduces by the production before it, and one above it shifts to a state. That would be
    state 0 if the token is the end and the input is accepted."""

    def __init__(self, tables, is_small):
        self.tables, self.is_small, self.production_count = tables, is_small, len(tables.productions)
        self.length = [len(it.symbols) for it in tables.productions]
        numbers = {it: number for number, it in enumerate(tables.nonterminals)}
        self.left = [numbers[it.nonterminal] for it in tables.productions]
        usual = [usual_of(it.reductions, is_small, tables) for it in tables.states]
        self.reduction = [0 if it is None else it + 1 for it in usual]
        self.pack_sets([frozenset(state.reductions.get(it, ())) for state, it in zip(tables.states, usual)])
        rows = [self.action_row(state, it) for state, it in zip(tables.states, usual)]
        self.actions = Rows(rows, tables.end + 1)
        self.pack_gotos()

    def action_row(self, state, usual):
        """The actions of a state without its usual reduction."""
        row = {token: self.production_count + 1 + target for token, target in state.shifts.items()}
        for production, tokens in state.reductions.items():
            if production != usual:
                row.update(dict.fromkeys(tokens, production + 1))
        return row

    def pack_sets(self, sets):
        """The sets of tokens, each once, by their bits. A state without a usual reduction has set 0."""
        numbers = {}
        for it in sets:
            if it:
                numbers.setdefault(it, len(numbers))
        self.set = [numbers.get(it, 0) for it in sets]
        self.set_bytes = self.tables.end // 8 + 1
        self.sets = [sum(1 << bit for bit in range(8) if 8 * byte + bit in it) for it in numbers or [()] for byte in range(self.set_bytes)]

    def pack_gotos(self):
        """The gotos. That of most states is the usual one of a nonterminal."""
        rows = [it.gotos for it in self.tables.states]
        targets = [[row[it] for row in rows if it in row] for it in range(len(self.tables.nonterminals))]
        self.goto = [max(sorted(set(it)), key=it.count) if it else 0 for it in targets]
        other = [{name: to for name, to in row.items() if to != self.goto[name]} for row in rows]
        self.gotos = Rows(other, len(self.tables.nonterminals))

    def action_of(self, state, token):
        """The action of a state on a token, as a generated file looks it up."""
        place = self.actions.start[state] + token
        if self.actions.column[place] == token:
            return self.actions.cell[place]
        if self.is_small or self.sets[self.set[state] * self.set_bytes + token // 8] >> token % 8 & 1:
            return self.reduction[state]
        return 0

    def goto_of(self, state, nonterminal):
        """The goto of a state on a nonterminal, as a generated file looks it up."""
        place = self.gotos.start[state] + nonterminal
        return self.gotos.cell[place] if self.gotos.column[place] == nonterminal else self.goto[nonterminal]


def usual_of(reductions, is_small, tables):
    """The usual reduction of a state: the one with most tokens, and with the least number of these. If
    tables are small, it is the only reduction, and none of the start symbol."""
    others = {it: tokens for it, tokens in reductions.items() if it != tables.accepting}
    if is_small:
        is_only = len(reductions) == 1 and others and all(tables.productions[it].nonterminal != tables.start for it in others)
        return next(iter(others)) if is_only else None
    return max(others, key=lambda it: (len(others[it]), -it), default=None)


def check(packed):
    """Whether each action and each goto is looked up right. If the tables are small, a usual reduction
    may be made on other tokens."""
    tables = packed.tables
    for number, state in enumerate(tables.states):
        row = {token: production + 1 for production, tokens in state.reductions.items() for token in tokens}
        row.update({token: packed.production_count + 1 + target for token, target in state.shifts.items()})
        rest = packed.reduction[number] if packed.is_small else 0
        assert all(packed.action_of(number, it) == row.get(it, rest) for it in range(tables.end + 1)), number
        assert all(packed.goto_of(number, name) == to != 0 for name, to in state.gotos.items()), number
