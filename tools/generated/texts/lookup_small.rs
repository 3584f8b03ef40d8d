/// The action of a state on a terminal.
#[inline(always)]
fn action_of(state: usize, terminal: usize) -> Action {
    let place = TABLES.row[state] as usize + terminal;
    if TABLES.column[place] as usize == terminal {
        return Action::of(TABLES.cell[place] as usize);
    }
    Action::of_reduction(TABLES.reduction[state] as usize)
}

/// Where the gotos of a state begin.
fn gotos_of(state: usize) -> usize {
    TABLES.goto_row[state] as usize
}

/// The state to which one of these gotos leads, or nothing if there is none.
#[inline(always)]
fn goto_of(gotos: usize, nonterminal: usize) -> Option<usize> {
    let place = gotos + nonterminal;
    if TABLES.goto_column[place] as usize == nonterminal {
        return Some(TABLES.goto_cell[place] as usize);
    }
    match TABLES.goto_usual[nonterminal] {
        0 => None,
        state => Some(state as usize),
    }
}
