// The action of a state on a terminal: 0 refuses it, a number up to LR_PRODUCTIONS reduces by the
// production before it, and a larger one shifts. A shift to state 0 accepts the input.
static inline uint32_t lr_action_of(uint32_t state, uint32_t terminal)
{
    uint32_t place = lr_tables.row[state] + terminal;
    if (lr_tables.column[place] == terminal)
        return lr_tables.cell[place];
    if (lr_tables.sets[(uint32_t)lr_tables.set[state] * LR_SET_BYTES + terminal / 8] >> terminal % 8 & 1)
        return lr_tables.reduction[state];
    return 0;
}

// The state to which the goto of a state leads, or 0 if there is none.
static inline uint32_t lr_goto_of(uint32_t state, uint32_t nonterminal)
{
    uint32_t place = lr_tables.goto_row[state] + nonterminal;
    return lr_tables.goto_column[place] == nonterminal ? lr_tables.goto_cell[place] : lr_tables.goto_usual[nonterminal];
}
