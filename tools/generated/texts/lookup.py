def _action_of(state: int, terminal: int) -> int:
    """The action of a state on a terminal.

    0 refuses it, a number up to that of productions reduces by the production before it, and
    a larger one shifts. A shift to state 0 accepts the input.
    """
    place = _ROW[state] + terminal
    if _COLUMN[place] == terminal:
        return _CELL[place]
    if _SETS[_SET[state] * _SET_BYTES + terminal // 8] >> terminal % 8 & 1:
        return _REDUCTION[state]
    return 0


def _goto_of(state: int, nonterminal: int) -> int:
    """The state to which the goto of a state leads, or 0 if there is none."""
    place = _GOTO_ROW[state] + nonterminal
    if _GOTO_COLUMN[place] == nonterminal:
        return _GOTO_CELL[place]
    return _GOTO_USUAL[nonterminal]
