"""The arrays of a generated file: for each its name, its comment and its numbers."""
import collections

Array = collections.namedtuple("Array", "name comment numbers")


def arrays_of(packed):
    usual = "the usual reduction of a state, as an action, or 0"
    sets = [
        Array("set", "the set of the terminals on which a state makes its usual reduction", packed.set),
        Array("sets", "the sets, by their bits: the lowest bit of a byte is of the first terminal", packed.sets),
    ]
    return [
        Array("row", "where the row of a state begins in the next two arrays", packed.actions.start),
        Array("column", "the terminal to which a cell belongs", packed.actions.column),
        Array("cell", "the action in a cell", packed.actions.cell),
        Array("reduction", usual, packed.reduction),
        *([] if packed.is_small else sets),
        Array("goto_row", "where the row of a state begins in the next two arrays", packed.gotos.start),
        Array("goto_column", "the nonterminal to which a cell belongs", packed.gotos.column),
        Array("goto_cell", "the state to which a goto leads", packed.gotos.cell),
        Array("goto_usual", "where the gotos on a nonterminal lead in most states", packed.goto),
        Array("left", "the nonterminal of a production", packed.left),
        Array("length", "how many symbols the right side of a production has", packed.length),
    ]
