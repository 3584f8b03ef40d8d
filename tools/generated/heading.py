"""The comment at the top of a generated file, line by line."""
EXACT = [
    "The tables are exact: a state has an action on a terminal only if the LR(1) tables have one.",
]
SMALL = [
    "The tables are small: a state with one reduction makes it on each terminal that it does not shift.",
    "So more reductions may be made before a wrong terminal is refused. It is never shifted.",
]


def heading(packed, method, usage):
    """The lines, without the signs of a comment."""
    tables = packed.tables
    return [
        "A parser by the LR(1) tables of lrshow 0.23.1. Do not edit it.",
        "",
        f"Start symbol: {tables.start}. Method: {method}. Conflicts: none. States: {len(tables.states)}.",
        *(SMALL if packed.is_small else EXACT),
        usage,
    ]


def commented(lines, sign):
    return [f"{sign} {it}".rstrip() for it in lines]
