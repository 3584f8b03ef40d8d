"""How values are shown in case files: symbols, tokens, productions, items, states, conflicts."""


def listed(words):
    """Words, each behind a space; a hyphen where there are none."""
    return "".join(" " + word for word in words) or " -"


def symbols_text(symbols):
    """Symbols, each behind a space."""
    return "".join(" " + symbol for symbol in symbols)


def production_text(production):
    """A production: the number of its action, its name and its symbols."""
    name, symbols, action = production[:3]
    return f"{action}: {name} ->{symbols_text(symbols)}"


def item_text(production, dot):
    """A production with a dot."""
    name, symbols, action = production[:3]
    return f"{action}: {name} ->{symbols_text(symbols[:dot])} .{symbols_text(symbols[dot:])}"


def on_text(tokens):
    """The tokens behind an item, a reduction or a conflict, where there are lookaheads."""
    return "" if tokens is None else " on" + listed(tokens)


def literal_key(literal):
    """What literals are ordered by: the bytes between the quotes."""
    return literal[1:-1].encode()


def is_counted(result):
    """Whether a result is told by its counts alone."""
    return isinstance(result["states"], int)


def count_of(part):
    """How many there are of a part that is a list or a number."""
    return part if isinstance(part, int) else len(part)


def counts_line(result):
    """How many states and conflicts a construction answers."""
    states = count_of(result["states"])
    if result["ok"]:
        return f"tables: {states} states"
    return f"conflicts: {count_of(result['conflicts'])}, {states} states"


def state_lines(number, state, productions):
    """A state: its items, shifts, gotos and reductions."""
    lines = [f"state {number}"]
    for production, dot, *tokens in state["items"]:
        shown = on_text(tokens[0] if tokens else None)
        lines.append("  " + item_text(productions[production], dot) + shown)
    for literal in sorted(state["shifts"], key=literal_key):
        lines.append(f"  shift {literal} to {state['shifts'][literal]}")
    for name in sorted(state["gotos"]):
        lines.append(f"  goto {name} to {state['gotos'][name]}")
    for production, *tokens in state["reductions"]:
        shown = on_text(tokens[0] if tokens else None)
        lines.append("  reduce " + production_text(productions[production]) + shown)
    return lines


def action_text(action, productions):
    """A shift or a reduction."""
    if "shift" in action:
        return f"shift {action['shift']} to {action['to']}"
    return "reduce " + production_text(productions[action["reduce"]])


def conflict_line(conflict, productions):
    """A conflict: its state, tokens and two actions."""
    reduction = production_text(productions[conflict["production"]])
    other = action_text(conflict["action"], productions)
    on = on_text(conflict["on"])
    return f"conflict in state {conflict['state']}{on}, reduce {reduction}, {other}"


def result_lines(result, productions):
    """What a construction answers: the counts, and where they are told the states and conflicts."""
    lines = [counts_line(result)]
    if is_counted(result):
        return lines
    for number, state in enumerate(result["states"]):
        lines += state_lines(number, state, productions)
    for conflict in result.get("conflicts", []):
        lines.append(conflict_line(conflict, productions))
    return lines
