"""The questions of lane tables, traces, runs and new start symbols, with the lines that are expected."""

import re

from questions import Question, without_repeats
from shown import action_text, counts_line, item_text, listed


def columns_text(columns):
    """Lists of tokens, parted by a bar."""
    return " |".join(listed(tokens) for tokens in columns)


def ask_lane_tables_of_states(grammar, value):
    """The table that the lanes of each state leave."""
    questions = []
    for table in value:
        words = ["lane_table", grammar.start, str(table["state"])]
        questions.append(Question(words, lane_table_lines(grammar, table)))
    return questions


def lane_table_lines(grammar, table):
    """A lane table: the actions, the cells with tokens, and what is read from them."""
    lines = []
    for number, action in enumerate(table["actions"]):
        lines.append(f"action {number}: {action_text(action, grammar.productions)}")
    for state, action, tokens in table["cells"]:
        if tokens:
            lines.append(f"cell {state} {action}{listed(tokens)}")
    for state, targets in table["successors"].items():
        if targets:
            lines.append(f"successors {state}:" + listed(map(str, targets)))
    if table["columns"] == "overlapping":
        lines.append("columns overlap")
    else:
        lines.append("columns" + columns_text(table["columns"]))
    lines += rows_lines(table["rows"])
    lines.append("beachheads" + listed(map(str, table["beachheads"])))
    lines.append("is_closed " + str(table["is_closed"]).lower())
    return lines


def rows_lines(rows):
    """The rows of a lane table, or the state whose row overlaps."""
    if "overlapping in state" in rows:
        return [f"rows overlap in state {rows['overlapping in state']}"]
    return [f"row {state}:" + columns_text(columns) for state, columns in rows.items()]


def item_word(grammar, item):
    """An item as a word: the number of its action, and its dot."""
    production, dot = item
    return f"{grammar.productions[production][2]}.{dot}"


def node_text(grammar, node):
    """A node of a trace: a name, or an item."""
    if isinstance(node, str):
        return node
    production, dot = node
    return item_text(grammar.productions[production], dot)


def edge_line(grammar, edge):
    """An edge of a trace: its ends, and the symbol sets of its label."""
    source = node_text(grammar, edge["from"])
    target = node_text(grammar, edge["to"])
    prefix, suffix = listed(edge["prefix"]), listed(edge["suffix"])
    cursor = edge["cursor"] or "-"
    return f"edge {source} to {target} prefix{prefix} cursor {cursor} suffix{suffix}"


def example_line(example):
    """An example: its symbols, its cursor and what is reduced in it."""
    symbols = ["()" if symbol == "Epsilon" else symbol for symbol in example["symbols"]]
    reductions = [f"{start}..{end} {name}" for start, end, name in example["reductions"]]
    return f"example{listed(symbols)} at {example['cursor']} reductions{listed(reductions)}"


def ask_backtrace(grammar, value):
    """The trace of a conflict of canonical states, and the inputs that lead to it."""
    way = "reduce" if "reduce" in value else "shift"
    trace = [grammar.start, "canonical", way, str(value["state"]), item_word(grammar, value[way])]
    edges = [edge_line(grammar, edge) for edge in value["edges"]]
    examples = [example_line(example) for example in value["lr0_examples"]]
    found = f"found_trace {str(bool(examples)).lower()}"
    questions = [Question(["backtrace", *trace], edges)]
    questions.append(Question(["lr0_examples", *trace], [found, *examples]))
    if "on" in value:
        examples = [example_line(example) for example in value["lr1_examples"]]
        questions.append(Question(["lr1_examples", *trace, *value["on"]], examples))
    return questions


def outcome_text(row):
    """How a run ends."""
    if "tree" in row:
        return row["tree"]
    if "stack" in row:
        return "stack" + listed(map(str, row["stack"]))
    if "refused" in row:
        return f"refused in state {row['refused']} at {row['token']}"
    return "limit"


def steps_of(tree):
    """How many steps make a tree: one for each node."""
    leaves = re.findall('"[^"]*"', tree)
    return len(leaves) + re.sub('"[^"]*"', "", tree).count("[")


def limit_of(place, rows):
    """The limit to ask with: where a run met its limit, the values do not keep it."""
    row = rows[place]
    pair = rows[place // 2 * 2:][:2]
    for kept in [row, *pair]:
        if kept["limit"] is not True:
            return kept["limit"]
    if row["call"] == "interpret":
        for other in rows:
            if other["tokens"] == row["tokens"] and "tree" in other:
                return steps_of(other["tree"]) - 1
    return 0


def run_question(grammar, place, rows):
    """The question of a run, and how it ends."""
    row = rows[place]
    tokens = [f'"{token}"' for token in row["tokens"]]
    limit = str(limit_of(place, rows))
    words = [row["call"], grammar.start, row["method"].lower(), limit, *tokens]
    return Question(words, [outcome_text(row)])


def ask_runs(grammar, value):
    """Runs by both methods."""
    questions = []
    lanes = [row for row in value if row["method"] == "Lane"]
    canonicals = [row for row in value if row["method"] == "Canonical"]
    for place in range(len(lanes)):
        questions.append(run_question(grammar, place, lanes))
        questions.append(run_question(grammar, place, canonicals))
    return without_repeats(questions)


def ask_augment(grammar, value):
    """The new start symbol, and what both methods come to with it."""
    lines = [f"start {value['start']}"]
    lines.append(f"  {value['action']}: {value['start']} -> {grammar.start}")
    lines.append("lane " + counts_line(value["lane"]))
    lines.append("canonical " + counts_line(value["canonical"]))
    return [Question(["augment", grammar.start], lines)]
