"""The questions that values answer, kind by kind, each with the lines that are expected."""

from dataclasses import dataclass, field

from shown import counts_line, is_counted, listed, production_text, result_lines, symbols_text


@dataclass
class Question:
    """A call with its words, and the expected lines."""
    words: list
    expected: list

    def line(self):
        return " ".join(["ask", *self.words])


@dataclass
class Grammar:
    """A grammar file, the start symbol, the productions by number, and the values of each kind."""
    file: str
    start: str = ""
    productions: list = field(default_factory=list)
    values: dict = field(default_factory=dict)


def ask_read(grammar, value):
    """What the text stands for."""
    lines = []
    for name in value["entries"]:
        begin, end = value["spans"][name]
        mark = ", inline" if name in value["marked"] else ""
        lines.append(f"{name} at {begin}..{end}{mark}")
        for production in value["productions"]:
            if production[0] == name:
                begin, end = production[3]
                lines.append(f"  {production_text(production)} at {begin}..{end}")
    lines.append("terminals" + listed(value["terminals"]))
    return [Question(["read"], lines)]


def ask_fault(grammar, value):
    """The first line that is no grammar line, which any call answers."""
    lines = [f"line {value['line']}: not a grammar line"]
    return [Question(["read"], lines), Question(["build_states", "S", "lane"], lines)]


def inlined_text(symbol):
    """A symbol of an action that inlining made."""
    if "original" in symbol:
        return " " + symbol["original"]
    return f" ({symbol['inlined']}{symbols_text(symbol['symbols'])})"


def ask_inline(grammar, value):
    """The order in which marked nonterminals are inlined, and what comes of it."""
    if "refused" in value:
        lines = [f"cyclic inline of {value['refused'][2]}"]
        return [Question(["inline_order"], lines), Question(["inline"], lines)]
    lines = ["  " + production_text(production) for production in value["productions"]]
    for number, action in enumerate(value["new_actions"]):
        if action is not None:
            symbols = "".join(inlined_text(symbol) for symbol in action["symbols"])
            lines.append(f"action {number}: {action['action']}{symbols}")
    order = Question(["inline_order"], ["order" + listed(value["order"])])
    return [order, Question(["inline"], lines)]


def ask_first(grammar, value):
    """FIRST sets of rests of right sides."""
    questions = []
    for row in value:
        tokens = "tokens" + listed(row["first0"])
        with_end = "tokens" + listed(row["first1_with_end"])
        questions.append(Question(["first0", *row["symbols"]], [tokens]))
        questions.append(Question(["first1", *row["symbols"], ",", "Eof"], [with_end]))
    return questions


def ask_views(grammar, value):
    """The views of LR(0) states."""
    lines = []
    for view in value:
        lines.append(f"state {view['state']}")
        lines.append("  max_prefix" + listed(view["max_prefix"]))
        lines.append("  will_pop" + listed(view["will_pop"]))
        lines.append("  will_push" + listed(view["will_push"]))
        lines.append("  will_produce " + (view["will_produce"] or "-"))
    return [Question(["views", grammar.start], lines)]


def asked_result(grammar, words, value):
    """The question whose answer is a result, or its counts alone."""
    counted = ["count"] if is_counted(value) else []
    return Question([*words, *counted], result_lines(value, grammar.productions))


def ask_lr0(grammar, value):
    """LR(0) states."""
    return [asked_result(grammar, ["build_lr0_states", grammar.start], value)]


def ask_canonical_by_construction(grammar, value):
    """Canonical states by construction number."""
    words = ["build_lr1_states", grammar.start, "canonical"]
    return [asked_result(grammar, words, value)]


def ask_canonical(grammar, value):
    """Canonical states under new numbers."""
    return [asked_result(grammar, ["build_states", grammar.start, "canonical"], value)]


def ask_lane(grammar, value):
    """What the lane way answers, the canonical one where it has no tables."""
    return [asked_result(grammar, ["build_states", grammar.start, "lane"], value)]


def ask_lane_tables(grammar, value):
    """Lane tables with a number of copies allowed."""
    words = ["build_lane_table_states", grammar.start, str(value["max_copies"])]
    return [asked_result(grammar, words, value)]


def ask_early_stop(grammar, value):
    """How many canonical states are made where the construction stops at conflicts."""
    questions = []
    for row in value:
        option = f"stop_after={row['stop_after']}"
        words = ["build_lr1_states", grammar.start, "canonical", option, "count"]
        questions.append(Question(words, [counts_line(row)]))
    return questions


def ask_collapse(grammar, value):
    """The merged canonical states."""
    question = asked_result(grammar, ["collapse_to_lalr_states", grammar.start], value)
    question.expected.insert(0, "collapsible true")
    return [question]


def ask_check(grammar, value):
    """The check of tables, and of tables with one reduction changed."""
    questions = []
    for way in ["canonical", "collapsed", "lane"]:
        answer = [str(value[way]).lower()]
        questions.append(Question(["check_tables", grammar.start, way], answer))
    for row in value["canonical_changed"]:
        change = {"emptied": "emptied", "all tokens": "full"}[row["tokens"]]
        words = ["check_tables", grammar.start, "canonical"]
        words += [str(row["state"]), str(row["reduction"]), change]
        questions.append(Question(words, [str(row["passes"]).lower()]))
    return questions


def ask_graph(grammar, value):
    """The graph of LR(0) states."""
    lines = []
    for state, targets in value["successors"].items():
        lines.append(f"successors {state}:" + listed(map(str, targets)))
    questions = [Question(["state_graph", grammar.start], lines)]
    for row in value["trace_back"]:
        words = ["trace_back", grammar.start, str(row["state"]), *row["symbols"]]
        questions.append(Question(words, ["states" + listed(map(str, row["from"]))]))
    return without_repeats(questions)


def without_repeats(questions):
    """The questions, each once."""
    once = {}
    for question in questions:
        first = once.setdefault(question.line(), question)
        if first.expected != question.expected:
            raise ValueError(f"two answers to {question.line()}")
    return list(once.values())
