"""What docs/FORMATS.md says of a run of `lrshow`, and what is wrong with an answer."""
import collections
import re

from gate.hostile import reading
from gate.hostile.forms import check_explanation
from gate.hostile.reports import check_report
from gate.hostile.verdicts import Program, check_conflicts, fault_in, faults_of, number_of, quoted
from gate.hostile.words import SHOWN_READABLE
from gate.shown import causes, checks, doubts, graph, page, parsers, tree
from gate.shown import data as shown_data
from gate.shown.data import expect
from gate.shown.listings import Listings

USAGE = (
    "usage: lrshow FILE START (check [--json] | conflicts | tree [--dot] TOKEN.. | json | "
    "dot [--around STATE [--depth N] | --conflicts] | html | c [--augment] [--prefix NAME] | "
    "rust [--augment] | python [--augment])"
)


def choice_of(words):
    """What a graph shows, as a list of one, or an empty list where the words have another form."""
    if words in ([], ["--conflicts"]):
        return [graph.CONFLICTS if words else None]
    state, depth = number_of(words[1]) if len(words) > 1 else None, number_of(words[3]) if len(words) == 4 else 1
    has_form = len(words) in (2, 4) and words[0] == "--around" and words[2:3] in ([], ["--depth"])
    if not has_form or state is None or depth is None:
        return []
    return [state if depth == 1 else graph.Near(state, depth)]


def asked_of_lrshow(task, words):
    """The task, what a graph shows, and the tokens, or None where the words have another form."""
    if task == "tree":
        return (f"{task} --dot", None, quoted(words[1:])) if words[:1] == ["--dot"] else (task, None, quoted(words))
    if task == "dot":
        return next(((task, it, []) for it in choice_of(words)), None)
    if task == "check" and words == ["--json"]:
        return f"{task} --json", None, []
    if task in parsers.WRITERS:
        options = parsers.options_of(task, words, reading.is_name)
        return None if options is None else (task, options, [])
    return (task, None, []) if task in ("check", "conflicts", "json", "html") and not words else None


LRSHOW = Program(USAGE, asked_of_lrshow, SHOWN_READABLE)


def check_data(data, start, grammar):
    """The data agree with the grammar and with themselves. The rules of a grammar that is too large
    after inlining are not checked. Productions of the file have the numbers of their lines."""
    literals = reading.literals_of(grammar.rules)
    expect(data["start"] == start, f"the start symbol {data['start']}")
    expect({f'"{it}"' for it in data["terminals"]} == literals, f"the terminals {data['terminals']}")
    try:
        rules = reading.inlined(grammar)
    except reading.TooLarge:
        return
    listings, conflicts = Listings(data), len(data["conflicts"])
    shown = listings.rules
    expect(collections.Counter(shown.values()) == collections.Counter(rules), f"productions {shown}")
    wrong = [it for it, one in enumerate(grammar.rules) if shown.get(it, one) != one]
    expect(not wrong, f"productions {wrong} are not those of the lines")
    check_conflicts(conflicts > 0, rules, start)
    count = check_report(listings.report(), rules, literals)
    expect(count == conflicts, f"{conflicts} conflicts, and the states have {count}")
    if count:
        check_explanation(listings.explanation(), rules, literals)


def state_of(choice):
    """The number of the state that a graph is to show, or None."""
    return choice.number if isinstance(choice, graph.Near) else None if choice == graph.CONFLICTS else choice


def no_start(data):
    """The message if the start symbol has no production, or an empty text."""
    names = {it["nonterminal"] for it in data["productions"]}
    near = doubts.nearest_of(data["start"], names)
    hint = f"; perhaps `{near}` is meant" if near else ""
    return "" if data["start"] in names else f"`{data['start']}` has no production{hint}\n"


def check_shown(answer, request, data, grammar):
    """An answer shows some data."""
    is_tree = request.task.startswith("tree")
    if (is_tree or request.task in ("conflicts", *parsers.WRITERS)) and (message := no_start(data)):
        expected = 2, b"", message.encode()
        expect((answer.status, answer.stdout, answer.stderr) == expected, f"expected {expected}")
        return
    if request.task in parsers.WRITERS:
        if request.number.is_augmented:
            parsers.check_augmented(answer, data)
        elif not parsers.lists_more(grammar.marked, [left for left, _ in grammar.rules]):
            parsers.check(answer, data, request.task, request.number.prefix)
        return
    if is_tree:
        tree.check(answer, data, [it[1:-1] for it in request.tokens], request.task == "tree --dot")
        return
    state, remark = state_of(request.number), graph.remark_on(graph.edges_of(data), request.number, data["conflicts"])
    status = 1 if data["conflicts"] else 0
    if state is not None and state >= len(data["states"]):
        status, remark = 2, f"no state {state}\n"
    remark = remark if request.task == "dot" else ""
    is_right = (answer.status, answer.stderr) == (status, remark.encode())
    expect(is_right, f"expected status {status} and {remark!r} on standard error")
    text = answer.stdout.decode()
    if status == 2:
        expect(text == "", "a text on standard output")
    elif request.task == "dot":
        graph.check(text, data, request.number)
    elif request.task == "html":
        page.check(text, data)
    elif request.task == "conflicts":
        causes.check_text(text, causes.visible(data), expect)


def check_check(answer, request, text, data):
    """A check of a text is right. The data, or None where none are expected, have the causes of conflicts."""
    text = b"" if request.file.startswith("/") else text
    expect(answer.stderr == b"", "a text on standard error")
    check = checks.check_json if request.task == "check --json" else checks.check
    caused = None if data is None else [*checks.caused(data, text.decode())]
    check(answer.status, answer.stdout.decode(), text.decode(), request.start, request.file, caused)


def fault_of(text, words, answer, data_answer):
    """What is wrong with an answer of `lrshow`, or None. `data_answer` is that for the data."""
    lines, request, grammar = faults_of(LRSHOW, text, words)

    def checked_data():
        data = shown_data.read(data_answer.stdout)
        check_shown(data_answer, request._replace(task="json", number=None, tokens=[]), data, grammar)
        check_data(data, request.start, grammar)
        return data

    is_check = request is not None and request.task.startswith("check")
    if is_check and lines[:1] != [f"cannot read {request.file}"]:
        # (a check writes the faults of a text to standard output)
        def check():
            check_check(answer, request, text, None if lines else checked_data())

        return fault_in([answer, data_answer], [], check)
    return fault_in([answer, data_answer], lines, lambda: check_shown(answer, request, checked_data(), grammar))


def difference_of(lane, canonical):
    """In what the data by the two methods differ where they must not, or None."""
    has_tables = lane.status == canonical.status == 0
    return None if has_tables or lane == canonical else "the two methods report different conflicts"


def difference_of_input(words, answer, file_answer):
    """In what an answer for standard input differs from that for the file `g`, or None."""
    output, errors = file_answer.stdout, file_answer.stderr
    if words[2:] == [b"check"]:
        output = re.sub(b"(?m)^g:", b"-:", output)
    if errors == b"cannot read g\n":
        errors = b"cannot read -\n"
    is_same = answer == file_answer._replace(stdout=output, stderr=errors)
    return None if is_same else "for standard input it answers otherwise than for the file"
