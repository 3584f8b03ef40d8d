"""What docs/FORMATS.md says of a run of `lrtab`, and what is wrong with an answer."""
import collections
import re

from gate.hostile import reading
from gate.hostile.forms import NUMBER, check_explanation, check_tree, least_nodes, right_tokens
from gate.hostile.reports import check_report
from gate.hostile.words import READABLE
from gate.shown.data import WrongData, expect

# The usage text, what words after FILE and START ask for, and the files that can be read.
Program = collections.namedtuple("Program", "usage asked files")
GREATEST = 18446744073709551615
# A refusal of few tokens by a small grammar makes fewer steps.
MANY_STEPS = 10_000
TREE = "a tree"

# `status` is negative for a signal, and None where the time ran out. Outputs are bytes.
Answer = collections.namedtuple("Answer", "status stdout stderr")
# `number` is LIMIT, or what a graph of `lrshow` shows. `tokens` are literals with quotes.
Request = collections.namedtuple("Request", "file start task number tokens")


def number_of(word):
    """The number of decimal digits alone, or None where the word is none or the number is too large."""
    digits = word.lstrip("0") or "0"
    is_number = re.fullmatch("[0-9]+", word) and len(digits) <= len(str(GREATEST)) and int(digits) <= GREATEST
    return int(digits) if is_number else None


def quoted(words):
    return [f'"{it}"' for it in words]


def asked_of_lrtab(task, words):
    """The task, the limit and the tokens, or None where the words have another form."""
    if task in ("report", "explain") and not words:
        return task, None, []
    limit = number_of(words[0]) if task == "parse" and words else None
    return None if limit is None else (task, limit, quoted(words[1:]))


LRTAB = Program("usage: lrtab FILE START (parse LIMIT TOKEN.. | report | explain)", asked_of_lrtab, READABLE)


def request_of(program, words):
    """What the words, which are bytes, ask for, or None where they have another form."""
    try:
        words = [it.decode() for it in words]
    except UnicodeDecodeError:
        return None
    asked = program.asked(words[2], words[3:]) if len(words) > 2 and reading.is_name(words[1]) else None
    return Request(*words[:2], *asked) if asked else None


def faults_of(program, text, words):
    """The lines of which one is expected on standard error, the request, and the grammar."""
    request = request_of(program, words)
    if request is None:
        return [program.usage], None, None
    no_text = [f"cannot read {request.file}"], request, None
    if request.file not in program.files:
        return no_text
    try:
        grammar = reading.read((b"" if request.file.startswith("/") else text).decode())
    except UnicodeDecodeError:
        return no_text
    except reading.FaultyLine as line:
        return [f"line {line}: not a grammar line"], request, None
    return [f"cyclic inline of {name}" for name in sorted(reading.on_rings(grammar))], request, grammar


def fault_in(answers, lines, check):
    """What is wrong with the first answer, or None. If there are lines, one of them is expected."""
    for it in answers:
        if it.status is None:
            return "no end within its time"
        if it.status < 0:
            return f"ended by signal {-it.status}"
    if lines:
        is_right = answers[0] in [Answer(2, b"", f"{line}\n".encode()) for line in lines]
        return None if is_right else f"expected status 2 and on standard error {' or '.join(map(repr, lines))}"
    try:
        check()
    except WrongData as why:
        return str(why)
    except UnicodeDecodeError:
        return "bytes that are no UTF-8"
    return None


def fault_of(text, words, answer):
    """What is wrong with an answer of `lrtab`, or None."""
    lines, request, grammar = faults_of(LRTAB, text, words)
    return fault_in([answer], lines, lambda: check_tables(answer, request, grammar))


def check_tables(answer, request, grammar):
    """An answer about tables. Of a grammar too large after inlining, only its stream is checked."""
    is_answer = not answer.stderr and answer.status in (0, 1)
    expect(is_answer, "expected an answer on standard output, and status 0 or 1")
    text = answer.stdout.decode()
    try:
        rules = reading.inlined(grammar)
    except reading.TooLarge:
        return
    if request.task == "parse":
        expect(text.endswith("\n"), "no line end after the answer")
        check_parse(text[:-1], answer.status, request, rules)
        return
    check_conflicts(answer.status == 1, rules, request.start)
    check = check_report if request.task == "report" else check_explanation
    is_none = (request.task, text) == ("explain", "no conflicts\n")
    count = 0 if is_none else check(text, rules, reading.literals_of(grammar.rules))
    expect((count > 0) == (answer.status == 1), "the text and the status disagree on conflicts")


def check_conflicts(has_conflicts, rules, start):
    """There are none where each right side begins with a literal, and none of a name with that of
    another. There are some where two productions of the start symbol are the same."""
    first = [(name, right[0]) if right and reading.is_literal(right[0]) else None for name, right in rules]
    has_none = None not in first and len(set(first)) == len(first)
    expect(not has_conflicts or not has_none, "conflicts, but no two productions of a name begin alike")
    rights = [right for name, right in rules if name == start]
    has_some = len(set(rights)) < len(rights)
    expect(has_conflicts or not has_some, f"no conflicts, but two productions of {start} are the same")


def check_parse(line, status, request, rules):
    """The line of an answer to a parse."""
    has_conflicts = re.fullmatch(f"conflicts: {NUMBER}", line) is not None
    check_conflicts(has_conflicts, rules, request.start)
    if status == 0:
        check_tree(line, rules, request.start, request.tokens, request.number)
    expect(line != "conflicts: 0", "no conflicts, but a number of them")
    if not has_conflicts:
        lines = expected_lines(request, rules)
        expect(line != TREE and (line if status else TREE) in lines, f"expected {' or '.join(lines)}")


def expected_lines(request, rules):
    """The answers of right tables. For a start symbol on a right side these are a tree, the limit,
    and refusals of tokens up to the first unknown one."""
    tokens, rules = [*request.tokens, "Eof"], list(dict.fromkeys(rules))
    if any(request.start in right for _, right in rules):
        literals = reading.literals_of(rules)
        first = next(place for place, it in enumerate(tokens) if it not in literals)
        return [TREE] * (tokens[first:] == ["Eof"]) + ["limit", *(f"refused at {it}" for it in tokens[: first + 1])]
    least = least_nodes(rules, request.tokens)
    nodes = least[request.start, 0].get(len(request.tokens))
    if nodes is not None:
        return [TREE if nodes <= request.number else "limit"]
    right = right_tokens(rules, request.start, request.tokens, least)
    if request.number < right:
        return ["limit"]
    needs_no_step = not any(name == request.start for name, _ in rules)
    return [f"refused at {tokens[right]}", *["limit"] * (not needs_no_step and request.number < MANY_STEPS)]


def difference_of(text, words, lane, canonical):
    """In what the answers by the two methods differ where they must not, or None."""
    lines, request, grammar = faults_of(LRTAB, text, words)
    if lines or lane == canonical:
        return None
    if request.task != "parse" or b"conflicts: " in (lane.stdout[:11], canonical.stdout[:11]):
        has_tables = request.task == "report" and lane.status == canonical.status == 0
        return None if has_tables else "the two methods report different conflicts"
    try:
        is_mentioned = any(request.start in right for _, right in reading.inlined(grammar))
    except reading.TooLarge:
        return None
    is_later = lane.stdout == b"limit\n" and canonical.status == 1
    return None if is_mentioned or is_later else "the two methods answer differently"
