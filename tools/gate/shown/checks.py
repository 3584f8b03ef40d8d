"""What `lrshow FILE START check` must report, and what it did."""
import json
import re

from gate.hostile import reading
from gate.shown.causes import line_of
from gate.shown.data import WrongData, expect, no_number, once
from gate.shown.doubts import Numbered, word_of
from gate.shown.faults import errors_of
from gate.shown.places import Finding
from gate.shown.visible import VISIBLE

LINE = re.compile(r"(\d+):(\d+): (error|warning): (.*); ([^;]*)")
MEMBERS = {"column": int, "end": int, "hint": str, "line": int, "message": str, "severity": str, "start": int}
CYCLE = re.compile(r"(`\w+` derives itself):((?: `\w+`)+)")
ITSELF = re.compile(r"`(\w+)` derives itself")
# How many steps a way from a name back to itself has at most, if it is said.
MOST_STEPS = 20
CONFLICTS = "see `lrshow FILE START conflicts`"
# What is between the items of a shift.
SHIFT = ", or shift by "


def places_of(reduced, numbered):
    """The places that a cause may have, by the number of the production that is reduced: that of the left
    side of a production of the text. One that was made by inlining is not numbered in the text. It is
    in a line of its name that has a marked name."""
    if reduced["number"] < len(numbered.rules):
        lines = [numbered.rules[reduced["number"]][0]]
    else:
        rules = [it for it in numbered.rules if it[1] == reduced["nonterminal"]]
        lines = [number for number, _, right in rules if numbered.marked.intersection(right)]
    return [numbered.text[it - 1].place(0) for it in lines]


def caused(data, text):
    """For each cause of the data, the warnings of which one is expected."""
    numbered, rules = Numbered(text), {it["number"]: it for it in data["productions"]}
    for place, cause in enumerate(data["causes"]):
        reduced = rules[data["conflicts"][cause["conflicts"][0]]["actions"][0]["reduce"]]
        places, message = places_of(reduced, numbered), line_of(data, place)
        yield [Finding("warning", *it, message, CONFLICTS) for it in places]


def in_order(row):
    """A finding with the items of a shift in ascending order."""
    first, *items = row.message.split(SHIFT)
    return row._replace(message=SHIFT.join([first, *sorted(items)]))


def rings_of(text, numbered):
    """The errors of marked names that would have to be inlined into themselves, of which one is reported."""
    lines = [(name, numbered.text[numbered.lines[name] - 1]) for name in sorted(reading.on_rings(reading.read(text)))]
    says = "`{}` would have to be inlined into itself"
    places = [(name, line.place(word_of("cyclic", name, line.words))) for name, line in lines]
    return [Finding("error", *place, says.format(name), "leave a mark out") for name, place in places]


def without_cycle(row, numbered, steps):
    """A finding without its way from a name back to itself, which is checked."""
    cycle, alone = CYCLE.fullmatch(row.message), ITSELF.fullmatch(row.message)
    if not cycle:
        is_long = alone and not numbered.has_way_back(alone[1], MOST_STEPS)
        expect(is_long or " derives itself" not in row.message, f"no way back: {row.message}")
        return row
    names = re.findall(r"\w+", cycle[2])
    is_way = len(names) > 1 and names[0] == names[-1] and f"`{names[0]}`" == cycle[1].split()[0]
    expect(is_way and steps.issuperset(zip(names, names[1:])), f"no way of a name back to itself: {row.message}")
    expect(not numbered.has_way_back(names[0], len(names) - 2), f"no shortest way back: {row.message}")
    return row._replace(message=cycle[1])


def expect_same(rows, expected):
    """The rows are the expected ones, each once, in any order."""
    lacking, others = [it for it in expected if it not in rows], [it for it in rows if it not in expected]
    is_same = not lacking and not others and len(rows) == len(expected)
    expect(is_same, f"expected {sorted(map(tuple, lacking))}, not {sorted(map(tuple, others))}, among {len(rows)} lines")


def expect_each(rows, expected, shown):
    """Each of the rows is one of those that are expected in its place."""
    made = {id(choices): {in_order(shown(it)) for it in choices} for choices in expected}
    for row, choices in zip(rows, expected):
        choices = made[id(choices)]
        expect(in_order(row) in choices, f"expected one of {sorted(map(tuple, choices))}, not {tuple(row)}")
    expect(len(rows) == len(expected), f"{len(rows)} lines in the place of {len(expected)}")


def expect_warnings(rows, numbered, start, shown):
    """The warnings that hold, in the order of their lines."""
    steps = numbered.unit_steps()
    expect_same([without_cycle(it, numbered, steps) for it in rows], [*map(shown, numbered.warnings(start))])
    expect([it.line for it in rows] == sorted(it.line for it in rows), "the lines are not in their order")


def check_rows(status, rows, text, start, causes, shown):
    """The findings of a check are right for a text, a start symbol and the warnings of the causes of
    conflicts. The error of a ring is first, and the causes are last. `shown` makes a finding one of the
    form of the rows."""
    errors = [*map(shown, errors_of(text))]
    if errors:
        expect(rows == errors, f"expected the errors {[tuple(it) for it in errors]}, not {[tuple(it) for it in rows]}")
        expect(status == 2, f"expected status 2 for {len(errors)} errors")
        return
    numbered = Numbered(text)
    rings = rings_of(text, numbered)
    expect(rings or causes is not None, "there are no data that have the causes of conflicts")
    first, last = [rings] if rings else [], [] if rings else [*causes]
    end = max(len(first), len(rows) - len(last))
    expect_each(rows[: len(first)], first, shown)
    expect_each(rows[end:], last, shown)
    expect_warnings(rows[len(first) : end], numbered, start, shown)
    expect(status == (2 if rings else 1 if rows else 0), f"{len(rows)} lines and the status {status}")


def row_of(line, file):
    """A line of a check as a finding. It has no offsets."""
    expect(line.startswith(f"{file}:"), f"a line of another file than {file}: {line[:200]!r}")
    parts = LINE.fullmatch(line[len(file) + 1 :])
    expect(parts, f"a line in another form: {line[:200]!r}")
    number, column, severity, message, hint = parts.groups()
    return Finding(severity, int(number), int(column), None, None, message, hint)


def in_line(finding):
    """A finding as a line of a check has it."""
    message, hint = (it.translate(VISIBLE) for it in (finding.message, finding.hint))
    return finding._replace(start=None, end=None, message=message, hint=hint)


def check(status, output, text, start, file, causes):
    """The lines of a check are right. For each cause of conflicts the warnings are given of which one is
    expected, or None where no data are expected."""
    lines = output.split("\n")
    expect(lines.pop() == "", "no line end after the last line")
    check_rows(status, [row_of(it, file) for it in lines], text, start, causes, in_line)


def check_json(status, output, text, start, _file, causes):
    """The array of a check is right. It does not have the name of the file."""
    try:
        rows = json.loads(output, object_pairs_hook=once, parse_constant=no_number)
    except ValueError as why:
        raise WrongData(f"no JSON: {why}") from why
    expect(isinstance(rows, list), "no array")
    for it in rows:
        has_members = isinstance(it, dict) and {name: type(value) for name, value in it.items()} == MEMBERS
        expect(has_members, f"a finding with other members: {it}")
    check_rows(status, [Finding(**it) for it in rows], text, start, causes, lambda it: it)
