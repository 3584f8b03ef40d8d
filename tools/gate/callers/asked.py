"""Questions to the library, with what is expected of their answers."""
import collections
import re
import struct

from gate.hostile.words import Inputs
from gate.replay import report_of_data
from gate.replay.asking import data_in, difference
from gate.replay.lrtab import first_difference, kind_of, read_cases
from gate.shown import checks
from gate.shown.data import WrongData

# A grammar text and words, which are bytes, and whether the canonical tables are asked for.
Question = collections.namedtuple("Question", "text words canonical")
Answer = collections.namedtuple("Answer", "status text")
# The beginning of the answer to words of another form.
USAGE = "usage: START "
# Words of `lrshow`, for grammars whose start symbol is S.
SHOWN = (
    "json", "check", "check\0--json", "conflicts", "dot", "dot\0--conflicts", "dot\0--around\0" "1", "dot\0--around\0" "9",
    "dot\0--around\0" "1\0--depth\0" "2", "html", "tree", "tree\0x", "tree\0--dot\0a", "c\0--prefix\0calc", "rust", "python",
    "c\0--augment",
)


def file_of(questions):
    """The bytes of a file of questions, as the callers read it."""
    def part(content):
        return struct.pack("<I", len(content)) + content

    return b"".join(part(it.text) + part(it.words) + bytes([it.canonical]) for it in questions)


def answers_in(content):
    """The answers in a file that a caller wrote, which may have ended within one of them."""
    answers, at = [], 0
    while len(content) - at >= 5:
        status, length = struct.unpack_from("<BI", content, at)
        if len(content) - at - 5 < length:
            break
        answers.append(Answer(status, content[at + 5 : at + 5 + length]))
        at += 5 + length
    return answers


def result_of(answer):
    """An answer as the status and both outputs of a program."""
    is_output = answer.status in (0, 1)
    return {"status": answer.status, "stdout": answer.text if is_output else b"", "stderr": b"" if is_output else answer.text}


def expected_of_case(case):
    """A function that returns how an answer differs from a case, or None."""

    def check(answer, _):
        if not case["stderr"].startswith("usage: "):
            return first_difference(case, result_of(answer))
        is_right = answer.status == 2 and answer.text.startswith(USAGE.encode())
        return None if is_right else f"expected status 2 and {USAGE!r}, got {answer}"

    return check


def expected_of_data(cases):
    """A function that returns how the listings of an answer's data differ from cases, or None."""

    def check(answer, _):
        result = result_of(answer)
        data, fault = data_in(result)
        results = [difference(it, result, data, fault, report_of_data.output_of) for it in cases]
        return next(filter(None, [fault, *results]), None)

    return check


def expected_of_check(text, start, name):
    """A function that returns how the findings of an answer differ from the definitions, or None. The
    causes of conflicts are those of the data that another answer has."""

    def check(answer, answers):
        data, fault = data_in(result_of(answers[name]))
        causes = None if data is None else [*checks.caused(data, text)]
        try:
            checks.check_json(answer.status, answer.text.decode(), text, start, None, causes)
        except (WrongData, ValueError) as why:
            return str(why)
        return fault

    return check


class Cases:
    """The stored cases whose grammar is there. The data of each of their tables, with which the listings
    of the cases are made. A check of each grammar."""

    def __init__(self, folder):
        cases, grammars = read_cases(folder)
        self.rows, self.texts = [], [it.encode() for it in grammars.values()]
        tables = {(file, "S", "Lane"): [] for file in grammars}
        for it in [case for case in cases if case["file"] in grammars]:
            self.add(it["name"], grammars[it["file"]], it["words"], it["method"], expected_of_case(it))
            if kind_of(it) in ("report", "explain") and not it["stderr"].startswith("usage: "):
                tables.setdefault((it["file"], it["words"][0], it["method"]), []).append(it)
        for (file, start, method), some in tables.items():
            name = f"{file}/{start}-json/{method}"
            self.add(name, grammars[file], [start, "json"], method, expected_of_data(some))
        for file, text in grammars.items():
            check = expected_of_check(text, "S", f"{file}/S-json/Lane")
            self.add(f"{file}/S-check/Lane", text, ["S", "check", "--json"], "Lane", check)

    def add(self, name, text, words, method, check):
        question = Question(text.encode(), "\0".join(words).encode(), method == "Canonical")
        self.rows.append((name, question, check))

    def questions(self):
        return [question for _, question, _ in self.rows]

    def for_tables(self):
        """Each grammar with the start symbol S in the place of words, by both methods."""
        return [Question(it, b"S", by) for it in self.texts for by in (False, True)]

    def faults(self, answers):
        """A line for each answer that is not as expected. An answer may lack at the end."""
        if len(answers) < len(self.rows):
            return [f"{self.rows[len(answers)][0]}: no answer"]
        named = {name: answer for (name, _, _), answer in zip(self.rows, answers)}
        found = [(name, check(answer, named)) for (name, _, check), answer in zip(self.rows, answers)]
        return [f"{name}: {why}" for name, why in found if why]


def random_question(number):
    """A question that follows from a number: a random text and words, of which some have a change."""
    chance = Inputs(number)
    text, rules = chance.random_text()
    words = chance.random_shown_words(rules) if number % 2 else chance.random_words(rules, text)
    text, words = bytes(text), b"\0".join(words[1:])
    if chance.is_one_in(4):
        text, words = changed(chance, text), with_small_limits(words)
    if chance.is_one_in(4):
        words = changed(chance, with_small_limits(words))
    return Question(text, words, bool(chance.below(2)))


def with_small_limits(words):
    """The words with fewer digits, since a parse by another grammar need not end before its limit."""
    return re.sub(rb"[0-9]{5,}", b"9999", words)


def changed(chance, content):
    """Random bytes, or the same bytes with some of them replaced."""
    new = bytes(chance.below(256) for _ in range(chance.below(12)))
    if chance.is_one_in(3):
        return new * chance.below(9)
    at = chance.below(len(content) + 1)
    return content[:at] + new + content[at + chance.below(12) :]


def refused_questions():
    """The questions whose allocations are refused: each kind of answer, tables as numbers, a check of
    these, and the calls that parse by them. Each is asked by both methods."""
    texts = (
        'S = E\nE = E "+" E\nE = "n"\n', 'S = L\nL = L I\nL =\ninline I\nI = "a"\nI = "b"\n', "S = x\"\n",
        # a ring of marked names; and warnings of several kinds, one with a name that may be meant
        "S = A\nA = A\ninline A\n", 'S = Sun\nS = "s"\nSum = "n"\nC = C\nC = "c"\ninline D\n',
    )
    words = [*(f"S\0{it}" for it in (*SHOWN, "parse\0" "99\0a\0b", "report", "explain", "none"))]
    words += ["=tables", "=check", "=parse", "=expected"]
    return [Question(text.encode(), it.encode(), by) for text in texts for it in words for by in (False, True)]
