"""The tables of the stored cases, and the questions to the files that are generated from them."""
import collections
import random

from generated.packing import Packed, check
from generated.tables import NoTables, Tables
from gate.generated import written
from gate.generated.model import Limit, Model, Refused
from gate.hostile import reading
from gate.replay.asking import data_in, data_of
from gate.replay.lrtab import result_of

# A limit that no run of the stored cases reaches by tables without conflicts.
ENOUGH = 900
# For each tables, so many lists of at most so many tokens are asked, too.
LISTS, TOKENS = 8, 12
# Tables with a name, how they were made, and what runs by them are expected to do.
Made = collections.namedtuple("Made", "name packed method model questions")
# A question has the name of a stored case, or of a walk.
Question = collections.namedtuple("Question", "name limit tokens has_end expected")


def asked(cases):
    """For each file, start symbol and method of a case that ends with status 0 or 1, its cases."""
    found = {}
    for it in cases:
        if it["status"] in (0, 1):
            found.setdefault((it["file"], it["words"][0], it["method"]), []).append(it)
    return found


def wrapped(program, grammars, name):
    """The new start symbol of a grammar, and the data of the grammar with it."""
    file, start, method = name
    names = {it for rule in reading.read(grammars[file]).rules for it in (rule[0], *rule[1])}
    hidden = f"__{start}"
    while hidden in names:
        hidden = f"_{hidden}"
    words = {"file": file, "words": [hidden, "json"], "method": method}
    data, fault = data_in(result_of(program, words, f"{grammars[file]}\n{hidden} = {start}\n"))
    return hidden, data, fault


def walked(model, chance):
    """A list of tokens, most of which may follow those before them."""
    stack, tokens = [0], []
    while model.terminals and len(tokens) < TOKENS:
        right = [it for it in model.terminals if model.may_follow(stack, it, ENOUGH)]
        tokens.append(chance.choice(right if right and chance.random() < 0.9 else model.terminals))
        try:
            model.read(stack, [""] * (len(stack) - 1), tokens[-1], ENOUGH)
        except (Refused, Limit):
            break
    return tokens


def own_questions(name, model):
    """Questions on lists that are the same in each run."""
    chance = random.Random(" ".join(name))
    lists = [walked(model, chance) for _ in range(LISTS)]
    return [Question(f"walk {number}", ENOUGH, it, True, model.outcome(ENOUGH, it)) for number, it in enumerate(lists)]


class Found:
    """The tables of all cases, why some have no file, and faults."""

    def __init__(self, program, cases, grammars):
        self.program, self.grammars = program, grammars
        self.made, self.without, self.faults = [], collections.Counter(), []
        for name, own in asked(cases).items():
            self.add(name, own)

    def add(self, name, cases):
        _, data, fault = data_of(self.program, self.grammars, *name)
        if data is None or fault:
            self.faults.append(f"{name}: {fault or 'no data'}")
            return
        self.faults += written.faults(self.program, self.grammars, name, data)
        try:
            self.make(name, Tables(data), Model(data), [self.question(it, Model(data), it["stdout"]) for it in cases])
        except NoTables as why:
            self.refuse(name, str(why), why.status, len(data["conflicts"]), cases)

    def refuse(self, name, message, status, conflicts, cases):
        """Counts tables without a file. If the start symbol is on a right side, a new one is tried."""
        if conflicts:
            self.without["with conflicts"] += 1
            if status != 1 or not message.startswith(f"conflicts: {conflicts};"):
                self.faults.append(f"{name}: {message}")
        elif message.endswith("has no production"):
            self.without["of a start symbol without a production"] += 1
        else:
            self.augment(name, cases)

    def augment(self, name, cases):
        hidden, data, fault = wrapped(self.program, self.grammars, name)
        if data is None or fault:
            self.faults.append(f"{name}, augmented: {fault or 'no data'}")
            return
        self.faults += written.faults(self.program, self.grammars, name, data, hidden)
        if data["conflicts"]:
            self.without["with conflicts, augmented"] += 1
        else:
            model = Model(data, hidden)
            self.make((*name, "augmented"), Tables(data, hidden), model, [self.question(it, model, None) for it in cases])

    def question(self, case, model, stdout):
        """A question as a case asks it. Its text is that of the case, if there is one."""
        tokens = case["words"][3:]
        limit, unknown = min(int(case["words"][2]), ENOUGH), [it for it in tokens if it not in model.terminals]
        known = tokens[: tokens.index(unknown[0])] if unknown else tokens
        expected = model.outcome(limit, known, not unknown)
        text = f'refused at "{unknown[0]}"' if expected.text == "goes on" else expected.text
        if stdout is not None and f"{text}\n" != stdout:
            self.faults.append(f"{case['name']}: the model has {text!a}")
        return Question(case["name"], limit, known, not unknown, expected)

    def make(self, name, tables, model, questions):
        packed, questions = Packed(tables, False), questions + own_questions(name, model)
        check(packed)
        self.made.append(Made(" ".join(name), packed, name[2].lower(), model, questions))
        if name[2] == "Lane":
            small = Packed(tables, True)
            check(small)
            own = [it._replace(limit=ENOUGH, expected=model.outcome(ENOUGH, it.tokens, it.has_end)) for it in questions]
            self.made.append(Made(f"{' '.join(name)} small", small, "lane", model, own))


def line_of(number, made, question):
    """A question as the programs read it."""
    numbers = {it: place for place, it in enumerate(made.packed.tables.terminals)}
    words = [number, question.limit, int(question.has_end), *(numbers[it] for it in question.tokens)]
    return " ".join(map(str, words)) + "\n"


def answer_of(outcome):
    """The answer that is expected of the programs."""
    rest = [] if outcome.expected is None else [str(outcome.position), *outcome.expected]
    return "".join(f"{it}\n" for it in [outcome.text, *rest])
