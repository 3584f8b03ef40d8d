"""Runs of the programs under limits, and what is wrong with them."""
import math
import os
import resource
import subprocess
import tempfile

from gate.hostile import deep, deep_shown, shown_verdicts, verdicts
from gate.hostile.shown_verdicts import LRSHOW
from gate.hostile.verdicts import fault_in, request_of
from gate.hostile.words import Inputs

# What the names of runs of `lrshow` begin with. The others are of `lrtab`.
SHOWN = "shown_"
DEEP = {**deep.DEEP, **deep_shown.DEEP}
VARIABLE = "LALRPOP_LANE_TABLE"
# Values of the variable that ask for no method, so that it is the lane way.
OTHER_VALUES = (None, None, None, b"", b"enabled", b"Disabled", b"disabled ", b"canonical", b"\xff")
# Seconds of processor time; and how many times as long a run may take beside others.
SECONDS, BESIDE = 20, 5
MEMORY, LARGEST_OUTPUT = 1 << 30, 1 << 25
# How many characters of a reason are printed.
LONGEST = 2_000


def is_random(run):
    return run.removeprefix(SHOWN).isdecimal()


def case_of(run):
    """The case of a random or a deep run."""
    if not is_random(run):
        return DEEP[run]()
    chance = Inputs(int(run.removeprefix(SHOWN)))
    text, rules = chance.random_text()
    if run.startswith(SHOWN):
        text = chance.with_hostile_literals(text)
    words = chance.random_shown_words(rules) if run.startswith(SHOWN) else chance.random_words(rules, text)
    return deep.Case(text, words, None, deep.METHODS, deep.SMALL_STACK, MEMORY, SECONDS, chance.one_of(OTHER_VALUES))


def is_of_input(case):
    """Whether the first word asks for the text of standard input."""
    return case.words[:1] in (["-"], [b"-"])


def set_limits(case, work):
    """Limits the process that becomes the program, which may work for some seconds."""
    for name, most in (("STACK", case.stack), ("AS", case.memory), ("FSIZE", LARGEST_OUTPUT), ("CORE", 0)):
        resource.setrlimit(getattr(resource, f"RLIMIT_{name}"), (most, most))
    # (at the second limit the system kills a process without a reason)
    resource.setrlimit(resource.RLIMIT_CPU, (work, work + 1))


def answer_of(program, case, seconds, room, value):
    """What the program answers in a folder, with a value of the variable."""
    # (a script in the program's place may need the path)
    environment = {"PATH": os.environ.get("PATH", os.defpath), **({} if value is None else {VARIABLE: value})}
    work = math.ceil(seconds or case.seconds)
    with tempfile.TemporaryFile() as output, tempfile.TemporaryFile() as errors:
        how = {"cwd": room, "env": environment, "stdout": output, "stderr": errors}
        # (the text comes by a pipe, which may give a part of it at a time)
        how |= {"input": case.text} if is_of_input(case) else {"stdin": subprocess.DEVNULL}
        how |= {"timeout": seconds or BESIDE * case.seconds, "preexec_fn": lambda: set_limits(case, work)}
        try:
            status = subprocess.run([program, *case.words], **how).returncode
        except subprocess.TimeoutExpired:
            status = None
        for it in (output, errors):
            it.seek(0)
        return verdicts.Answer(status, output.read(), errors.read())


def answers_of(program, case, seconds):
    """What the program answers by each method, in a new folder that has the text as `g`."""
    with tempfile.TemporaryDirectory(prefix="hostile-") as room:
        with open(f"{room}/g", "wb") as it:
            it.write(case.text)
        values = [b"disabled" if it == "Canonical" else case.lane for it in case.methods]
        return [answer_of(program, case, seconds, room, it) for it in values]


def cut(text):
    return repr(text if len(text) <= 300 else text[:300] + f".. ({len(text)})".encode())


def line_of(answer):
    return f"status {answer.status}, standard output {cut(answer.stdout)}, standard error {cut(answer.stderr)}"


def judged_of_lrshow(program, case, seconds, answers):
    """Why each answer of `lrshow` is wrong, or None; in what the two methods differ, or None; and how many
    runs this takes. It is asked for its data, too, and for the file in the place of standard input."""
    words, more = case.words, 0
    asking = [*words[:2], b"json"] if request_of(LRSHOW, words) else words
    datas = answers if asking == words else answers_of(program, case._replace(words=asking), seconds)
    whys = [shown_verdicts.fault_of(case.text, words, *it) for it in zip(answers, datas)]
    if is_of_input(case):
        of_file = answers_of(program, case._replace(words=[b"g", *words[1:]]), seconds)
        others = [shown_verdicts.difference_of_input(words, *it) for it in zip(answers, of_file)]
        whys, more = [why or other for why, other in zip(whys, others)], len(of_file)
    return whys, shown_verdicts.difference_of(*datas), more + (0 if datas is answers else len(datas))


def attempt(programs, seconds, run):
    """How many runs an input has, and their faults."""
    case, program, difference, more = case_of(run), programs[run.startswith(SHOWN)], None, 0
    answers = answers_of(program, case, seconds)
    if not is_random(run):
        whys = [fault_in([it], [], lambda: case.expected(it)) for it in answers]
    elif run.startswith(SHOWN):
        whys, difference, more = judged_of_lrshow(program, case, seconds, answers)
    else:
        whys = [verdicts.fault_of(case.text, case.words, it) for it in answers]
        difference = verdicts.difference_of(case.text, case.words, *answers)
    name = f"{'random' if is_random(run) else 'deep'} run {run}"
    parts = [it for it in zip(case.methods, whys, answers) if it[1]]
    faults = [f"{name} by {method}: {why[:LONGEST]}; got {line_of(answer)}" for method, why, answer in parts]
    if difference and not faults:
        faults = [f"{name}: {difference}: {' and '.join(map(line_of, answers))}"]
    return len(answers) + more, faults
