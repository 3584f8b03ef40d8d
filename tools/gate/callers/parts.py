"""What the parts have in common: running commands, and answering the stored cases."""
import os
import re
import shutil
import subprocess

from gate.callers.asked import answers_in, file_of
from gate.files import ROOT, read

HERE = os.path.dirname(os.path.realpath(__file__))
BINDINGS = f"{ROOT}/bindings"
# How many seconds a command has.
LIMIT = 900
# How many lines of a failed command are printed.
LINES = 30


class Failed(Exception):
    """A command that failed, with what it printed."""


def ran(*command, folder=None, **variables):
    """What a command prints. A status other than 0 raises Failed."""
    environment = {**os.environ, "PYTHONDONTWRITEBYTECODE": "1", **variables}
    how = {"stdin": subprocess.DEVNULL, "stdout": subprocess.PIPE, "stderr": subprocess.STDOUT, "timeout": LIMIT}
    try:
        ended = subprocess.run(command, cwd=folder, env=environment, text=True, errors="replace", check=False, **how)
    except subprocess.TimeoutExpired as late:
        raise Failed(f"no end in {LIMIT} seconds: {' '.join(command)}") from late
    if ended.returncode:
        name, lines = os.path.basename(command[0]), ended.stdout.splitlines()[-LINES:]
        raise Failed("\n".join([f"{name} ended with status {ended.returncode}: {' '.join(command)}", *lines]))
    return ended.stdout


def lacks(*names):
    """A line on the first of these commands that is not on the path, or None."""
    missing = [it for it in names if shutil.which(it) is None]
    return f"left out: {missing[0]} is not on the path" if missing else None


def written(room, name, questions):
    """The path of a file with questions."""
    path = f"{room}/{name}.questions"
    with open(path, "wb") as it:
        it.write(file_of(questions))
    return path


def answered(room, name, questions, *command, **variables):
    """The answers of a command to questions, what it printed, and why it failed, or None."""
    answers, said, why = f"{room}/{name}.answers", "", None
    with open(answers, "wb"):
        pass
    try:
        said = ran(*command, written(room, name, questions), answers, **variables).strip()
    except Failed as failed:
        why = str(failed)
    with open(answers, "rb") as it:
        return answers_in(it.read()), said, why


def cases_by(cases, room, name, *command, **variables):
    """How many answers to the stored cases a command has right, and the faults of the others."""
    answers, said, why = answered(room, name, cases.questions(), *command, **variables)
    faults = [why] if why else cases.faults(answers)
    wrong = f", {len(faults)} of them wrong" if faults else ""
    return f"{said} of the stored cases{wrong}", faults


def block_of(page, kind, number=0):
    """A fenced block of a page, by its kind and its number among these."""
    return re.findall(rf"(?ms)^```{kind}\n(.*?)^```$", read(page))[number]
