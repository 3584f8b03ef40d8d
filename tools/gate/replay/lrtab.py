"""tools/run replay [PROGRAM [CASES]]

Replays the stored cases of `lrtab`, and compares the status and both outputs byte for byte.
PROGRAM is crates/lrtab/out/lrtab, which `rt ci` and `rt run` leave there. CASES is the folder
crates/lrtab/cases, whose README.md says what it holds. Others can be given.
The stack is 1 MB. The status is 0 where all cases agree and are as many as the file `count` says.
"""
import collections
import concurrent.futures
import glob
import itertools
import json
import os
import subprocess
import tempfile

from gate.files import ROOT, read, write
from gate.programs import arguments, program_of, small_stack

CASES = f"{ROOT}/crates/lrtab/cases"
KINDS = ("parse", "report", "explain")
VARIABLE = "LALRPOP_LANE_TABLE"
# How many seconds a case has.
LIMIT = 60


def rows_of(path):
    return [json.loads(line) for line in read(path).split("\n") if line]


def read_cases(folder):
    """The cases of all files, in the order of their names, and the text of each grammar."""
    paths = sorted(glob.glob(f"{glob.escape(folder)}/cases_*.jsonl"))
    grammars = {row["file"]: row["text"] for row in rows_of(f"{folder}/grammars.jsonl")}
    return [case for path in paths for case in rows_of(path)], grammars


def kind_of(case):
    word = case["words"][1] if len(case["words"]) > 1 else ""
    return word if word in KINDS else "other"


def result_of(program, case, text):
    """The status and both outputs of the program, in a new folder that holds the grammar alone."""
    words = [it for it in (program, case["file"], *case["words"]) if it is not None]
    environment = {key: value for key, value in os.environ.items() if key != VARIABLE}
    environment |= {VARIABLE: "disabled"} if case["method"] == "Canonical" else {}
    with tempfile.TemporaryDirectory(prefix="replay-") as room:
        if text is not None:
            write(f"{room}/{case['file']}", text)
        how = {"cwd": room, "env": environment, "stdin": subprocess.DEVNULL, "timeout": LIMIT}
        try:
            ran = subprocess.run(words, capture_output=True, check=False, **how)
        except subprocess.TimeoutExpired:
            return {"status": f"none in {LIMIT} seconds", "stdout": b"", "stderr": b""}
    return {"status": ran.returncode, "stdout": ran.stdout, "stderr": ran.stderr}


def first_difference(case, result):
    """A text on the first line that differs, or None where all agrees."""
    for stream in ("stdout", "stderr"):
        lines = itertools.zip_longest(case[stream].encode().split(b"\n"), result[stream].split(b"\n"))
        for number, (expected, got) in enumerate(lines, 1):
            if expected != got:
                return f"{stream}, line {number}: expected {shown(expected)}, got {shown(got)}"
    if case["status"] != result["status"]:
        return f"status: expected {case['status']}, got {result['status']}"
    return None


def shown(line):
    return "no such line" if line is None else ascii(line.decode(errors="backslashreplace"))


def print_differences(results):
    """Prints the cases that differ, and returns how many agree and how many differ."""
    differ = [(case["name"], why) for case, why in results if why is not None]
    for name, why in differ:
        print(f"differs: {name}: {why}")
    return len(results) - len(differ), len(differ)


def print_kinds(results):
    """Prints how many cases agree, by their kind and method."""
    for kind, method in itertools.product((*KINDS, "other"), ("Lane", "Canonical")):
        found = [why for case, why in results if (kind_of(case), case["method"]) == (kind, method)]
        if found:
            print(f"{kind} by {method}: {found.count(None)} of {len(found)} agree")


def faults_of(folder, cases):
    """What is wrong with the folder itself: a lost case, or a name that stands twice."""
    names, count = collections.Counter(case["name"] for case in cases), int(read(f"{folder}/count"))
    faults = [f"there are {len(cases)} cases, but the file count says {count}"] if len(cases) != count else []
    return faults + [f"two cases are named {name}" for name, times in names.items() if times > 1]


def main(words):
    program, folder = arguments(words, __doc__, None, CASES)
    program = program_of("lrtab", program)
    cases, grammars = read_cases(folder)
    with concurrent.futures.ThreadPoolExecutor(os.cpu_count()) as pool, small_stack():
        ended = pool.map(lambda it: result_of(program, it, grammars.get(it["file"])), cases)
        results = [(case, first_difference(case, result)) for case, result in zip(cases, ended)]
    agree, differ = print_differences(results)
    print_kinds(results)
    faults = faults_of(folder, cases)
    print(*faults, f"replayed: {agree} agree, {differ} differ", sep="\n")
    return 1 if differ or faults else 0
