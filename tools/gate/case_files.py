"""tools/run case-files [PROGRAM]

Tries `lalrpop_bench` on case files that are faulty, that differ in a letter, and that lost a case.
PROGRAM is crates/lalrpop_bench/out/lalrpop_bench, which `rt ci` and `rt run` leave there. Another
can be given. The status is 0 where it prints and ends as expected for each.
"""
import subprocess
import tempfile

from gate.programs import arguments, program_of

# A case that agrees, which is five lines, and its first three.
ASK = 'grammar\nS = "x"\nask first0 S\n'
BLOCK = f'{ASK}tokens "x"\nend\n'
ONE = "a.cases: 1 agree, 0 differ\n1 agree, 0 differ\n"
DIFFERS = "a.cases: 0 agree, 1 differ\n0 agree, 1 differ\n"
# Texts of a.cases with one fault and a case that agrees, and what is printed of the fault's line.
FAULTS = {
    "a wrong head":
        (f"gramar\nS =\nask first0 S\ntokens Eof\nend\n{BLOCK}", "1: neither a remark nor the head of a block"),
    "an unknown call": (f'grammar\nS = "x"\nask first2 S\nend\n{BLOCK}', "3: no call is named first2"),
    "a missing argument": (f'grammar\nS = "x"\nask build_states S\nend\n{BLOCK}', "3: argument 2 of build_states"),
    "a block without a question": (f'grammar\nS = "x"\nend\n{BLOCK}', "3: a block without a question"),
    "an expected text that does not end": (f'{BLOCK}{ASK}tokens "x"\n', "10: the last block has no end"),
    "an expected text that does not end before the next block":
        (f'{ASK}tokens "x"\n{BLOCK}', "5: the block before has no end"),
}
# Each trial: the text of a.cases, what is printed, the status, and arguments other than a.cases.
TRIALS = {
    "a case that agrees": (BLOCK, ONE, 0),
    "remarks and empty lines": (f"# A remark.\n\n{BLOCK}\n", ONE, 0),
    "a case that is lost": ("# A remark.\n", "a.cases: 0 agree, 0 differ\n0 agree, 0 differ\n", 0),
    "a changed letter": (
        f'{ASK}tokens "y"\nend\n',
        f'a.cases, line 3: ask first0 S\n  expected: tokens "y"\n  returned: tokens "x"\n{DIFFERS}', 1),
    "an expected line too many": (
        f'{ASK}tokens "x"\nmore\nend\n',
        f"a.cases, line 3: ask first0 S\n  expected: more\n  returned: \n{DIFFERS}", 1),
    **{name: (text, f"a.cases, line {fault}\n{ONE}", 2) for name, (text, fault) in FAULTS.items()},
    "bytes that are not UTF-8": (
        f'grammar\nS = "\udcff"\nask first0 S\ntokens -\nend\n{BLOCK}',
        "a.cases, line 2: not UTF-8\na.cases, line 3: ask first0 S\n  expected: tokens -\n"
        '  returned: tokens "\ufffd"\na.cases: 1 agree, 1 differ\n1 agree, 1 differ\n', 2),
    "a file that cannot be read": (BLOCK, f"b.cases: cannot be read\n{ONE}", 2, "b.cases", "a.cases"),
}


def result_of(program, words, text):
    """What the program prints and its status, in a new folder that holds a.cases."""
    with tempfile.TemporaryDirectory(prefix="cases-") as room:
        with open(f"{room}/a.cases", "w", encoding="utf-8", errors="surrogateescape") as it:
            it.write(text)
        ran = subprocess.run([program, *words], cwd=room, stdin=subprocess.DEVNULL, capture_output=True, timeout=60)
    return ran.stdout.decode(errors="replace"), ran.returncode


def main(words):
    program, faults = program_of("lalrpop_bench", *arguments(words, __doc__, None)), []
    for name, (text, expected, status, *others) in TRIALS.items():
        printed, ended = result_of(program, others or ["a.cases"], text)
        if (printed, ended) != (expected, status):
            faults.append(f"{name}: expected status {status} and\n{expected}but got status {ended} and\n{printed}")
    print(*faults, f"case files: {len(TRIALS) - len(faults)} as expected, {len(faults)} not", sep="\n")
    return 1 if faults else 0
