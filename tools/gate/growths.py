"""tools/run growths [PROGRAM [DATA]]

Asks the public calls while memory ends in them, and each case of the bench under a stack of 1 MB.
PROGRAM is crates/lalrpop_bench/out/lalrpop_bench, which `rt ci` and `rt run` leave there.
DATA is the folder of case files crates/lalrpop_bench/data. Others can be given.
The first cases of each call are asked over and over, each time with a little more memory. Each time
but the last the program must report that memory ended, and nothing else. The last time it must
return what is expected. The status is 0 where that is so. Each call of the files must also meet a
refused growth, and all cases must agree under the small stack.
"""
import collections
import glob
import os
import re
import subprocess
import textwrap

from gate.files import ROOT
from gate.programs import STACK, arguments, program_of, small_stack

# How many seconds a run has.
LIMIT = 600


def files(data):
    """The case files, by their names: worked cases come first."""
    names = glob.glob("**/*.cases", root_dir=data, recursive=True)
    return sorted(names, key=lambda it: (not it.startswith("worked_"), it))


def calls(data, names):
    """The calls that the files ask, in the order of their names."""
    found = set()
    for name in names:
        with open(f"{data}/{name}", encoding="utf-8", errors="replace") as it:
            found.update(re.findall(r"^ask (\S+)", it.read(), re.MULTILINE))
    return sorted(found)


def result_of(data, words):
    """What the program prints, line by line, and its status."""
    ended = subprocess.run(words, cwd=data, stdout=subprocess.PIPE, timeout=LIMIT, check=False)
    return ended.stdout.decode(errors="replace").splitlines(), ended.returncode


def sums(lines):
    """How many turns were refused of each call, over its cases; and the other lines."""
    counts, others = collections.Counter(), []
    for line in lines:
        if found := re.fullmatch(r"(\S+).*: ([0-9]+) turns refused", line):
            counts[found[1]] += int(found[2])
        else:
            others.append(line)
    return counts, others


def main(words):
    program, data = arguments(words, __doc__, None, f"{ROOT}/crates/lalrpop_bench/data")
    program, data = program_of("lalrpop_bench", program), os.path.abspath(data)
    names = files(data)
    refused, status = result_of(data, [program, "refuse", *names])
    (counts, others), asked = sums(refused), calls(data, names)
    each = ", ".join(f"{it} {counts[it]}" for it in asked)
    print(*textwrap.wrap(f"turns refused: {each}", 120), *others, sep="\n")
    never = [it for it in asked if not counts[it]]
    if never or not asked:
        print(f"no growth was refused: {', '.join(never) or 'no call is asked'}")
    with small_stack():
        agreed, other = result_of(data, [program, *names])
    print(f"under a stack of {STACK} bytes: {agreed[-1] if agreed else 'nothing'}")
    return 1 if status or other or never or not asked else 0
