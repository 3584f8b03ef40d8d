"""tools/run hostile [LRTAB [LRSHOW]] [--only RUN..] [--seconds COUNT]
tools/run hostile --show RUN

Runs `lrtab` and `lrshow` on random texts and words, and on deep ones, each by both methods, under
limits of time, memory and stack. What is expected follows from docs/FORMATS.md and the input alone.
The programs are crates/lrtab/out/lrtab and crates/lrshow/out/lrshow, which `rt ci` and `rt run`
leave there, unless others are given. --only makes these runs alone, and --seconds gives each so
many seconds. --show prints the text and the words of a run, and makes none. A RUN is the number of
a random run or the name of a deep one. Runs of `lrshow` begin with `shown_`. The status is 0 where
no run ended by a signal, hung, or answered otherwise.
"""
import argparse
import functools
import itertools
import multiprocessing
import os

from gate.files import ROOT
from gate.hostile import trials

# How many inputs of each program are random, and how many faults are printed.
INPUTS, SHOWN_INPUTS, FAULTS = 10_000, 1_000, 10


def given(words):
    """What the command line asks for."""
    parser = argparse.ArgumentParser(prog="tools/run hostile", usage=__doc__, add_help=False)
    parser.add_argument("lrtab", nargs="?", default=f"{ROOT}/crates/lrtab/out/lrtab")
    parser.add_argument("lrshow", nargs="?", default=f"{ROOT}/crates/lrshow/out/lrshow")
    parser.add_argument("--show", metavar="RUN")
    numbers = [*map(str, range(INPUTS)), *(f"{trials.SHOWN}{it}" for it in range(SHOWN_INPUTS))]
    parser.add_argument("--only", metavar="RUN", nargs="+", default=[*trials.DEEP, *numbers])
    parser.add_argument("--seconds", metavar="COUNT", type=float)
    how = parser.parse_args(words)
    how.programs = [os.path.realpath(it) for it in (how.lrtab, how.lrshow)]
    return how


def wrong_usage(how):
    """Why the runs cannot be made, or None: one that there is not, or a program that is missing."""
    for run in [it for it in (how.show, *how.only) if it]:
        if not trials.is_random(run) and run not in trials.DEEP:
            return f"no run is {run}; the deep ones are {', '.join(trials.DEEP)}"
    needed = sorted({it.startswith(trials.SHOWN) for it in how.only}) if not how.show else []
    lacking = [how.programs[it] for it in needed if not os.access(how.programs[it], os.X_OK)]
    return f"{lacking[0]}: no such program (rt ci leaves one after all is proved)" if lacking else None


def folded(parts):
    """The parts, with a count in place of repeats."""
    runs = [(part, len(list(run))) for part, run in itertools.groupby(parts)]
    return [trials.cut(part) + (f" ({count} times)" if count > 1 else "") for part, count in runs]


def show(run):
    """Prints the text, the words and the limits of a run."""
    case = trials.case_of(run)
    print(f"a stack of {case.stack} bytes, memory of {case.memory} bytes, {case.seconds} seconds of processor time")
    print(f"by {' and '.join(case.methods)}, {trials.VARIABLE} for the lane way: {case.lane!r}")
    print("words:", *folded(it if isinstance(it, bytes) else it.encode() for it in case.words))
    lines = folded(case.text.splitlines(keepends=True))
    print(*(lines if len(lines) <= 40 else [*lines[:20], f".. ({len(lines)} in all)", *lines[-20:]]), sep="\n")


def main(words):
    how = given(words)
    if why := wrong_usage(how):
        print(why)
        return 2
    if how.show:
        show(how.show)
        return 0
    with multiprocessing.get_context("fork").Pool(os.cpu_count()) as pool:
        attempt = functools.partial(trials.attempt, how.programs, how.seconds)
        # (the deep ones begin first, since some take long)
        deeps = pool.imap(attempt, itertools.filterfalse(trials.is_random, how.only))
        randoms = pool.imap(attempt, filter(trials.is_random, how.only), 20)
        ran = [list(deeps), list(randoms)]
    deep_count, random_count = (sum(count for count, _ in it) for it in ran)
    faults = [fault for it in ran for _, some in it for fault in some]
    for fault in faults[:FAULTS]:
        print(f"{fault}\n    its text and words: tools/run hostile --show {fault.split()[2].rstrip(':')}")
    count = f"{len(faults) or 'none'} ended by a signal, hung, or answered outside docs/FORMATS.md"
    print(f"{random_count:,} random runs and {deep_count} deep ones: {count}")
    return 1 if faults else 0
