"""tools/run whole

Runs the whole gate: `rt ci`, and beside it the mutants and the parts that need no proof. The parts
that need the proved programs run after `rt ci`. It prints the minutes, the processor time and the
largest process of each part, and a line on the budget. The status is 0 where each part ended well.
"""
import collections
import os
import subprocess
import sys
import tempfile
import threading
import time

from gate.files import ROOT, read, write

# The parts that run beside `rt ci`, and those after it: a name, and a command of tools/run.
BESIDE = (
    ("tests of the gate", "test"),
    ("quotes", "quotes"),
    ("pages", "pages"),
    ("graph of crates", "crates"),
)
AFTER = (
    ("borrows", "borrows"),
    ("commands of the pages", "guide"),
    ("replays of lrtab", "replay"),
    ("replays of lrshow", "replay-lrshow"),
    ("replays by parse tables", "replay-by-table"),
    ("replays by the data of lrshow", "replay-by-data"),
    ("listings of the data of lrshow", "report-of-data"),
    ("warnings of lrshow", "warnings"),
    ("hostile runs of lrtab and lrshow", "hostile"),
    ("growths refused in turn", "growths"),
    ("case files with faults", "case-files"),
    ("calls from C, Rust and Python", "callers"),
    ("generated parsers in C, Rust and Python", "generated"),
)
# Minutes by the clock for a number of processors or more, and minutes of processor time.
CLOCK, PROCESSORS = {4: 110, 0: 130}, 200

Part = collections.namedtuple("Part", "name seconds minutes gigabytes status")


def run(name, command, pass_on=print, nice=0):
    """Runs a part, and passes on each line that it prints."""
    began = time.time()
    how = {"stdin": subprocess.DEVNULL, "stdout": subprocess.PIPE, "stderr": subprocess.STDOUT}
    with subprocess.Popen(command, text=True, errors="replace", preexec_fn=lambda: os.nice(nice), **how) as ran:
        for line in ran.stdout:
            pass_on(line.rstrip("\n"))
        _, status, used = os.wait4(ran.pid, 0)
        ran.returncode = os.waitstatus_to_exitcode(status)
    minutes = (used.ru_utime + used.ru_stime) / 60
    return Part(name, time.time() - began, minutes, used.ru_maxrss / 1e6, ran.returncode)


def line_of(part):
    end = "ok" if part.status == 0 else "FAILED"
    return (
        f"{part.name}: {part.seconds:.0f} seconds, {part.minutes:.1f} minutes of processor time, "
        f"{part.gigabytes:.1f} GB in the largest process, {end}"
    )


def budget_line(seconds, minutes, processors):
    """A line on the whole. A gate that takes longer than its budget has not failed."""
    clock = next(CLOCK[it] for it in sorted(CLOCK, reverse=True) if processors >= it)
    is_over = seconds / 60 > clock or minutes > PROCESSORS
    return (
        f"whole: {seconds / 60:.0f} minutes on {processors} processors, {minutes:.0f} of processor time: "
        f"{'OVER' if is_over else 'within'} the budget of {clock} and {PROCESSORS} minutes"
    )


class Whole:
    """A run of the gate: what each part printed, and how it ended."""

    def __init__(self, root, room):
        self.root, self.room, self.parts, self.printed = root, room, [], {}

    def command(self, name, *words, pass_on=print, nice=0):
        self.parts.append(run(name, [f"{self.root}/tools/run", *words], pass_on, nice))

    def in_silence(self, name, *words):
        """Runs a part with less right to the processors, and keeps what it prints for the end."""
        lines = self.printed.setdefault(name, [])
        self.command(name, *words, pass_on=lines.append, nice=10)

    def rt_ci(self):
        """Runs `rt ci`. What it prints goes to the file `said`, too, and then its end to `status`."""
        with open(f"{self.room}/said", "w", encoding="utf-8") as said:

            def pass_on(line):
                print(line, flush=True)
                print(line, file=said, flush=True)

            part = run("rt ci", ["rt", "ci"], pass_on)
        write(f"{self.room}/status", f"{part.status}\n")
        self.parts.append(part)

    def run(self):
        """Runs all parts, and returns whether each ended well."""
        began = time.time()
        beside = [
            threading.Thread(target=self.in_silence, args=("mutants", "mutants", "--beside", self.room)),
            threading.Thread(target=lambda: [self.in_silence(*it) for it in BESIDE]),
        ]
        for it in beside:
            it.start()
        self.rt_ci()
        for name, word in AFTER:
            self.command(name, word)
        for it in beside:
            it.join()
        self.report(time.time() - began)
        return all(it.status == 0 for it in self.parts)

    def report(self, seconds):
        """Prints what was kept for the end, how the parts ended, and the last line of `rt ci`."""
        for name, lines in self.printed.items():
            print(f"--- {name}", *lines, sep="\n")
        print("---", *map(line_of, self.parts), sep="\n")
        print(budget_line(seconds, sum(it.minutes for it in self.parts), len(os.sched_getaffinity(0))))
        print(*read(f"{self.room}/said").splitlines()[-1:], sep="\n", flush=True)


def main(words, root=ROOT):
    if words:
        print(__doc__)
        return 2
    sys.stdout.reconfigure(line_buffering=True)
    os.chdir(root)
    with tempfile.TemporaryDirectory(prefix="gate-") as room:
        return 0 if Whole(root, room).run() else 1
