"""Tries mutants of one crate, many by one run of `rt check`.

The proof of a function rests on the contracts of what it calls, and not on their bodies, so each
mutated function has a verdict of its own. Most mutants are tried as functions beside the original,
which stays as it is. The others are tried in its place, one mutant of each function by one run.
Where a function has no proof by hand, the start of its proof gives the verdict: it is one search,
nothing else is proved, and it writes a file of answers where a goal stays open. The other functions
are checked. There a function that calls a refused one waits for the next check.
"""
import os
import re
import time

from gate.files import read
from gate.mutants.copies import put_beside, take_away
from gate.mutants.mutant import apply, restore
from gate.mutants.scratch import said_of
from gate.mutants.verdicts import PROVED, REFUSED, UNSAID, WAITS
from gate.mutants.verdicts import blamed, errors_of, has_ended, told, verdict, verdict_of_start

# The flags before a function whose proof is started, and before one that is checked.
START, ONLY = "--start", "--only"
# How many characters of a check are shown where it gives no verdict.
SHOWN = 3000


def has_answers(crate, function):
    """Whether the proof of the function has answers by hand."""
    return os.path.exists(f"{crate}/proofs/{function.replace('::', '/')}/Answers.antt")


def copies_that_fail(crate, copies, said):
    """The copies in which an error line of a check lies, each with that line."""
    found = {}
    for line in errors_of(said):
        place = re.match(r"(?:\./)?(\S+?):(\d+):\d+: ", line)
        if place and os.path.isfile(f"{crate}/{place[1]}"):
            above = "\n".join(read(f"{crate}/{place[1]}").split("\n")[: int(place[2])])
            names = re.findall(r"\bfn (\w+)", above)[-1:] + re.findall(r"/(\w+_mutant_\d+)/", place[1])
            found.update({it: line for it in copies if it.new in names})
    return found


class Trial:
    """A trial of some mutants of a crate. Those that `kept` has were refused by an earlier run."""

    def __init__(self, name, mutants, kept):
        self.name, self.crate, self.kept = name, None, kept
        self.count, self.refused, self.wrong = len(mutants), [], []
        self.refused += [it for it in mutants if kept.has(it)]
        self.left = [it for it in mutants if it not in self.refused]
        self.known, self.checks = len(self.refused), 0
        self.seconds = self.used = 0.0

    def complain(self, mutant, why):
        self.wrong.append(f"{mutant.name}: {why}")
        print(self.wrong[-1], flush=True)

    def settle(self, mutants):
        self.left = [it for it in self.left if it not in mutants]

    def judge(self, mutant, found):
        """Settles a mutant that is refused or let through."""
        if found == PROVED:
            self.complain(mutant, "NOT REFUSED")
        if found == REFUSED:
            self.refused.append(mutant)
            self.kept.keep(mutant)
        if found in (PROVED, REFUSED):
            self.settle([mutant])

    def said_of(self, flag, functions):
        """What `rt check` prints with the flag before each of these functions."""
        said, used = said_of(self.crate, flag, functions)
        self.checks, self.used = self.checks + 1, self.used + used
        return said

    def edited(self, flag, mutants):
        """Checks with these mutants in their places, or those of them that go together. Returns
        them and what the check prints."""
        taken, were = apply(self.crate, mutants)
        try:
            return taken, self.said_of(flag, {it.function for it in taken})
        finally:
            restore(were)

    def verdicts_of(self, copies):
        """The verdicts on the copies, by starts and by a check, and the copies that do not compile."""
        found = {}
        answered = {it.function for it in copies if has_answers(self.crate, it.function)}
        started = {it.function for it in copies} - answered
        for flag, some, read_one in ((START, started, verdict_of_start), (ONLY, answered, verdict)):
            said = self.said_of(flag, some) if some else ""
            if some and not has_ended(said):
                faulty = copies_that_fail(self.crate, copies, said)
                print(f"{self.name}: a check of copies did not end: {errors_of(said)[:1]}", flush=True)
                return {}, faulty
            found.update({it: read_one(self.name, it, said) for it in some})
        return found, {}

    def read(self, taken, said):
        """Settles each mutant of which the check prints something, and returns whether it did."""
        verdicts = {it: verdict(self.name, it.function, said) for it in taken}
        for it in taken:
            self.judge(it, verdicts[it])
            if verdicts[it] == UNSAID:
                shown = told(self.name, it.function, said)
                self.complain(it, f"the check prints nothing of {it.function}: {shown}")
        settled = [it for it in taken if verdicts[it] != WAITS]
        self.settle(settled)
        return bool(settled)

    def drop(self, taken, said):
        """Settles the mutants that kept a check from its end, and returns whether there was one."""
        bad = blamed(taken, said)
        for it in bad:
            self.complain(it, f"with the mutants of {it.file} the check does not end: {errors_of(said)[0]}")
        self.settle(bad)
        return bool(bad)

    def turn(self):
        """Makes one check, and returns whether it settled a mutant."""
        taken, said = self.edited(ONLY, self.left)
        is_whole = has_ended(said)
        if self.read(taken, said) if is_whole else self.drop(taken, said):
            return True
        for it in self.left:
            self.complain(it, "refused only since another function is" if is_whole else "its check did not end")
        self.wrong.append(f"{self.name}: the last check printed:\n{said[-SHOWN:]}")
        return False

    def try_copies(self):
        """Tries those mutants that can be functions beside the original. The others are left."""
        found, faulty = self.tried_beside(self.left)
        while faulty:
            for copy, line in faulty.items():
                self.complain(copy.mutant, f"it does not compile: {line}")
            self.settle([it.mutant for it in faulty])
            found, faulty = self.tried_beside(self.left)
        for mutant, verdict_found in found.items():
            self.judge(mutant, verdict_found)

    def tried_beside(self, mutants, is_edited=True):
        """The verdicts on mutants as functions of their own, and the copies that do not compile."""
        copies, were, folders = put_beside(self.crate, mutants, is_edited)
        try:
            found, faulty = self.verdicts_of(copies)
        finally:
            take_away(were, folders)
        return {it.mutant: found.get(it.function, UNSAID) for it in copies}, faulty

    def try_starts(self):
        """Tries those mutants in their places that are left and have no answers by hand."""
        waiting = [it for it in self.left if not has_answers(self.crate, it.function)]
        while waiting:
            taken, said = self.edited(START, waiting)
            waiting = [it for it in waiting if it not in taken]
            for it in taken if has_ended(said) else []:
                self.judge(it, verdict_of_start(self.name, it.function, said))

    def try_unedited(self, crate):
        """Tries one unedited copy of each function. Each must be proved, so that a copy is refused
        for its edit alone."""
        self.crate = crate
        first = {it.function: it for it in reversed(self.left)}
        found, _ = self.tried_beside([*first.values()], is_edited=False)
        self.count = len(found)
        for it, verdict_found in found.items():
            if verdict_found != PROVED:
                self.complain(it, f"a copy of {it.function} as it stands is not proved")

    def run(self, crate):
        """Tries all that are left, in the crate in this scratch folder."""
        began, self.crate = time.time(), crate
        for tries in (self.try_copies, self.try_starts):
            if self.left:
                tries()
                self.tell()
        while self.left and self.turn():
            self.tell()
        self.seconds = time.time() - began

    def tell(self):
        done = self.count - len(self.left)
        print(f"{self.name}: {done} of {self.count} mutants tried, by {self.checks} checks", flush=True)

    def took(self):
        known = f" ({self.known} refused by earlier runs on the same files)" if self.known else ""
        time_taken = f"{self.seconds / 60:.1f} minutes, {self.used / 60:.1f} of processor time"
        return f"{self.name}: {self.count} mutants{known}, {self.checks} checks: {time_taken}"

    def was_not_made(self, why):
        """Reports that the trial was not made, since a library below the crate is not proved."""
        self.left, self.wrong = [], [f"{self.name}: its mutants were not tried: {why}"]
