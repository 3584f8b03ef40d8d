"""tools/run mutants [--all] [--write [--since COMMIT]] [--anew] [--beside FOLDER | --unedited] [CRATE..]

Tries mutants of the crates named, or of all: the prover must refuse each. A mutant is an edit in
crates/CRATE/mutants/MODULE/NAME.edit that turns the meaning of a function.

Tried are the mutants whose basis changed since their last refusal: the mutant itself, the function,
its contract, its proof files, the contracts of the functions that it calls, and the definitions and
types that these contracts name. The ledgers crates/CRATE/mutants/ledger.txt hold the checksums. 20
others are tried too, chosen by the hash of the commit.

  --all       tries all mutants
  --write     writes the refusals into the ledgers, and tries no mutant whose basis is as it was
  --since C   keeps the refusals at the commit C whose basis had all that the basis has now
  --anew      tries what it tries again, although an earlier run on this machine refused the same
  --beside F  runs beside `rt ci`, which writes what it prints to F/said and its end to F/status
  --unedited  tries copies of functions without the edits: each must be proved

Each crate is tried in a scratch repository, over the libraries below it as they were proved here by
`rt ci` or by `rt check` in a crate above. The status is 0 where all that were tried are refused and
the ledgers are in order.
"""
import argparse
import hashlib
import os
import re
import subprocess
import tempfile
import time
from concurrent.futures import ThreadPoolExecutor
from threading import BoundedSemaphore

from gate.files import ROOT, below, listed, named
from gate.mutants.basis import Repository
from gate.mutants.kept import Kept
from gate.mutants.ledger import Ledger
from gate.mutants.mutant import mutants_of
from gate.mutants.progress import Progress
from gate.mutants.scratch import Libraries, NotProved, prepared
from gate.mutants.since import still_refused
from gate.mutants.trial import Trial

# How many mutants are tried of which nothing changed.
OTHERS = 20
# How many crates are tried side by side at most, and the memory for each, in kilobytes.
LANES, EACH = 3, 6_000_000


def lanes_now():
    """How many crates are tried side by side, by the memory that is free."""
    with open("/proc/meminfo", encoding="ascii") as it:
        free = int(re.search(r"MemAvailable:\s+(\d+)", it.read())[1])
    return max(1, min(LANES, free // EACH))


class Mutants:
    """The mutants of a crate: with faults, by checksum, and what its ledger has."""

    def __init__(self, root, crate, repository):
        folder, every = f"{root}/crates/{crate}", mutants_of(f"{root}/crates/{crate}")
        faults = {it: it.fault(folder) for it in every}
        self.crate, self.wrong = crate, [f"{it.name}: {why}" for it, why in faults.items() if why]
        self.sums = {it: repository.sum_of(it) for it in every if not faults[it]}
        self.ledger = Ledger(root, crate, [it.place for it in every])

    def changed(self):
        """Those that the ledger lacks, or has with another checksum."""
        return [it for it in self.sums if self.ledger.sums.get(it.place) != self.sums[it]]

    def record(self, refused, moved):
        """Writes the ledger: what it had of mutants that are as they were, what is refused now, and
        what was refused under another name, whose checksums are `moved`."""
        known = [it for it in self.sums if self.ledger.sums.get(it.place) == self.sums[it]]
        news = [it for it in self.sums if it in refused or self.sums[it] in moved]
        self.ledger.write({it.place: self.sums[it] for it in [*known, *news]})


def commit_of(root):
    """The hash of the commit, or "" where there is none."""
    asked = ["git", "-C", root, "rev-parse", "HEAD"]
    return subprocess.run(asked, capture_output=True, text=True, check=False).stdout.strip()


def some_of(mutants, count, commit):
    """So many of the mutants, chosen by the commit."""
    return sorted(mutants, key=lambda it: hashlib.sha256(f"{commit} {it.name}".encode()).hexdigest())[:count]


def choice(crates, how, root, kept):
    """The mutants that are tried, and a line about them."""
    every = [it for crate in crates for it in crate.sums]
    if how.all or how.unedited:
        return every, f"mutants: all {len(every)} are tried"
    moved = {it for crate in crates for it in crate.ledger.unknown} if how.write else set()
    changed = [it for crate in crates for it in crate.changed() if crate.sums[it] not in moved and it not in kept]
    commit = commit_of(root)
    others = [] if how.write else some_of([it for it in every if it not in changed], OTHERS, commit)
    beside = f", and {len(others)} others by commit {commit[:8] or 'none'}" if others else ""
    line = f"mutants: of {len(every)} are tried {len(changed)} of which something changed{beside}"
    return [*changed, *others], line


def tried(root, name, mutants, how, lanes, libraries, progress):
    """Tries mutants of one crate, once the libraries below it are proved and a lane is free."""
    trial = Trial(name, mutants, Kept(name, root, how.anew))
    try:
        if progress and trial.left:
            progress.wait_for(below(name, named(root)))
        with lanes, tempfile.TemporaryDirectory(prefix="mutants-") as room:
            if trial.left:
                crate = prepared(name, root, room, not how.beside, libraries)
                trial.try_unedited(crate) if how.unedited else trial.run(crate)
    except NotProved as why:
        trial.was_not_made(why)
    print(trial.took(), flush=True)
    return trial


def given(words):
    parser = argparse.ArgumentParser(prog="tools/run mutants", usage=__doc__, add_help=False)
    for flag in ("--all", "--write", "--anew", "--unedited"):
        parser.add_argument(flag, action="store_true")
    parser.add_argument("--beside", metavar="FOLDER")
    parser.add_argument("--since", metavar="COMMIT")
    parser.add_argument("--head-start", type=float, default=30.0)
    parser.add_argument("crates", metavar="CRATE", nargs="*")
    how = parser.parse_args(words)
    if how.unedited:
        how.anew = True
    return how


def main(words, root=ROOT):
    how, repository = given(words), Repository(root)
    names = [it for it in listed(root) if os.path.isdir(f"{root}/crates/{it}/mutants")]
    unknown = [it for it in how.crates if it not in names]
    if unknown:
        print(f"mutants: no crate {unknown[0]} has any; these have: {', '.join(names)}")
        return 2
    crates = [Mutants(root, it, repository) for it in how.crates or names]
    changed = [it for crate in crates for it in crate.changed()]
    kept = still_refused(root, how.since, repository, changed) if how.write and how.since else set()
    chosen, line = choice(crates, how, root, kept)
    print(line, flush=True)
    if how.beside:
        # (rt ci gives out its jobs by the memory that is free when it begins)
        time.sleep(how.head_start)
    parts = [(it.crate, [one for one in chosen if one in it.sums]) for it in crates]
    lanes = BoundedSemaphore(lanes_now())
    with tempfile.TemporaryDirectory(prefix="libraries-") as room, ThreadPoolExecutor(max(len(parts), 1)) as pool:
        libraries = Libraries(root, room)
        progress = Progress(how.beside) if how.beside else None
        trials = list(pool.map(lambda it: tried(root, *it, how, lanes, libraries, progress), [it for it in parts if it[1]]))
    return ended(crates, trials, how, kept)


def ended(crates, trials, how, kept):
    """Writes the ledgers where that is asked for, prints how the trials ended, and returns the status."""
    refused = [it for trial in trials for it in trial.refused]
    wrong = [line for it in [*crates, *trials] for line in it.wrong]
    if how.write:
        moved = {it for crate in crates for it in crate.ledger.unknown}
        for crate in crates:
            crate.record([*refused, *kept], moved)
    elif not how.unedited:
        wrong += [line for crate in crates for line in crate.ledger.complaints()]
        stale = [it for crate in crates for it in crate.changed() if it in refused and it.place in crate.ledger.sums]
        if stale:
            print(f"mutants: the ledgers are older than {len(stale)} mutants: `tools/run mutants --write` renews them")
    count = sum(it.count for it in trials)
    good = f"all {count} {'proved without their edits' if how.unedited else 'refused'}"
    print("\n".join([*wrong, f"mutants: {'FAILED' if wrong else good}"]))
    return 1 if wrong else 0
