"""Refusals at an earlier commit that still hold.

A mutant that moved keeps its refusal where its basis has nothing that the basis did not have when it
was refused: the mutant, the function and the proof files are the same, and no contract, definition
or type is new. So after the split of a crate, whose functions see fewer crates, only those mutants
are tried of which something changed. The ledgers of the commit are read by its own modules.
"""
import json
import os
import subprocess
import sys
import tempfile

from gate.files import listed
from gate.mutants.basis import Repository
from gate.mutants.ledger import Ledger
from gate.mutants.mutant import mutants_of

TOOLS = os.path.realpath(f"{os.path.dirname(__file__)}/../..")
SAME, WITHIN = ("mutant", "function", "proofs"), ("contracts", "meanings")
# Run by the modules of the commit: the checksum of each mutant, by crate and place.
SUMS = """
import json, os, sys
from gate.files import listed
from gate.mutants.basis import Repository
from gate.mutants.mutant import mutants_of
root, found = sys.argv[1], {}
repository = Repository(root)
for crate in listed(root):
    if os.path.isdir(f"{root}/crates/{crate}/mutants"):
        folder = f"{root}/crates/{crate}"
        found[crate] = {it.place: repository.sum_of(it) for it in mutants_of(folder) if not it.fault(folder)}
print(json.dumps(found))
"""


def checked_out(root, commit, room):
    """The files of the commit, in the folder."""
    with subprocess.Popen(["git", "-C", root, "archive", commit], stdout=subprocess.PIPE) as made:
        subprocess.run(["tar", "-x", "-C", room], stdin=made.stdout, check=True)
    if made.returncode:
        raise ValueError(f"there is no commit {commit}")


def sums_of(tree):
    """The checksums of the mutants of a tree, by the modules that it has, or by these if it has none."""
    own = f"{tree}/tools" if os.path.isdir(f"{tree}/tools/gate") else TOOLS
    how = {"capture_output": True, "text": True, "check": True, "env": {**os.environ, "PYTHONPATH": own}}
    return json.loads(subprocess.run([sys.executable, "-c", SUMS, tree], **how).stdout)


def key_of(mutant, basis):
    """By what a mutant is found again under another place: its name, its function and its edit."""
    return repr((mutant.place.rpartition("/")[2], basis["mutant"]))


def refused_at(tree):
    """The bases of the mutants of a tree whose lines in its ledgers agree, by their keys."""
    repository, sums, found = Repository(tree), sums_of(tree), {}
    for crate in [it for it in listed(tree) if it in sums]:
        ledger = Ledger(tree, crate, [*sums[crate]])
        for it in mutants_of(f"{tree}/crates/{crate}"):
            if it.place in sums[crate] and ledger.sums.get(it.place) == sums[crate][it.place]:
                basis = repository.basis(it)
                found.setdefault(key_of(it, basis), []).append(basis)
    return found


def holds(earlier, now):
    """Whether a refusal that rested on the earlier basis is one of a mutant with this one."""
    return all(earlier[it] == now[it] for it in SAME) and all(set(now[it]) <= set(earlier[it]) for it in WITHIN)


def still_refused(root, commit, repository, mutants):
    """Those of the mutants that were refused at the commit, and of which nothing changed since."""
    with tempfile.TemporaryDirectory(prefix="since-") as room:
        checked_out(root, commit, room)
        earlier = refused_at(room)
    bases = {it: repository.basis(it) for it in mutants}
    return {it for it in mutants if any(holds(was, bases[it]) for was in earlier.get(key_of(it, bases[it]), ()))}
