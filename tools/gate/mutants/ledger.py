"""The ledger of a crate's mutants: for each the checksum of what its refusal rested on.

The file crates/CRATE/mutants/ledger.txt has a line `PLACE SUM SEAL` for each mutant, in the order
of their places. SUM is the checksum of the mutant's basis when the prover was last seen to refuse
it. SEAL is a checksum of the line itself, so that an edit by hand shows. Only `tools/run mutants
--write` writes the file, after a refusal.
"""
import hashlib
import os

from gate.files import read, write

NAME = "mutants/ledger.txt"
HELP = "`tools/run mutants --write` tries it and writes the line"


def seal_of(crate, place, own_sum):
    return hashlib.sha256(f"{crate} {place} {own_sum}".encode()).hexdigest()[:12]


class Ledger:
    """The lines of one crate's ledger: the checksums by place, and what is wrong with lines, by place."""

    def __init__(self, root, crate, places):
        self.path, self.crate = f"{root}/crates/{crate}/{NAME}", crate
        self.sums, self.faults, self.unknown = {}, {}, set()
        for line in read(self.path).splitlines() if os.path.isfile(self.path) else []:
            self.take(line, places)
        for it in places:
            if it not in self.sums and it not in self.faults:
                self.faults[it] = "the ledger has no line for it"

    def take(self, line, places):
        place, own_sum, seal = [*line.split(" "), "", ""][:3]
        is_sealed = line == f"{place} {own_sum} {seal}" and seal == seal_of(self.crate, place, own_sum)
        if place in self.sums or place in self.faults:
            self.faults[place] = "the ledger has two lines for it"
            self.sums.pop(place, None)
        elif not is_sealed:
            self.faults[place] = "its line in the ledger was edited by hand"
        elif place not in places:
            self.faults[place] = "its line in the ledger names no mutant"
            self.unknown.add(own_sum)
        else:
            self.sums[place] = own_sum

    def complaints(self):
        """What is wrong with the ledger, a line for each mutant."""
        return [f"{self.crate}/{place}: {why} ({HELP})" for place, why in sorted(self.faults.items())]

    def write(self, sums):
        """Writes the ledger anew, with these checksums by place."""
        lines = [f"{place} {sums[place]} {seal_of(self.crate, place, sums[place])}\n" for place in sorted(sums)]
        write(self.path, "".join(lines))
