"""What a check, or the start of a proof, prints of a mutated function."""
import re

REFUSED, PROVED, WAITS, UNSAID = "refused", "proved", "waits", "unsaid"


def told(crate, function, said):
    """What the check prints of the function, or None."""
    line = re.search(rf"(?m)^fn {re.escape(crate)}::{re.escape(function)}: (.*)$", said)
    return line[1] if line else None


def verdict(crate, function, said):
    """REFUSED where the function's own proof fails, PROVED where it does not, WAITS where the check
    prints only that a function or an impl that it uses is refused, or another function of its cycle
    of calls, and else UNSAID."""
    line = told(crate, function, said)
    if line is None:
        return UNSAID
    if line.startswith("proved"):
        return PROVED
    other = re.search(r"in `([^`]*)`, of this cycle of calls", line)
    if other and other[1] != f"{crate}::{function}":
        return WAITS
    if line.startswith("no proof: expected answers"):
        return REFUSED
    if re.search("which (is|are) not proved", line):
        return WAITS
    return REFUSED if line.startswith("not proved") else UNSAID


def verdict_of_start(crate, function, said):
    """REFUSED where the start of the function's proof leaves goals to prove by hand and no loop
    that lacks an invariant, PROVED where it leaves nothing, and else UNSAID."""
    path = re.escape(function.replace("::", "/"))
    wrote = re.findall(rf"(?m)^wrote \./proofs/{path}/(\w+)\.antt$", said)
    if wrote:
        return REFUSED if wrote == ["Answers"] else UNSAID
    # (no other: where an invariant stands there already)
    none = rf"(?m)^note: `{re.escape(crate)}::{re.escape(function)}` needs no (other )?file: "
    return PROVED if re.search(none, said) else UNSAID


def has_ended(said):
    """Whether a check or the starts of proofs came to their end, so that the lines count."""
    return re.search(r"(?m)^(only=\d+ proved|started)=\d+$", said) is not None


def errors_of(said):
    """The error lines of a check."""
    return [it for it in said.splitlines() if re.search(r"\berror\b", it)]


def blamed(mutants, said):
    """Of the mutants those that an error line names by the function or by the file, where the check
    did not come to its end."""
    errors = errors_of(said)
    named = {name for it in errors for name in re.findall(r"`([^`]*)`", it)}
    files = {found[1] for it in errors for found in [re.match(r"(?:\./)?(\S+?):\d+:\d+: ", it)] if found}
    return [it for it in mutants if it.function in named or it.file in files]
