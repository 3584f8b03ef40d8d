"""tools/run borrows

A view of an item lives as long as the grammar and no longer. In a scratch copy of the crate of
items the module view_outlives_grammar.txt must be refused, with the borrow checker's error for a
value that is moved while it is borrowed. Without its line `drop(grammar);` the module must compile,
so that it is refused for that line alone. Nothing is proved for either. The crates below are taken
as they were proved here by `rt ci` or by `rt check` in a crate above.
"""
import subprocess
import tempfile

from gate.files import ROOT, read, write
from gate.mutants.scratch import Libraries, prepared

CRATE, MODULE = "lalrpop_states", "view_outlives_grammar"
MOVE, ERROR = "    drop(grammar);\n", "error[borrow-e0505]"


def compiled(root, module):
    """What the compiler prints of a copy of the crate that has this module too, and its status."""
    with tempfile.TemporaryDirectory(prefix="borrows-") as room:
        crate = prepared(CRATE, root, room, False, Libraries(root, f"{room}/libraries"))
        write(f"{crate}/src/{MODULE}.rt", module)
        head, tactic, rest = read(f"{crate}/src/lib.rt").partition("#![tactic(auto)]\n")
        write(f"{crate}/src/lib.rt", f"{head}{tactic}mod {MODULE};\n{rest}")
        how = {"stdin": subprocess.DEVNULL, "stdout": subprocess.PIPE, "stderr": subprocess.STDOUT}
        ran = subprocess.run(["rt", "check", "--only="], cwd=crate, text=True, check=False, **how)
        return ran.stdout, ran.returncode


def main(words, root=ROOT):
    if words:
        print(__doc__)
        return 2
    module = read(f"{root}/tools/gate/{MODULE}.txt")
    said, status = compiled(root, module)
    if status == 0 or ERROR not in said:
        print(f"borrows: {MODULE} was not refused for its borrow:\n{said}")
        return 1
    said, status = compiled(root, module.replace(MOVE, ""))
    if status:
        print(f"borrows: {MODULE} does not compile without its line `{MOVE.strip()}`:\n{said}")
        return 1
    print(f"borrows: {MODULE} is refused for its borrow, and compiles without it")
    return 0
