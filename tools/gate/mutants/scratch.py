"""Scratch repositories in which mutated crates are checked, over the libraries below as the
repository's own run proved them."""
import functools
import importlib.machinery
import importlib.util
import os
import shutil
import subprocess
import threading

from gate.files import below, files_below, named, read, write

PARTS = ("src", "specs", "proofs")
# How many processes a check has.
JOBS = 2


class NotProved(Exception):
    """A library below a crate that is not proved."""


def copied(name, root, room):
    """Copies the sources of a crate into a scratch repository."""
    for part in PARTS:
        if os.path.isdir(f"{root}/crates/{name}/{part}"):
            shutil.copytree(f"{root}/crates/{name}/{part}", f"{room}/crates/{name}/{part}")


def sums_of(root):
    """The sum of each crate's library: rt's sum of all that the library is made from. Each is made
    once, since rt would make the sum of a crate anew for each crate above it."""
    sums = {}
    for crate in toolchain().crates_below(root):
        sums[crate.name] = crate.stamp()
        crate.stamp = lambda made=sums[crate.name]: made
    return sums


def built_of(name, root, sums):
    """The folder of the library as it was proved and built in the repository."""
    rlib = f"{root}/crates/{name}/out/rlib"
    if not os.path.isdir(f"{rlib}/{name}.rlib"):
        raise NotProved(f"there is no proved {name}: run rt ci, or rt check in a crate above it")
    if os.path.isfile(f"{rlib}/stamp"):
        has_changed = read(f"{rlib}/stamp") != sums()[name]
    else:
        made = os.path.getmtime(f"{rlib}/{name}.rlib")
        sources = [it for part in PARTS for it in files_below(f"{root}/crates/{name}/{part}")]
        has_changed = any(os.path.getmtime(it) > made for it in sources)
    if has_changed:
        raise NotProved(f"{name} has changed since it was proved: run rt ci, or rt check in a crate above it")
    return rlib


class Libraries:
    """Copies of the proved libraries, each made once. Scratch repositories link to their files, so
    that they cost no time, and what is proved in the repository can't be changed from there."""

    def __init__(self, root, room):
        self.root, self.room, self.lock = root, room, threading.Lock()
        self.sums = functools.cache(lambda: sums_of(root))

    def link(self, name, folder):
        """Makes the folder of the library, as it was proved and built."""
        copy = f"{self.room}/{name}"
        with self.lock:
            if not os.path.isdir(copy):
                shutil.copytree(built_of(name, self.root, self.sums), f"{copy}.part")
                os.rename(f"{copy}.part", copy)
        shutil.copytree(copy, folder, copy_function=os.link)


def toolchain():
    """The toolchain's own module, which lies beside rt."""
    path = f"{os.path.dirname(os.path.realpath(shutil.which('rt')))}/rtlib.py"
    loader = importlib.machinery.SourceFileLoader("rtlib", path)
    made = importlib.util.module_from_spec(importlib.util.spec_from_loader("rtlib", loader))
    loader.exec_module(made)
    return made


def mark_as_built(names, room):
    """Has rt take the libraries in the scratch repository as they are: rt looks for a stamp, which
    has the sum of the library by the lines of crates.txt."""
    for crate in toolchain().crates_below(room):
        if crate.name in names:
            write(f"{crate.folder}/out/rlib/stamp", crate.stamp())


def lines_for(name, names, crates):
    """The lines of the scratch repository's crates.txt. The crate's own line names all libraries
    below it, and the line of a library names the kit's libraries alone. The libraries are built, so
    rt reads nothing below them. With their own lines, rt would make each sum anew at each mention."""
    of_kit = {it: [dep for dep in crates[it] if dep not in crates] for it in [*names, name]}
    lines = [f"{it}: {' '.join(of_kit[it])}\n" for it in names]
    return "".join([*lines, f"{name}: {' '.join([*names, *of_kit[name]])}\n"])


def prepared(name, root, room, keeps, libraries):
    """Makes the scratch repository of one crate, over the proved libraries below it, and returns
    the crate's folder. If it keeps, the checks begin from what an earlier check left."""
    crates = named(root)
    names = below(name, crates)
    os.makedirs(f"{room}/crates")
    for it in [*names, name]:
        copied(it, root, room)
    for it in names:
        libraries.link(it, f"{room}/crates/{it}/out/rlib")
    write(f"{room}/crates.txt", lines_for(name, names, crates))
    mark_as_built(names, room)
    kept = f"{root}/crates/{name}/out/incremental"
    if keeps and os.path.isdir(kept):
        shutil.copytree(kept, f"{room}/crates/{name}/out/incremental")
    return f"{room}/crates/{name}"


def said_of(crate, flag, functions):
    """What `rt check` prints of the crate in this folder with the flag before each function, and
    its processor time in seconds. The proof files that it writes are removed."""
    words, were = ["rt", "check", "--jobs", str(JOBS)], set(files_below(f"{crate}/proofs"))
    for it in sorted(functions):
        words += [flag, it]
    how = {"stdin": subprocess.DEVNULL, "stdout": subprocess.PIPE, "stderr": subprocess.STDOUT}
    with subprocess.Popen(words, cwd=crate, text=True, errors="replace", **how) as ran:
        said = ran.stdout.read()
        _, status, used = os.wait4(ran.pid, 0)
        ran.returncode = os.waitstatus_to_exitcode(status)
    for it in set(files_below(f"{crate}/proofs")) - were:
        os.remove(it)
    return said, used.ru_utime + used.ru_stime
