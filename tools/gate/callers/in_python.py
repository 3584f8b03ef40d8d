"""Calls from Python, by the package `lr1`."""
import re
import sys

from gate.callers.parts import BINDINGS, HERE, Failed, cases_by, ran


def cases(library, room, stored):
    """The tests of the package after `pip install`, and the stored cases."""
    try:
        ran(sys.executable, "-m", "pip", "--version")
    except Failed:
        return "left out: python3 has no pip", []
    folder, site = f"{BINDINGS}/python", f"{room}/site"
    words = ("install", "--quiet", "--no-index", "--no-deps", "--disable-pip-version-check", "--target", site)
    ran(sys.executable, "-m", "pip", *words, folder, LR1_LIBRARY=f"{library}/liblr1.so")
    how = {"PYTHONPATH": site, "LR1_LIBRARY": ""}
    said = ran(sys.executable, "-m", "unittest", "discover", "-s", f"{folder}/tests", folder=room, **how)
    count = int(re.search(r"(?m)^Ran (\d+) tests?", said)[1])
    said, faults = cases_by(stored, room, "python", sys.executable, f"{HERE}/answer.py", **how)
    return f"{count} tests, {said}", faults if count else [*faults, "no test of the package ran"]
