"""python3 -m generated (c | rust | python) METHOD [--small] [--augmented] [--prefix NAME] < DATA

Writes the file of a language from the data that `lrshow FILE START json` writes. METHOD is `lane` or
`canonical`, by which the tables were made. With --augmented, START is a new start symbol, which has
one production, and the file is that of the old one. With --prefix, the names of the file for C begin
with NAME, in small letters and in capitals. The status is 1 if there are conflicts, and 2 for
other reasons.
"""
import argparse
import json
import re
import sys

from generated import in_c, in_python, in_rust
from generated.packing import Packed, check
from generated.tables import NoTables, Tables


def text_of(data, language, method, is_small=False, is_augmented=False, prefix="lr"):
    """The text of a file. If there is none, NoTables says why."""
    packed = Packed(Tables(data, data["start"] if is_augmented else None), is_small)
    check(packed)
    if language == "c":
        return in_c.text_of(packed, method, prefix)
    return {"rust": in_rust, "python": in_python}[language].text_of(packed, method)


def data_of(file):
    """The data in a file. If it has none, NoTables says so."""
    try:
        data = json.load(file)
    except ValueError:
        data = None
    if not isinstance(data, dict) or data.get("format") != "lrshow":
        raise NoTables("standard input has no data of `lrshow FILE START json`", 2)
    return data


def main(words):
    parser = argparse.ArgumentParser(prog="generated", usage=__doc__)
    parser.add_argument("language", choices=("c", "rust", "python"))
    parser.add_argument("method", choices=("lane", "canonical"))
    parser.add_argument("--small", action="store_true")
    parser.add_argument("--augmented", action="store_true")
    parser.add_argument("--prefix", default="lr")
    it = parser.parse_args(words)
    if not re.fullmatch(r"[A-Za-z_][A-Za-z0-9_]*", it.prefix):
        parser.error(f"{it.prefix} is not a name")
    try:
        text = text_of(data_of(sys.stdin), it.language, it.method, it.small, it.augmented, it.prefix)
    except NoTables as why:
        print(why, file=sys.stderr)
        return why.status
    try:
        sys.stdout.buffer.write(text.encode())
        sys.stdout.buffer.flush()
    except OSError:
        print("cannot write", file=sys.stderr)
        return 2
    return 0


if __name__ == "__main__":
    sys.exit(main(sys.argv[1:]))
