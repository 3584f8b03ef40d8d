#!/usr/bin/env python3
"""convert.py VALUES GRAMMARS-FOLDER DATA-FOLDER: makes case files of the values of a model."""

import json
import sys
from pathlib import Path

sys.dont_write_bytecode = True  # Nothing is left beside the script.

import questions as of_states
import walked_questions as of_walks
from questions import Grammar

FOLDER = "model"

# Of each case file: the kinds of values it holds, each with what makes questions of it.
FILES = {
    "read.cases": {"read": of_states.ask_read, "fault": of_states.ask_fault},
    "inline.cases": {"inline": of_states.ask_inline},
    "first.cases": {"first": of_states.ask_first},
    "views.cases": {"views": of_states.ask_views},
    "lr0.cases": {"lr0": of_states.ask_lr0},
    "canonical_by_construction.cases": {
        "canonical_by_construction": of_states.ask_canonical_by_construction},
    "canonical.cases": {"canonical": of_states.ask_canonical},
    "lane.cases": {"lane": of_states.ask_lane},
    "lane_tables.cases": {"lane_tables": of_states.ask_lane_tables},
    "early_stop.cases": {"early_stop": of_states.ask_early_stop},
    "collapse.cases": {"collapse": of_states.ask_collapse},
    "check.cases": {"check": of_states.ask_check},
    "graph.cases": {"graph": of_states.ask_graph},
    "lane_table_of_each_state.cases": {
        "lane_table_of_each_state": of_walks.ask_lane_tables_of_states},
    "backtrace.cases": {"backtrace": of_walks.ask_backtrace},
    "runs.cases": {"runs": of_walks.ask_runs},
    "augment.cases": {"augment": of_walks.ask_augment},
}


def read_values(path):
    """The grammars of a file of values, with their values."""
    grammars = {}
    for line in path.read_text(encoding="utf-8").splitlines():
        record = json.loads(line)
        grammar = grammars.setdefault(record["file"], Grammar(record["file"]))
        grammar.start = record.get("start", grammar.start)
        grammar.values.setdefault(record["what"], []).append(record["value"])
        if record["what"] == "inline":
            grammar.productions = record["value"].get("productions", [])
    return [grammars[name] for name in sorted(grammars)]


def why_left_out(text):
    """Why a block of a case file cannot hold a grammar text, where it cannot."""
    try:
        lines = text.decode("utf-8").split("\n")
    except UnicodeDecodeError:
        return "not UTF-8"
    for line in lines:
        is_question = line.startswith("ask ") and not line.startswith("ask =")
        if line in ("grammar", "end") or is_question:
            return f"the line {line!r} is one of a case file"
    return None


def block(name, text, asked):
    """The block of a grammar and its questions."""
    remark = f"# {name}"
    if not text.endswith(b"\n"):
        remark += ", whose last line has no LF"
        text += b"\n"
    lines = [line for question in asked for line in [question.line(), *question.expected]]
    head = f"\n{remark}\ngrammar\n".encode()
    return head + text + "".join(line + "\n" for line in [*lines, "end"]).encode()


def questions_of(grammar, kinds):
    """What is asked of a grammar by kinds of values."""
    asked = []
    for kind, ask in kinds.items():
        for value in grammar.values.get(kind, []):
            asked += ask(grammar, value)
    return of_states.without_repeats(asked)


def blocks_of(grammars, texts, kinds):
    """The blocks of a case file, and how many cases they are."""
    blocks, count = [], 0
    for grammar in grammars:
        asked = questions_of(grammar, kinds)
        if asked:
            blocks.append(block(grammar.file, texts[grammar.file], asked))
            count += len(asked)
    return b"".join(blocks), count


def write_file(path, remark, blocks, count):
    """Writes a case file, and tells how large it is."""
    path.parent.mkdir(exist_ok=True)
    path.write_bytes(remark.encode() + blocks)
    print(f"{path.name}: {count} cases, {path.stat().st_size} bytes")


def read_texts(grammars, folder):
    """The texts of the grammars that a case file can hold; the others are told."""
    texts = {}
    for grammar in grammars:
        text = (folder / grammar.file).read_bytes()
        why = why_left_out(text)
        if why is None:
            texts[grammar.file] = text
        else:
            print(f"left out: {grammar.file}: {why}")
    return texts


def main(words):
    """Makes the case files."""
    if len(words) != 3:
        print(__doc__)
        return 2
    values, grammars_folder, data = map(Path, words)
    grammars = read_values(values)
    texts = read_texts(grammars, grammars_folder)
    grammars = [grammar for grammar in grammars if grammar.file in texts]
    for name, kinds in FILES.items():
        blocks, count = blocks_of(grammars, texts, kinds)
        what = " ".join(ask.__doc__ for ask in kinds.values())
        remark = f"# {what}\n# Made by from_values/convert.py of the values of a model.\n"
        write_file(data / FOLDER / name, remark, blocks, count)
    return 0


if __name__ == "__main__":
    sys.exit(main(sys.argv[1:]))
