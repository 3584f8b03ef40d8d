#!/usr/bin/env python3
"""Parses tokens by the tables that `lrshow FILE START json` writes, and prints what `lrtab FILE START parse` prints.

    lrshow sums S json | parse_by_tables.py LIMIT TOKEN..

The status is that of lrtab. It is 2 if LIMIT is no number, or if standard input has no such data.
"""
import json
import sys


def parse(data, limit, tokens):
    """The text and the status of a parse of at most so many steps."""
    if data["conflicts"]:
        return f"conflicts: {len(data['conflicts'])}", 1
    productions = {it["number"]: it for it in data["productions"]}
    states = {it["number"]: it for it in data["states"]}
    sets = data["sets"]
    reductions = {(state["number"], token): productions[it["production"]]
                  for state in states.values() for it in state["reductions"] for token in sets[it["lookahead"]]}
    stack, trees, left = [0], [], limit
    for token in [*tokens, None]:
        shown, target = "Eof" if token is None else f'"{token}"', None
        while target is None:
            target, production = states[stack[-1]]["shifts"].get(token), reductions.get((stack[-1], token))
            if target is None and production is None:
                return f"refused at {shown}", 1
            if left == 0:
                return "limit", 1
            left, taken = left - 1, len(production["symbols"]) if target is None else 0
            first = len(trees) - taken
            tree = shown if target is not None else f"[{production['nonterminal']}: {', '.join(trees[first:])}]"
            del stack[first + 1:], trees[first:]
            to = target if target is not None else states[stack[-1]]["gotos"].get(production["nonterminal"])
            if to is None:
                return (tree, 0) if token is None and not trees else (f"refused at {shown}", 1)
            stack.append(to)
            trees.append(tree)


def stop(why):
    print(why, file=sys.stderr)
    sys.exit(2)


def data_of(file):
    """The data in a file."""
    try:
        return json.load(file)
    except ValueError:
        stop("standard input has no data of `lrshow FILE START json`")


if __name__ == "__main__":
    if not sys.argv[1:] or not (sys.argv[1].isascii() and sys.argv[1].isdigit()):
        stop("usage: lrshow FILE START json | parse_by_tables.py LIMIT TOKEN..")
    TEXT, STATUS = parse(data_of(sys.stdin), int(sys.argv[1]), sys.argv[2:])
    sys.stdout.buffer.write(f"{TEXT}\n".encode())
    sys.exit(STATUS)
