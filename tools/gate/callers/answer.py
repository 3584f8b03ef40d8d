"""answer.py QUESTIONS ANSWERS

Asks each question by the package `lr1`: by `ask`, and again by the typed call for it, if there is one.
If the two differ, the answer is a text on that, with the status 255.
"""
import functools
import json
import struct
import sys

import lr1


def questions_of(rest):
    """The questions of a file: each a text, words, and whether the canonical tables are asked for."""
    at = 0

    def part():
        nonlocal at
        (length,) = struct.unpack_from("<I", rest, at)
        at += 4 + length
        return rest[at - length : at]

    while at < len(rest):
        text, words = part(), part()
        at += 1
        yield text.decode(), words.decode().split("\0"), rest[at - 1] == 1


@functools.lru_cache(maxsize=None)
def tables_of(text, start, canonical):
    """The tables of a grammar, which several questions name."""
    return lr1.Grammar(text).tables(start, canonical)


def parsed(tables, limit, tokens):
    """What `lrtab` prints of a parse."""
    try:
        return f"{tables.parse(tokens, int(limit))}\n"
    except lr1.ConflictsError as error:
        assert error.count == len(tables.conflicts) and not tables.is_lr1
        return f"conflicts: {error.count}\n"
    except lr1.RefusedError as error:
        return "refused at Eof\n" if error.token is None else f'refused at "{error.token}"\n'
    except lr1.LimitError:
        return "limit\n"


def typed(text, words, canonical):
    """What the typed call for these words returns, as the text of the answer, or None if there is none."""
    start, verb, *arguments = [*words, ""][: max(2, len(words))]
    if verb == "parse" and arguments and arguments[0].isdecimal() and int(arguments[0]) < 1 << 64:
        return parsed(tables_of(text, start, canonical), arguments[0], arguments[1:])
    if verb in ("report", "explain") and not arguments:
        return getattr(tables_of(text, start, canonical), verb)()
    if (verb, arguments) == ("check", ["--json"]):
        return [vars(it) for it in lr1.Grammar(text).check(start)]
    return tables_of(text, start, canonical).data if (verb, arguments) == ("json", []) else None


def answer_of(text, words, canonical):
    """The status and the text of an answer."""
    status, answer = lr1.ask(text, words, canonical)
    try:
        other = typed(text, words, canonical)
    except lr1.GrammarError as error:
        other = f"{error}\n" if "is not a name" not in str(error) else None
    wanted = answer if other is None or isinstance(other, str) else json.loads(answer)
    if other is not None and other != wanted:
        return 255, f"{other!r} by a typed call, {wanted!r} by ask"
    return status, answer


def main(questions, answers):
    with open(questions, "rb") as it:
        asked = list(questions_of(it.read()))
    with open(answers, "wb") as to:
        for it in asked:
            status, text = answer_of(*it)
            to.write(struct.pack("<BI", status, len(text.encode())) + text.encode())
    print(f"{len(asked)} questions")


main(*sys.argv[1:])
