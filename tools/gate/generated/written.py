"""Compares the files that `lrshow` writes with those of the generator in tools/generated."""
from gate.hostile import reading
from gate.hostile.verdicts import Answer
from gate.replay.lrtab import result_of
from gate.shown import parsers
from gate.shown.data import WrongData


def faults(program, grammars, name, data, hidden=None):
    """Texts on the languages for which `lrshow` does not write what the generator makes of the data.
    The name has the file, the start symbol and the method. With a new start symbol, which is hidden,
    the data are those of the grammar with it, and `lrshow` makes it."""
    file, start, method = name
    grammar = reading.read(grammars[file])
    if parsers.lists_more(grammar.marked, [left for left, _ in grammar.rules]):
        return
    for language in parsers.WRITERS:
        words = [start, language, *([] if hidden is None else ["--augment"])]
        case = {"file": file, "words": words, "method": method}
        answer = Answer(*(result_of(program, case, grammars[file])[it] for it in ("status", "stdout", "stderr")))
        try:
            parsers.check(answer, data, language, "lr", [method.lower()], hidden)
        except WrongData as why:
            yield f"{name}, {' '.join(words)}: {why}"
