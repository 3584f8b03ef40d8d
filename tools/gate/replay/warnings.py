"""tools/run warnings [PROGRAM [CASES]]

Compares `lrshow FILE START check` with the definitions, on the grammars of the stored cases. Warnings
and errors are computed here from the textbook's definitions, in a plain way. The causes of conflicts
are those of the data of `lrshow FILE START json`.
PROGRAM is crates/lrshow/out/lrshow, which `rt ci` and `rt run` leave there. CASES is the folder
crates/lrtab/cases. Others can be given. The start symbols of a grammar are each name with a
production, the first name that has none, if there is one, and a name that the grammar does not have.
The status is 0 if all agree and there are some.
"""
import concurrent.futures
import os

from gate.hostile import reading
from gate.programs import arguments, program_of
from gate.replay.asking import data_of
from gate.replay.lrtab import CASES, read_cases, result_of
from gate.shown import checks
from gate.shown.data import WrongData
from gate.shown.places import lines_of


def starts_of(text):
    """The start symbols for which a grammar is checked."""
    lines = [it.words for it in lines_of(text)]
    defined = {it[0] for it in lines if it[1:2] == ["="] and reading.is_name(it[0])}
    used = {word for it in lines for word in it[1:] if reading.is_name(word)}
    return [*sorted(defined), *sorted(used - defined)[:1], "Missing"]


def difference(program, file, text, start):
    """A text on how a check by the program differs from the expected one, or None."""
    result, data, fault = data_of(program, {file: text}, file, start, "Lane")
    if fault:
        return f"json: {fault}"
    causes = None if data is None else [*checks.caused(data, text)]
    for words, check in ((["check"], checks.check), (["check", "--json"], checks.check_json)):
        result = result_of(program, {"file": file, "words": [start, *words], "method": "Lane"}, text)
        try:
            check(result["status"], result["stdout"].decode(), text, start, file, causes)
        except (WrongData, ValueError) as why:
            return f"{' '.join(words)}: {why}"
        if result["stderr"]:
            return f"standard error: {result['stderr']!a}"
    return None


def main(words):
    program, folder = arguments(words, __doc__, None, CASES)
    program = program_of("lrshow", program)
    _, grammars = read_cases(folder)
    asked = [(file, text, start) for file, text in sorted(grammars.items()) for start in starts_of(text)]
    with concurrent.futures.ThreadPoolExecutor(os.cpu_count()) as pool:
        found = list(pool.map(lambda it: difference(program, *it), asked))
    wrong = [(it, why) for it, why in zip(asked, found) if why]
    for (file, _, start), why in wrong:
        print(f"{file} {start}: {why}")
    print(f"warnings: {len(asked) - len(wrong)} agree, {len(wrong)} differ")
    return 1 if wrong or not asked else 0
