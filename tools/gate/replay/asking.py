"""Compares stored cases of `lrtab` with the data of `lrshow`."""
import concurrent.futures
import os

from gate.programs import arguments, program_of
from gate.replay.lrtab import CASES, first_difference, kind_of, print_differences, read_cases, result_of
from gate.shown import data as shown_data


def data_of(program, grammars, file, start, method):
    """The status and both outputs of the program, and what `data_in` returns of these."""
    result = result_of(program, {"file": file, "words": [start, "json"], "method": method}, grammars.get(file))
    return result, *data_in(result)


def data_in(result):
    """The data of a result, if there are some, and a text on what is wrong with it, or None."""
    if result["status"] not in (0, 1):
        return None, f"standard output with status {result['status']}" if result["stdout"] else None
    try:
        data = shown_data.read(result["stdout"])
    except shown_data.WrongData as why:
        return None, str(why)
    fault = "the status and the data differ" if result["status"] != (1 if data["conflicts"] else 0) else None
    stderr = result["stderr"].decode(errors="backslashreplace")
    return data, f"standard error: {stderr!a}" if stderr else fault


def difference(case, result, data, fault, output_of):
    """A text on the first difference between the case and what `data_of` returns, or None."""
    if fault or data is None:
        return fault or first_difference(case, result)
    status, text = output_of(case, data)
    return first_difference(case, {**result, "status": status, "stdout": text.encode()})


def compared(words, usage, kinds, output_of):
    """Compares the cases of some kinds, and prints those that differ. `output_of` makes the status
    and the output of a case from data. Returns 0 where all cases agree and there are some."""
    program, folder = arguments(words, usage, None, CASES)
    program = program_of("lrshow", program)
    cases, grammars = read_cases(folder)
    cases = [it for it in cases if kind_of(it) in kinds and not it["stderr"].startswith("usage: ")]
    asked = [(it["file"], it["words"][0], it["method"]) for it in cases]
    tables = sorted(set(asked))
    with concurrent.futures.ThreadPoolExecutor(os.cpu_count()) as pool:
        results = dict(zip(tables, pool.map(lambda it: data_of(program, grammars, *it), tables)))
    differences = [difference(case, *results[it], output_of) for case, it in zip(cases, asked)]
    agree, differ = print_differences([*zip(cases, differences)])
    print(f"{' and '.join(kinds)} by the data of {len(tables)} tables: {agree} agree, {differ} differ")
    return 1 if differ or not cases else 0
