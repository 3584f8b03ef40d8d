"""tools/run replay-by-data [PROGRAM [CASES]]

Replays the parse cases of `lrtab` by examples/parse_by_tables.py, from the data of `lrshow` alone.
PROGRAM is crates/lrshow/out/lrshow, which `rt ci` and `rt run` leave there. CASES is the folder
crates/lrtab/cases. Others can be given. PROGRAM must report a grammar's faults as `lrtab` does.
The status is 0 where all cases agree and there are some.
"""
import importlib.util

from gate.files import ROOT
from gate.replay.asking import compared


def loaded(path):
    """The module of a program that lies outside this package."""
    spec = importlib.util.spec_from_file_location("loaded", path)
    module = importlib.util.module_from_spec(spec)
    spec.loader.exec_module(module)
    return module


def main(words):
    parse = loaded(f"{ROOT}/examples/parse_by_tables.py").parse

    def output_of(case, data):
        text, status = parse(data, int(case["words"][2]), case["words"][3:])
        return status, f"{text}\n"

    return compared(words, __doc__, ["parse"], output_of)
