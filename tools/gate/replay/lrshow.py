"""tools/run replay-lrshow [PROGRAM [CASES]]

Replays the stored cases of `lrshow`, as `tools/run replay` does those of `lrtab`. PROGRAM is
crates/lrshow/out/lrshow, which `rt ci` and `rt run` leave there. CASES is the folder
crates/lrshow/cases, whose README.md says what it holds. Others can be given.
The stack is 1 MB. The status is 0 where all cases agree and are as many as the file `count` says.
"""
from gate.files import ROOT
from gate.programs import arguments, program_of
from gate.replay import lrtab

CASES = f"{ROOT}/crates/lrshow/cases"


def main(words):
    program, folder = arguments(words, __doc__, None, CASES)
    return lrtab.main([program_of("lrshow", program), folder])
