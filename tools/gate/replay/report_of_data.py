"""tools/run report-of-data [PROGRAM [CASES]]

Compares the stored reports and explanations of `lrtab` byte for byte with texts that are made from
the data of `lrshow` alone. They show states, items with all tokens, shifts, gotos, reductions,
conflicts and examples.
PROGRAM is crates/lrshow/out/lrshow, which `rt ci` and `rt run` leave there. CASES is the folder
crates/lrtab/cases. Others can be given. The status is 0 where all cases agree and there are some.
"""
from gate.replay.asking import compared
from gate.shown.listings import Listings


def output_of(case, data):
    """The status and the text of the listing that the case asks for."""
    listings = Listings(data)
    text = listings.report() if case["words"][1] == "report" else listings.explanation()
    return 1 if data["conflicts"] else 0, text


def main(words):
    return compared(words, __doc__, ["report", "explain"], output_of)
