"""Tests of what is expected of deep runs of `lrshow`, by answers that are right or spoilt."""
import unittest

from gate.hostile import trials
from gate.hostile.verdicts import Answer
from gate.shown.data import WrongData

RING = [f"N{it}" for it in range(400)]
BACK = "g:{}:1: warning: `{}` derives itself; leave out the production that leads back\n"
WAYS = "".join(BACK.format(at + 2, name) for at, name in enumerate(RING))
CAUSE = "g:{}:1: warning: reduce/reduce conflict on {} in state {}: reduce {}, or reduce {}; see `lrshow FILE START conflicts`\n"
RINGED = CAUSE.format(401, "Eof", 802, "N399 = N0", "S = N0")
SUFFIXED = CAUSE.format(5001, '"z"', 5003, *2 * ['A4999 = "x"'])
ERROR = "g:{}:1: error: `N{}` would have to be inlined into itself; leave a mark out\n"
SAME = 'reduce/reduce on Eof in state 1\n  reduce     S = "x"\n  reduce     S = "x"\n'
FOUND = '  two derivations of S:\n    [S: "x" (*)]\n    [S: "x" (*)]\n'
CAUSES = "10011 conflicts of 10011 causes\n" + "".join(f"cause {it}: {SAME}{FOUND}" for it in range(1, 10_012))
LONG = (
    '1 conflict of 1 cause\ncause 1: reduce/reduce on "c" in state 3\n  reduce     B = "y"\n  reduce     A = "y"\n'
    "  no input with two derivations was found: the search was cut at 10000 steps or its memory limit\n"
    '  an input for each action:\n    reduce  "y" (*) "c" "q"\n    reduce  "y" (*) L "p"\n'
)
LITERALS = " ".join(sorted(f'"t{it}"' for it in range(400)))
# The name of a run, a status, both outputs, and parts of them that are other ones in spoilt answers.
ANSWERS = (
    ("units_as_check", 0, "", "", ()),
    ("ring_as_check", 1, WAYS + RINGED, "",
     (("`N7` derives itself", "`N7` derives itself: `N7` `N8` `N7`"), ("on Eof", 'on "x"'), ("g:401:1: warning: r", "g:400:1: warning: r"))),
    *(("marked_ring_as_check", 2, ERROR.format(it + 2, it) + WAYS, "", (("a mark", "marks"), (":1: error", ":8: error")))
      for it in (0, 399)),
    ("suffixes_as_check", 1, "g:5002:9: warning: the right side is that of line 5001; leave one of the two out\n"
     + SUFFIXED, "", (("5002:9", "5002:1"), ("line 5001", "line 5000"), ("g:5001:1", "g:5002:1"))),
    ("conflicts_as_conflicts", 1, CAUSES, "", (("cause 77:", "cause 78:"), ("state 1\n", "states 1\n"), ("[S:", "[A:"))),
    ("suffixes_as_conflicts", 1, '1 conflict of 1 cause\ncause 1: reduce/reduce on "z" in state 5003\n'
     + 2 * '  reduce     A4999 = "x"\n' + "  two derivations of A4999:\n" + 2 * '    [A4999: "x" (*)]\n', "",
     (("5003", "5003 5004"), ("of A4999", "of S"), ('"z"', "Eof"))),
    ("long_search_as_conflicts", 1, LONG, "", (("cut at 10000", "cut at 2000"), ('B = "y"', 'A = "y"'))),
    ("long_right_side_as_tree", 0, "S\n" + 5_000 * '  "x"\n', "", (('  "x"', ' "x"'), ("S", "S ="))),
    ("terminals_as_tree", 1, "", f'token 1, "x", is wrong; expected: {LITERALS}\n', (('"t10" "t100"', '"t100" "t10"'),)),
    ("refused_at_end_as_tree", 1, "", 'the input ends too early; expected: "a" "z"\n', (('"a" ', ""),)),
)


class Deep(unittest.TestCase):
    def refuse(self, expected, answer):
        with self.assertRaises(WrongData):
            expected(answer)

    def test_answers(self):
        for name, status, output, errors, spoilt in ANSWERS:
            expected = trials.case_of(f"shown_{name}").expected
            with self.subTest(name=name):
                expected(Answer(status, output.encode(), errors.encode()))
                self.refuse(expected, Answer(status ^ 1, output.encode(), errors.encode()))
                self.refuse(expected, Answer(status, output.encode() + b"so\n", errors.encode()))
                self.refuse_each(expected, status, output, errors, spoilt)

    def refuse_each(self, expected, status, output, errors, spoilt):
        for old, new in spoilt:
            self.assertIn(old, output + errors)
            self.refuse(expected, Answer(status, output.replace(old, new, 1).encode(), errors.replace(old, new, 1).encode()))

    def test_standard_input(self):
        case = trials.case_of("shown_long_name_of_standard_input")
        self.assertTrue(trials.is_of_input(case) and case.words[0] == "-")
        case.expected(Answer(0, b"S\n  " + b"N" * 500_000 + b'\n    "x"\n', b""))
