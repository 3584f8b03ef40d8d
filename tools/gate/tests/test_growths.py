"""Tests of gate.growths, by a shell script in the place of the program and two case files."""
from gate.growths import main
from gate.tests.programs import CommandTest, run_over

# What is printed where calls are refused growths, and where each case is asked.
REFUSED = "x S: 4 turns refused\nx S 1: 0 turns refused\ny: 20 turns refused\n3 cases, 24 turns refused, 0 faults\n"
AGREED = "b.cases: 1 agree, 0 differ\n2 agree, 0 differ\n"
IN_ALL = "under a stack of 1048576 bytes: 2 agree, 0 differ"


def growths(refused=REFUSED, first="", agreed=AGREED, second="", calls=(("b", "x"), ("worked_a", "y"))):
    """Runs the command. The program prints one text or another, and does something after each."""
    script = f'#!/bin/sh\nif [ "$1" = refuse ]; then cat ../refused; {first}\nelse cat ../agreed; {second}\nfi\n'
    files = {"program": script, "refused": refused, "agreed": agreed, "data/none": ""}
    files |= {f"data/{name}.cases": f"grammar\nask {call} S\nno\nend\n" for name, call in calls}
    return run_over(files, main, "ROOM/program", "ROOM/data")


class Growths(CommandTest):
    def test_what_is_printed(self):
        another = "x S: another answer in turn 3\n"
        self.check(growths, (
            ("all as expected", 0, f"turns refused: x 4, y 20\n3 cases, 24 turns refused, 0 faults\n{IN_ALL}\n"),
            ("another result", 1, another, another + REFUSED, "exit 1"),
            ("another result alone", 1, another, another, "exit 1"),
            ("no turn of a call", 1, "no growth was refused: x\n", REFUSED.replace("x S: 4", "x S: 0")),
            ("a call that is not asked", 1, "no growth was refused: y\n", REFUSED.replace("y:", "z:")),
            ("nothing", 1, "no growth was refused: x, y\nunder a stack of 1048576 bytes: nothing\n", "", "", ""),
            ("no case files", 1, "no growth was refused: no call is asked\n", REFUSED, "", AGREED, "", ()),
            ("a status", 1, IN_ALL, REFUSED, "exit 2"),
            ("a signal", 1, IN_ALL, REFUSED, "kill -SEGV $$"),
            ("a status under the small stack", 1, IN_ALL, REFUSED, "", AGREED, "exit 1"),
            ("a signal under the small stack", 1, IN_ALL, REFUSED, "", AGREED, "kill -SEGV $$"),
            ("the stack", 0, IN_ALL, REFUSED, "", AGREED, '[ "$(ulimit -s)" = 1024 ] || exit 1'),
            ("the files' order", 0, IN_ALL, REFUSED, '[ "$*" = "refuse worked_a.cases b.cases" ] || exit 1'),
        ))
