"""tools/run generated [PROGRAM [CASES]]

Makes the files for C, Rust and Python of the tables of each parse case of `lrtab`, exact ones and
small ones, by the generator in tools/generated. The exact ones must be those that `lrshow FILE START
c`, `rust` and `python` write, byte for byte. It compiles them, without a warning, and answers the
cases by them: the tree, or the refused token with its position and the expected tokens, or the limit.
The texts are those of the cases. The positions and the expected tokens are those of a model, which
runs by the data of `lrshow`. If the start symbol is on a right side, the grammar gets a new one, the
files are those of `lrshow` with `--augment`, and the answers are those of the model. The calculators
of examples/calculator are tried, too.
PROGRAM is crates/lrshow/out/lrshow, which `rt ci` and `rt run` leave there. CASES is the folder
crates/lrtab/cases. Others can be given. A language whose compiler is not on the path is left out. The
status is 0 if all agree, there are some, and `rustfmt` and `black` leave each seventh file as it is.
"""
import tempfile

from gate.callers.parts import Failed, lacks, ran
from gate.generated import examples
from gate.generated.languages import LANGUAGES, answers
from gate.generated.questions import Found, answer_of, line_of
from gate.programs import arguments, program_of
from gate.replay.lrtab import CASES, kind_of, read_cases

# At most so many faults of a language are printed.
SHOWN = 10
# The form of each such file is tried.
STEP = 7


def faults_of(got, rows):
    """The answers that are wrong."""
    if len(got) != len(rows):
        return [f"{len(got)} answers to {len(rows)} questions"]
    wrong = [(made, it, text) for (made, it), text in zip(rows, got) if text != answer_of(it.expected)]
    return [f"{it.name}, {made.name}: expected {answer_of(it.expected)!a}, got {text!a}" for made, it, text in wrong]


def tried(name, found, rows, lines, room):
    """Compiles and asks the files of a language. Prints how it went, and returns whether it went well."""
    needed, build, form = LANGUAGES[name]
    if left_out := lacks(*needed):
        print(f"{name}: {left_out}")
        return True
    try:
        faults, said = faults_of(answers(found.made, lines, build, room), rows), "form not tried"
        if form and not lacks(*form[0]):
            some = [f"t{it}.{form[2]}" for it in range(0, len(found.made), STEP)]
            ran(*form[1], *some, folder=room)
            said = f"{form[0][0]} leaves {len(some)} of them as they are"
    except Failed as why:
        faults, said = [str(why)], "failed"
    print(*faults[:SHOWN], f"{name}: {len(lines) - len(faults)} of {len(lines)} answers agree; {said}", sep="\n")
    return not faults


def tried_examples(program, room):
    try:
        faults = examples.faults_of(program, room)
    except Failed as why:
        faults = [str(why)]
    print(*faults, f"calculators: {len(faults)} faults", sep="\n")
    return not faults


def main(words):
    program, folder = arguments(words, __doc__, None, CASES)
    cases, grammars = read_cases(folder)
    program = program_of("lrshow", program)
    found = Found(program, [it for it in cases if kind_of(it) == "parse"], grammars)
    rows = [(made, it) for made in found.made for it in made.questions]
    lines = [line_of(number, made, it) for number, made in enumerate(found.made) for it in made.questions]
    print(*found.faults, f"files: {len(found.made)} for each language", sep="\n")
    print(*[f"without a file: {count} {what}" for what, count in sorted(found.without.items())], sep="\n")
    with tempfile.TemporaryDirectory(prefix="generated-") as room:
        is_right = [tried(name, found, rows, lines, f"{room}/{name}") for name in LANGUAGES]
        is_right.append(tried_examples(program, room))
    return 0 if all(is_right) and lines and not found.faults else 1
