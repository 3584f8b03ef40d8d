"""Calls from C, and a call from C++."""
import re

from gate.callers.asked import random_question, refused_questions
from gate.callers.parts import BINDINGS, HERE, Failed, answered, block_of, cases_by, lacks, ran, written
from gate.files import read, write

WARNINGS = ("-Wall", "-Wextra", "-Werror", "-pedantic")
C, CPP = ("gcc", "-std=c99", "-O1", *WARNINGS), ("g++", "-std=c++11", *WARNINGS)
WRAPPED = [f"-Wl,--wrap={it}" for it in ("malloc", "realloc", "free")]
ASAN = ("-fsanitize=address", "-g")
# How many random questions there are, and how much of one is printed.
RANDOM, LONGEST = 20_000, 300

# The numbers of the canonical tables of the first text below, and these with items.
PLAIN = "1280454996 1 0 1 2 2 1 3 16 18 25 30 0 1 1 1 1 1 1 0 2 1 0 1 0 0 0 1 1 0 0 0 1 0 0"
WHOLE = (
    "1280454996 1 3 1 2 2 1 3 19 21 28 33 38 45 49 0 1 1 1 1 1 1 0 2 1 0 1 0 0 0 1 1 0 0 0 1 0 0 2 0 0 0 1 0 0 1 1 1 0 "
    "1 0 1 0"
)
# Words of a call for canonical tables, each with the status and the numbers by docs/FORMATS.md.
NUMBERS = (
    (('S = A\nA = "x"', "S"), f"0 {PLAIN}"),
    (('S = A\nA = "x"', "S", "items"), f"0 {WHOLE}"),
    # A nonterminal that is inlined, which keeps its number; and a right side twice, of a name that is not reached.
    (('S = A "x"\nA =\ninline A', "S"), "0 1280454996 1 0 1 2 2 1 2 15 17 22 0 0 1 1 1 1 1 0 1 0 0 0 0 1 1 0"),
    (('S = "x"\nT = "y"\nT = "y"', "S"), "0 1280454996 1 0 2 2 3 1 2 17 19 24 0 1 1 1 1 1 1 2 1 0 1 0 0 0 0 1 0 0"),
    (("S =\nS =", "S"), "1"), (('S = E\nE = E "+" E\nE = "n"', "S"), "1"),
    (("what", "S"), "2"), (('S = "x"\nwhat', "S"), "2"), (("S = A\nA = B\nB = A\ninline A\ninline B", "S"), "2"),
    (('S = "x"', "T"), "2"), (('S = "x"', "x"), "2"), (('S = "x"', ""), "2"), (("", ""), "2"),
    # (a byte that is no UTF-8)
    (('S = "\udcff"', "S"), "2"), (('S = "x"', "S\udcff"), "2"),
)
OTHER = "1 the tables are not faithful\n"
NOTHING = "2 the tables: state {} has a number that names nothing, or a name twice\n"
WRONG = "2 the tables: place {}: the number is not the one of the tables\n"
CUT_OFF = "2 the tables: place {}: the numbers end before the tables\n"
SIDES = "2 the tables: the productions are not those of the grammar\n"
# A place of the numbers with items, another number there, and the status and the message of the check.
# A place of None is a number of numbers. The first ones are the examples of docs/FORMATS.md.
CHECKS = (
    (0, 1280454996, "0 "),
    (44, 1, NOTHING.format(0)),
    (8, 20, WRONG.format(8)),
    (None, 52, CUT_OFF.format(52)),
    (40, 1, OTHER),
    (0, 1280454997, "2 the tables: place 0: the numbers are not those of tables\n"),
    (1, 2, "2 the tables: place 1: version 2 is unknown\n"),
    (3, 2, "2 the tables: place 3: the grammar does not have 2 terminals\n"),
    (4, 3, "2 the tables: place 4: the grammar does not have 3 nonterminals\n"),
    (11, 34, WRONG.format(11)),
    (12, 39, WRONG.format(12)),
    # the length and the nonterminal of a production
    (16, 2, SIDES),
    (17, 0, SIDES),
    # the token of the set: no token, and another one
    (20, 3, "2 the tables: token set 0 has a number that is no token's\n"),
    (20, 0, OTHER),
    # Without its shift, state 0 has two reductions, and ends at the same place.
    (21, 0, OTHER),
    # the terminal and the target of a shift, and the nonterminal of a goto
    (22, 1, NOTHING.format(0)),
    (23, 3, NOTHING.format(0)),
    (23, 1, OTHER),
    (25, 2, NOTHING.format(0)),
    # With one pair more, these lists of pairs end at the same places.
    (29, 1, OTHER),
    (33, 1, OTHER),
    (34, 1, OTHER),
    # the production of a reduction, and its set
    (31, 2, NOTHING.format(1)),
    (37, 1, NOTHING.format(2)),
    # the production, the dot and the set of an item
    (39, 2, NOTHING.format(0)),
    (40, 2, NOTHING.format(0)),
    (41, 1, NOTHING.format(0)),
    (46, 2, NOTHING.format(1)),
    (51, 2, NOTHING.format(2)),
    (None, 0, CUT_OFF.format(0)),
    (None, 20, CUT_OFF.format(20)),
)

# Texts by whose tables random calls are made, and how many for each.
BY_NUMBERS = (
    'S = A\nA = "x"', 'S = E\nE = E "+" T\nE = T\nT = T "*" F\nT = F\nF = "(" E ")"\nF = "n"',
    'S = L\nL = L I ";"\nL =\nI = "a"\nI = "b" O\nO =\nO = "c"', 'S = "if" C S "else" S\nS = "x"\nC = "(" C ")"\nC =', "S =",
)
CALLS = 10_000

CPP_CALLER = """#include <lr1.h>
#include <cstdio>
#include <string>

int main() {
    const std::string text("S = \\"x\\""), words("S\\0parse\\0" "9\\0x", 11);
    const auto bytes = [](const std::string &it) { return reinterpret_cast<const uint8_t *>(it.data()); };
    uint8_t out[100];
    size_t length = 0;
    const uint8_t status = lr1_ask(bytes(text), text.size(), bytes(words), words.size(), false, out, sizeof out, &length);
    std::printf("%d %.*s", status, static_cast<int>(length), reinterpret_cast<char *>(out));
    return lr1_version() == LR1_VERSION ? 0 : 1;
}
"""


def compiled(library, room, name, source, *flags, by=C):
    """A program of a source, with the archive of the library."""
    ran(*by, *flags, f"-I{library}", "-o", f"{room}/{name}", source, f"{library}/liblr1.a")
    return f"{room}/{name}"


def names(library, _room):
    """The names that both forms of the library define, and those that the bindings declare. They must be
    those that the header declares."""
    declared = re.findall(r"(?m)^\w+ (lr1_\w+)\(", read(f"{BINDINGS}/c/lr1.h"))
    found = {
        "lr1-sys": re.findall(r"pub fn (lr1_\w+)\(", read(f"{BINDINGS}/rust/lr1-sys/src/lib.rs")),
        "_library.py": re.findall(r"library\.(lr1_\w+)\.argtypes", read(f"{BINDINGS}/python/src/lr1/_library.py")),
    }
    for flag, name in (("-g", "liblr1.a"), ("-D", "liblr1.so")):
        said = ran("nm", flag, "--defined-only", f"{library}/{name}")
        # (LR1_1 is the version of the names of the shared library)
        found[name] = [it for it in re.findall(r"(?m) [A-Z] (\w+?)(?:@@\w+)?$", said) if it != "LR1_1"]
    wrong = {name: some for name, some in found.items() if sorted(some) != sorted(declared)}
    faults = [f"{name} has {sorted(some)}, and lr1.h declares {sorted(declared)}" for name, some in wrong.items()]
    return f"{len(declared)} calls", faults


def expect_printed(program, expected, **variables):
    said = ran(program, **variables)
    return [] if said == expected else [f"{program} prints {said!r}, expected {expected!r}"]


def examples(library, room):
    """The program of the page, and example.c, by both forms of the library, and C++."""
    page = f"{BINDINGS}/c/README.md"
    write(f"{room}/page.c", block_of(page, "c"))
    faults = expect_printed(compiled(library, room, "page", f"{room}/page.c"), block_of(page, "text"))
    expected, source = block_of(page, "text", 1), f"{BINDINGS}/c/example.c"
    faults += expect_printed(compiled(library, room, "example", source), expected)
    ran(*C, f"-I{library}", "-o", f"{room}/shared", source, f"-L{library}", "-llr1", f"-Wl,-rpath,{library}")
    faults += expect_printed(f"{room}/shared", expected)
    if left_out := lacks("g++"):
        return f"the page and example.c; C++ {left_out}", faults
    write(f"{room}/caller.cc", CPP_CALLER)
    faults += expect_printed(compiled(library, room, "caller", f"{room}/caller.cc", by=CPP), '0 [S: "x"]\n')
    return "the page, example.c, C++", faults


def sanitizer(room):
    """Flags of gcc for AddressSanitizer, and its options, or none if it does not work here."""
    write(f"{room}/empty.c", "int main(void) { return 0; }\n")
    for options in ("detect_leaks=1", "detect_leaks=0"):
        try:
            ran("gcc", *ASAN, "-o", f"{room}/empty", f"{room}/empty.c")
            ran(f"{room}/empty", ASAN_OPTIONS=options)
            return ASAN, {"ASAN_OPTIONS": options}
        except Failed:
            pass
    return (), {}


def rooms(library, room, name):
    """The program that asks with several rooms, and its variables."""
    flags, variables = sanitizer(room)
    return compiled(library, room, name, f"{HERE}/rooms.c", *flags), variables


def cases(library, room, stored):
    program, variables = rooms(library, room, "rooms")
    return cases_by(stored, room, "c", program, **variables)


def shown(question):
    return f"text {question.text!r}, words {question.words!r}, canonical {question.canonical}"[:LONGEST]


def random(library, room):
    """Random questions, with several rooms."""
    program, variables = rooms(library, room, "random")
    questions = [random_question(it) for it in range(RANDOM)]
    answers, said, why = answered(room, "random", questions, program, **variables)
    counts = [sum(it.status == status for it in answers) for status in (0, 1, 2)]
    by = "AddressSanitizer looked on" if variables else "without AddressSanitizer"
    said = f"{said} ({', '.join(f'{count} of status {it}' for it, count in enumerate(counts))}), {by}"
    if why:
        return said, [f"random question {len(answers)}: {shown(questions[len(answers)])}", why]
    return said, [] if all(counts) and sum(counts) == RANDOM else ["expected each of the statuses 0, 1 and 2"]


def said_of(questions, room, program, **variables):
    """What a program prints of questions. If it fails, the question that it names is shown."""
    try:
        return ran(program, written(room, "some", questions), **variables).strip(), []
    except Failed as failed:
        why = str(failed)
    number = re.search(r"(?m)^.*question (\d+): ", why)
    return "failed", [shown(questions[int(number[1])])] * bool(number) + [why]


def refused(library, room):
    """Questions while allocations are refused."""
    return said_of(refused_questions(), room, compiled(library, room, "refuse", f"{HERE}/refuse.c", *WRAPPED))


def numbers(library, room):
    """Tables as numbers, with each smaller room."""
    flags, variables = sanitizer(room)
    program = compiled(library, room, "numbers", f"{HERE}/numbers.c", *flags)
    return f"{len(NUMBERS)} texts", unexpected(program, NUMBERS, variables)


def unexpected(program, rows, variables):
    """A line for each row whose words have another answer than the one beside them."""
    found = [(words, it, ran(program, *words, **variables)) for words, it in rows]
    return [f"{words!r} has {said!r}, expected {it!r}" for words, it, said in found if said != it]


def checks(library, room):
    """Checks of tables, with each smaller room."""
    flags, variables = sanitizer(room)
    program = compiled(library, room, "check", f"{HERE}/check.c", *flags)
    text, whole = NUMBERS[1][0][0], WHOLE.split()
    rows = [(("what", "S"), "2 line 1: not a grammar line\n")]
    for place, number, expected in CHECKS:
        numbers = whole[:number] if place is None else [*whole[:place], str(number), *whole[place + 1 :]]
        rows.append(((text, "S", *numbers), expected))
    # Another start symbol, another grammar with the same lists of productions, numbers without items and
    # with one more at the end, and faults of text and start symbol.
    rows += [
        ((text, "A", *whole), OTHER),
        (('S = "x"\nA = "x"', "S", *whole), OTHER),
        (('S = "x"', "S", *whole), "2 the tables: place 4: the grammar does not have 2 nonterminals\n"),
        ((text, "S", *PLAIN.split()), "2 the tables: place 2: 0 lists of items are not one for each state\n"),
        ((text, "S", *whole, "0"), WRONG.format(len(whole))),
        ((text, "T", *whole), "2 the start symbol is no nonterminal\n"),
        ((text, "S\udcff", *whole), "2 the start symbol is not UTF-8\n"),
        (("S = A\nA = A\ninline A", "S", *whole), "2 cyclic inline of A\n"),
        (('S = "\udcff"', "S", *whole), "2 cannot read grammar\n"),
    ]
    return f"{len(rows)} calls", unexpected(program, rows, variables)


def own(library, room, stored):
    """Checks of the library's own tables, of these with a changed number, and of these without the last
    numbers."""
    flags, variables = sanitizer(room)
    program = compiled(library, room, "own", f"{HERE}/own.c", *flags)
    said, faults = said_of(stored.for_tables(), room, program, **variables)
    return said, faults or ["expected tables"] * (" 0 tables" in said)


def by_numbers(library, room):
    """Random calls that take the numbers of tables, of which some are changed."""
    flags, variables = sanitizer(room)
    program = compiled(library, room, "by_numbers", f"{HERE}/by_numbers.c", *flags)
    said = ran(program, str(CALLS), *BY_NUMBERS, **variables)
    return said.strip(), []
