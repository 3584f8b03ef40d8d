"""Compiles the files of a language together, and runs them on questions."""
import concurrent.futures
import os
import shutil
import sys

from generated import in_c, in_python, in_rust
from gate.callers.parts import ran
from gate.files import read, write

HERE = os.path.dirname(os.path.realpath(__file__))
FLAGS = "-std=c99 -Wall -Wextra -Werror -pedantic -fsanitize=address,undefined -fno-sanitize-recover=all".split()


def by_c(made, room, pool):
    """The command of the program in C."""
    write(f"{room}/tables.h", "".join(f"TABLES(answer_{it})\n" for it in range(len(made))))
    shutil.copy(f"{HERE}/answers.h", room)
    for number, it in enumerate(made):
        write(f"{room}/t{number}.h", in_c.text_of(it.packed, it.method))
        lines = [f'#include "t{number}.h"', f"#define ANSWER answer_{number}", f'#include "{HERE}/answer.h"']
        declared = f"void answer_{number}(const struct question *question, FILE *to);"
        write(f"{room}/t{number}.c", "\n".join([*lines[:1], '#include "answers.h"', declared, *lines[1:], ""]))
    shutil.copy(f"{HERE}/answer.c", f"{room}/answer.c")
    names = ["answer", *[f"t{number}" for number in range(len(made))]]
    groups = [names[it::16] for it in range(16) if names[it::16]]
    list(pool.map(lambda group: ran("gcc", *FLAGS, "-I.", "-c", *[f"{it}.c" for it in group], folder=room), groups))
    ran("gcc", *FLAGS, "-o", "answer", *[f"{it}.o" for it in names], folder=room)
    return [f"{room}/answer"]


def by_rust(made, room, _pool):
    for number, it in enumerate(made):
        write(f"{room}/t{number}.rs", in_rust.text_of(it.packed, it.method))
    names = " ".join(f"t{number}" for number in range(len(made)))
    write(f"{room}/answer.rs", read(f"{HERE}/answer.rs").replace("NAMES", names))
    ran("rustc", "--edition", "2021", "-D", "warnings", "-o", "answer", "answer.rs", folder=room)
    return [f"{room}/answer"]


def by_python(made, room, _pool):
    for number, it in enumerate(made):
        write(f"{room}/t{number}.py", in_python.text_of(it.packed, it.method))
    shutil.copy(f"{HERE}/answer.py", room)
    return [sys.executable, "-W", "error", f"{room}/answer.py"]


# A language: the commands that it needs, how its files are compiled, and the command that leaves
# them as they are if their form is right, with the commands that it needs.
LANGUAGES = {
    "C": (("gcc",), by_c, None),
    "Rust": (("rustc",), by_rust, (("rustfmt",), ["rustfmt", "--edition", "2021", "--check"], "rs")),
    "Python": ((), by_python, (("black",), ["black", "--quiet", "--check"], "py")),
}


def answers(made, lines, build, room):
    """The answers of a language to the lines of questions."""
    os.makedirs(room)
    with concurrent.futures.ThreadPoolExecutor(os.cpu_count()) as pool:
        command = build(made, room, pool)
    write(f"{room}/questions", "".join(lines))
    ran(*command, f"{room}/questions", f"{room}/answers", folder=room)
    return read(f"{room}/answers").split("\0")[:-1]
