"""The calculators of examples/calculator, by files that are generated for them."""
import os
import shutil
import subprocess
import sys

from gate.callers.parts import lacks, ran
from gate.files import ROOT, read, write
from gate.replay.asking import data_of
from generated.__main__ import text_of

FOLDER = f"{ROOT}/examples/calculator"
GRAMMAR, START = "calc.txt", "Input"
# The generated files, with the language of each.
FILES = {"calc.h": "c", "calc.rs": "rust", "calc.py": "python"}
# How a calculator is compiled, if its compiler is on the path, and the words that run it.
CALCULATORS = {
    "C": ("gcc -std=c99 -Wall -Wextra -Werror -fsanitize=address,undefined -o main main.c", ["./main"]),
    "Rust": ("rustc --edition 2021 -D warnings -o main main.rs", ["./main"]),
    "Python": (None, [sys.executable, "-W", "error", "main.py"]),
}
VALUES = {"1 + 2 * (3 - 4)": "-1", "-3/4": "-0.75", "2.5*(4)": "10", "7": "7", "--1 - -1": "2"}
# Texts that are refused, with the first words and the last ones of the message.
REFUSED = {"1 + )": ("token 3", "is wrong; expected: ( - number"), "2 2": ("token 2", "is wrong; expected: * + - / end of input")}
# How many lines a calculator has at most.
LINES = 60


def texts_of(program):
    """The generated files of the grammar, and faults."""
    _, data, fault = data_of(program, {GRAMMAR: read(f"{FOLDER}/{GRAMMAR}")}, GRAMMAR, START, "Lane")
    if data is None or fault:
        return {}, [f"{GRAMMAR}: {fault or 'no data'}"]
    return {it: text_of(data, language, "lane", prefix="calc") for it, language in FILES.items()}, []


def changed(texts):
    """The generated files in the folder that are not those of the grammar."""
    there = [it for it in texts if os.path.exists(f"{FOLDER}/{it}")]
    return [f"{it} is not the file of {GRAMMAR}" for it in there if texts[it] != read(f"{FOLDER}/{it}")]


def wrong_values(language, texts, room):
    """The values that a calculator prints wrong."""
    compiler, words = CALCULATORS[language]
    if compiler and lacks(compiler.split()[0]):
        return []
    shutil.copytree(FOLDER, room)
    for name, text in texts.items():
        write(f"{room}/{name}", text)
    if compiler:
        ran(*compiler.split(), folder=room)
    printed = {it: ran(*words, it, folder=room).strip() for it in VALUES}
    wrong = [f"{language}: {it} is {text}, expected {VALUES[it]}" for it, text in printed.items() if text != VALUES[it]]
    return [*wrong, *(f"{language}: {it} is not refused as expected" for it in REFUSED if not refused(words, it, room))]


def refused(words, text, room):
    """Whether a calculator prints the message of a refused text alone, to standard error, with the status 1."""
    ended = subprocess.run([*words, text], cwd=room, capture_output=True, text=True, check=False)
    first, last = REFUSED[text]
    message = ended.stderr.strip()
    return ended.returncode == 1 and not ended.stdout and message.startswith(first) and message.endswith(last)


def long():
    """The calculators with too many lines."""
    names = [it for it in sorted(os.listdir(FOLDER)) if it.startswith("main.")]
    return [f"{it} has {count} lines" for it in names if (count := read(f"{FOLDER}/{it}").count("\n")) >= LINES]


def faults_of(program, room):
    texts, faults = texts_of(program)
    wrong = [more for it in CALCULATORS if texts for more in wrong_values(it, texts, f"{room}/{it} calculator")]
    return [*faults, *changed(texts), *long(), *wrong]
