"""What `lrshow` writes if a parser is asked for, by the data that it writes of the same tables."""
import collections
import re

from generated import in_c, in_python, in_rust
from generated.packing import Packed
from generated.tables import NoTables, Tables
from gate.shown.data import expect

# The words for the languages, and what makes their texts.
WRITERS = {"c": in_c, "rust": in_rust, "python": in_python}
METHODS = ("lane", "canonical")
# What the names in a file for C begin with, and whether the grammar gets a new start symbol.
Options = collections.namedtuple("Options", "prefix is_augmented", defaults=("lr", False))


def options_of(language, words, is_name):
    """The options that words after a language are, or None where one is no option."""
    options = Options()
    while words:
        if words[0] == "--augment":
            options, words = options._replace(is_augmented=True), words[1:]
        elif language == "c" and words[0] == "--prefix" and len(words) > 1 and is_name(words[1]):
            options, words = options._replace(prefix=words[1]), words[2:]
        else:
            return None
    return options


def text_of(packed, language, method, prefix):
    """The file of the generator in tools/generated."""
    words = [prefix] if language == "c" else []
    return WRITERS[language].text_of(packed, method, *words).encode()


def check(answer, data, language, prefix, methods=METHODS, hidden=None):
    """An answer has the file that the generator makes of the data, byte for byte, or its reason. The
    start symbol of the data may be a new one, which is hidden."""
    try:
        packed = Packed(Tables(data, hidden), False)
    except NoTables as why:
        # The reasons differ in how to go on, which is after a semicolon.
        reason, is_error = str(why).split(";")[0].encode(), (answer.status, answer.stdout) == (why.status, b"")
        expect(is_error and answer.stderr.startswith(reason), f"expected {reason!a} with status {why.status}")
        return
    expect((answer.status, answer.stderr) == (0, b""), "expected status 0, and nothing on standard error")
    texts = [text_of(packed, language, it, prefix) for it in methods]
    expect(answer.stdout in texts, f"another file for {language} than that of the generator")


def check_augmented(answer, data):
    """An answer has a file of a grammar with a new start symbol, or says why there is none. The data are
    those of the grammar as it is. If that has a file, so has the grammar with the new symbol."""
    try:
        Tables(data)
    except NoTables:
        reason = re.fullmatch(rb"conflicts: [0-9]+; add `.*|no file: .*", answer.stderr.rstrip(b"\n"))
        if reason and answer.stdout == b"" and answer.status == (1 if reason[0].startswith(b"c") else 2):
            return
    expect((answer.status, answer.stderr) == (0, b""), "expected status 0, and nothing on standard error")
    head = f" Start symbol: {data['start']}. Method: ".encode()
    expect(head in answer.stdout.split(b"\n")[2], "another start symbol in the comment of the file")


def lists_more(marked, left):
    """Whether a marked name has no production. `lrshow` lists it in a file, and the data do not."""
    return bool(set(marked) - set(left))
