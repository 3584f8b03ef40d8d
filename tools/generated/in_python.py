"""The module for Python."""
from generated.arrays import arrays_of
from generated.heading import commented, heading
from generated.layout import number_lines, production_text, visible
from generated.names import Names, upper
from generated.texts import read

USAGE = "Import it. It needs Python 3.9 and no other package."


def quoted(text):
    """A text as a literal of Python."""
    plain = {it for it in map(chr, range(32, 127)) if it not in '"\\'}

    def shown(it):
        number = ord(it)
        if it in plain:
            return it
        return f"\\{it}" if it in '"\\' else f"\\x{number:02x}" if number < 256 else f"\\u{number:04x}" if number < 65536 else f"\\U{number:08x}"

    return '"' + "".join(map(shown, text)) + '"'


def enumeration(name, names, comments, comment, method=()):
    members = [f"    {it} = {number}  # {text}" for number, (it, text) in enumerate(zip(names, comments))]
    return [f"class {name}(IntEnum):", f'    """{comment}"""', "", *members, *method, "", ""]


def prop(name, result, comment, value):
    return ["", "    @property", f"    def {name}(self) -> {result}:", f'        """{comment}"""', f"        return {value}"]


def array(it):
    return [f"# {it.comment}", f"_{it.name.upper()}: tuple[int, ...] = (", *number_lines(it.numbers, "    "), ")"]


def text_of(packed, method):
    """The whole file."""
    tables, names = packed.tables, Names(packed.tables, upper, "__")
    terminals = [*[f'"{visible(it)}"' for it in tables.terminals], "the end of the input"]
    text = prop("text", "str", "Its text.", "_TERMINAL_TEXTS[self]")
    name = prop("text", "str", "Its name.", "_NONTERMINAL_TEXTS[self]")
    sides = [
        *prop("left", "Nonterminal", "The nonterminal on its left side.", "Nonterminal(_LEFT[self])"),
        *prop("length", "int", "How many symbols its right side has.", "_LENGTH[self]"),
    ]
    lines = [
        "import sys", "from collections.abc import Iterable", "from enum import IntEnum", "from typing import Optional, Protocol", "", "",
        *enumeration("Terminal", names.terminals, terminals, "A terminal, or the end of the input.", text),
        *enumeration("Nonterminal", names.nonterminals, tables.nonterminals, "A nonterminal.", name),
        *enumeration("Production", names.productions, map(production_text, tables.productions), "A production.", sides),
        "# fmt: off",
        "# the texts of the terminals",
        "_TERMINAL_TEXTS: tuple[str, ...] = (", *[f"    {quoted(it)}," for it in [*tables.terminals, "end of input"]], ")",
        "# the names of the nonterminals",
        "_NONTERMINAL_TEXTS: tuple[str, ...] = (", *[f"    {quoted(it)}," for it in tables.nonterminals], ")",
        *[line for it in arrays_of(packed) for line in array(it)],
        "# fmt: on",
        *([] if packed.is_small else ["# how many bytes a set has", f"_SET_BYTES = {packed.set_bytes}"]),
        "_TERMINALS = tuple(Terminal)",
        "_PRODUCTIONS = tuple(Production)", "", "",
        *read("lookup_small.py" if packed.is_small else "lookup.py"), "", "",
        *read("driver.py"),
    ]
    head = commented(heading(packed, method, USAGE), "#")
    return "".join(f"{it}\n" for it in [*head, "", *lines])
