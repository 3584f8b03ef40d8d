"""The header for C."""
from generated.arrays import arrays_of
from generated.heading import commented, heading
from generated.layout import bits_of, number_lines, production_text, symbol_text
from generated.names import Names, upper
from generated.texts import read

PLAIN = {ord(it) for it in map(chr, range(32, 127)) if it not in '"\\?'}


def quoted(text):
    """A text as a literal of C. A question mark has a backslash, since two may begin a trigraph."""
    shown = (chr(it) if it in PLAIN else f"\\{chr(it)}" if chr(it) in '"\\?' else f"\\{it:03o}" for it in text.encode())
    return f'"{"".join(shown)}"'


class Header:
    """The parts of the header, by lines. All names begin with one prefix, in small letters or capitals."""

    def __init__(self, packed, prefix):
        self.packed, self.tables = packed, packed.tables
        self.small, self.big = f"{prefix}_", f"{prefix.upper()}_"
        self.names = Names(packed.tables, upper, "__")

    def fixed(self, name):
        """The lines of a fixed text, which has the prefix lr."""
        return [it.replace("lr_", self.small).replace("LR_", self.big) for it in read(name)]

    def enumeration(self, kind, letter, names, texts):
        members = [f"    {self.big}{letter}_{it}," for it in names]
        members[-1] = members[-1][:-1]
        lines = [f"{it} // {text}" for it, text in zip(members, texts)]
        return ["typedef enum {", *lines, f"}} {self.small}{kind};", ""]

    def enumerations(self):
        tables, names = self.tables, self.names
        terminals = [*[symbol_text((True, it)) for it in tables.terminals], "the end of the input"]
        return [
            *self.enumeration("terminal", "T", names.terminals, terminals),
            *self.enumeration("nonterminal", "N", names.nonterminals, tables.nonterminals),
            *self.enumeration("production", "P", names.productions, map(production_text, tables.productions)),
        ]

    def counts(self):
        rows = [("TERMINALS", self.tables.end + 1), ("PRODUCTIONS", self.packed.production_count)]
        rows += [] if self.packed.is_small else [("SET_BYTES", self.packed.set_bytes)]
        lines = [f"    {self.big}{name} = {number}" for name, number in rows]
        return ["enum {", *[f"{it}," for it in lines[:-1]], lines[-1], "};", ""]

    def texts(self, name, comment, texts):
        head = f"static const char *const {self.small}{name}[] = {{"
        return [f"// {comment}", head, *[f"    {quoted(it)}," for it in texts], "};", ""]

    def arrays(self):
        """The tables: the arrays are one value, so that a function has one address of all."""
        rows = [(it, f"    uint{bits_of(it.numbers)}_t {it.name}[{len(it.numbers)}];") for it in arrays_of(self.packed)]
        types = [line for it, declared in rows for line in (f"    // {it.comment}", declared)]
        values = [line for it, _ in rows for line in (f"    .{it.name} = {{", *number_lines(it.numbers, "        "), "    },")]
        return ["static const struct {", *types, f"}} {self.small}tables = {{", *values, "};", ""]

    def lines(self):
        return [
            f"#ifndef {self.big}TABLES", f"#define {self.big}TABLES", "",
            "#include <stddef.h>", "#include <stdint.h>", "",
            *self.enumerations(),
            *self.counts(),
            *self.texts("terminal_texts", "the text of a terminal", [*self.tables.terminals, "end of input"]),
            *self.texts("nonterminal_texts", "the name of a nonterminal", self.tables.nonterminals),
            *self.arrays(),
            *self.fixed("lookup_small.c" if self.packed.is_small else "lookup.c"), "",
            *self.fixed("interface.c"), "",
            *self.fixed("driver.c"), "",
            "#endif",
        ]


def text_of(packed, method, prefix="lr"):
    """The whole file."""
    header = Header(packed, prefix)
    usage = f"Include it. All its names begin with {header.small} or {header.big}."
    return "".join(f"{it}\n" for it in [*commented(heading(packed, method, usage), "//"), "", *header.lines()])
