"""The module for Rust."""
from generated.arrays import arrays_of
from generated.heading import commented, heading
from generated.layout import bits_of, number_lines, production_text, visible
from generated.names import Names, camel
from generated.texts import read

USAGE = "Declare it as a module. It needs no crate but core and alloc."
DERIVED = "#[derive(Clone, Copy, Debug, PartialEq, Eq, PartialOrd, Ord, Hash)]"


def quoted(text):
    plain = {it for it in map(chr, range(32, 127)) if it not in '"\\'}
    return '"' + "".join(it if it in plain else f"\\{it}" if it in '"\\' else f"\\u{{{ord(it):x}}}" for it in text) + '"'


def enumeration(name, members, comments, comment):
    bits = bits_of([len(members) - 1])
    lines = [line for it, text in zip(members, comments) for line in (f"    /// {text}", f"    {it},")]
    return [f"/// {comment}", DERIVED, f"#[repr(u{bits})]", f"pub enum {name} {{", *lines, "}", ""]


def constant(name, kind, lines, count, comment, visible_to="static"):
    return [f"/// {comment}", "#[rustfmt::skip]", f"{visible_to} {name}: [{kind}; {count}] = [", *lines, "];", ""]


def tables_of(arrays):
    """The tables: the arrays are one value, so that a function has one address of all."""
    rows = [(it, f"    {it.name}: [u{bits_of(it.numbers)}; {len(it.numbers)}],") for it in arrays]
    types = [line for it, declared in rows for line in (f"    /// {it.comment}", declared)]
    values = [line for it, _ in rows for line in (f"    {it.name}: [", *number_lines(it.numbers, "        "), "    ],")]
    return [
        "struct Tables {", *types, "}", "", "#[rustfmt::skip]", "static TABLES: Tables = Tables {", *values, "};", "",
    ]


def members(kind, names):
    lines = [f"    {kind}::{it}," for it in names]
    return constant(f"{kind.upper()}S", kind, lines, len(names), f"the {kind.lower()}s, by number", "pub static")


def text_of(packed, method):
    """The whole file."""
    tables, names = packed.tables, Names(packed.tables, camel, "_", ["Self"])
    terminals = [*[f'`"{visible(it)}"`' for it in tables.terminals], "the end of the input"]
    lines = [
        "#![allow(dead_code, non_camel_case_types, clippy::all)]", "#![forbid(unsafe_code)]", "",
        "extern crate alloc;", "", "use alloc::format;", "use alloc::string::String;", "use alloc::vec::Vec;", "",
        *enumeration("Terminal", names.terminals, terminals, "A terminal, or the end of the input."),
        *enumeration("Nonterminal", names.nonterminals, [f"`{it}`" for it in tables.nonterminals], "A nonterminal."),
        *enumeration("Production", names.productions, [f"`{production_text(it)}`" for it in tables.productions], "A production."),
        *members("Terminal", names.terminals),
        *members("Nonterminal", names.nonterminals),
        *members("Production", names.productions),
        *constant("TERMINAL_TEXTS", "&str", [f"    {quoted(it)}," for it in [*tables.terminals, "end of input"]], tables.end + 1, "the text of a terminal"),
        *constant("NONTERMINAL_TEXTS", "&str", [f"    {quoted(it)}," for it in tables.nonterminals], len(tables.nonterminals), "the name of a nonterminal"),
        *([] if packed.is_small else ["/// how many bytes a set has", f"const SET_BYTES: usize = {packed.set_bytes};", ""]),
        *tables_of(arrays_of(packed)),
        *read("lookup_small.rs" if packed.is_small else "lookup.rs"), "",
        *read("interface.rs"), "",
        *read("driver.rs"),
    ]
    head = commented(heading(packed, method, USAGE), "//")
    return "".join(f"{it}\n" for it in [*head, "", *lines])
