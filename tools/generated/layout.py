"""Comments, lists of numbers and lists of texts, as the generated files have them."""
WIDTH = 100


def visible(text):
    """A text for a comment: what is not printable ASCII is written by its number."""
    return "".join(it if " " <= it <= "~" else f"\\u{{{ord(it):x}}}" for it in text)


def symbol_text(symbol):
    is_terminal, text = symbol
    return f'"{visible(text)}"' if is_terminal else text


def production_text(production):
    return " ".join([production.nonterminal, "=", *map(symbol_text, production.symbols)])


def number_lines(numbers, indent):
    """Numbers with commas, as many in a line as fit."""
    lines, line = [], ""
    for it in numbers:
        word = f"{it},"
        if line and len(indent) + len(line) + 1 + len(word) > WIDTH:
            lines.append(indent + line)
            line = word
        else:
            line = f"{line} {word}" if line else word
    return [*lines, indent + line]


def bits_of(numbers):
    """The bits of the smallest cells that have all numbers: 8, 16 or 32."""
    largest = max(numbers, default=0)
    return next(it for it in (8, 16, 32) if largest < 1 << it)
