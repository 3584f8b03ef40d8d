#!/usr/bin/env python3
"""tools/make_grammar.py KIND SIZE

Prints a grammar that is made by a rule, so that the tables of large ones can be timed. Its start
symbol is `S`, which is on no right side. KIND is one of these:

levels      SIZE levels of operators, each of which binds more closely than the one before
brackets    40 levels between SIZE pairs of brackets of their own, which gives many canonical states
statements  SIZE statements of two forms, with keywords of their own, an expression of 40 levels and
            nested blocks
keywords    SIZE nonterminals of four alternatives, which one of 480 keywords distinguishes, with
            lists, options and an expression of 20 levels
operators   SIZE operators without an order, so that each is in conflict with each
chain       SIZE names, of which each has the next as its only alternative
marked      the same, with each name marked `inline`
long        one right side of SIZE symbols
terminals   a state with a shift for each of SIZE terminals
diamonds    SIZE nonterminals in a chain, each of which derives the next one in two ways
ring        SIZE nonterminals, each of which derives each other one alone
twins       SIZE equal productions
choices     SIZE choices between two reductions, which only the left context decides
stitched    the grammar `keywords` of SIZE, with one such choice
"""
import sys


def rows(size, text):
    """A text for each number below a size. `{i}` is the number, and `{n}` the next one."""
    return "".join(text.format(i=it, n=it + 1) for it in range(size))


def levels(name, size):
    middle = rows(size, 'E{i} = E{i} "o{i}" E{n}\nE{i} = E{n}\n')
    return f'{name} = E0\n{middle}E{size} = "(" E0 ")"\nE{size} = "id"\n'


def drawn_after(drawn):
    """The next number of a pseudorandom sequence, by the multiplier of Knuth's MMIX."""
    return (drawn * 6_364_136_223_846_793_005 + 1_442_695_040_888_963_407) % 2**64


def alternatives(i, drawn, size):
    """The alternatives of a nonterminal, which mention later ones, and any one in parentheses."""
    keyword, any_one = 4 * i % 480, drawn % 1_000_003 % size
    first, second = (i + 1 + it % 1_000_003 % (size - i) for it in (drawn, drawn_after(drawn)))
    return (
        f'X{i} = "k{keyword}" X{first} "end"\nX{i} = "k{keyword + 1}" L{i} ";"\n'
        f'X{i} = "k{keyword + 2}" "(" X{any_one} ")" A ";"\nX{i} = "k{keyword + 3}" O{i} X{second}\n'
        f'O{i} =\nO{i} = "opt" A\nL{i} = X{second}\nL{i} = L{i} "," X{first}\n'
    )


def keywords(size):
    text, drawn = ["S = P\nP = X0\nP = P X0\n"], 7
    for it in range(size):
        drawn = drawn_after(drawn)
        text.append(alternatives(it, drawn, size))
    return "".join(text) + f'X{size} = "x"\n' + levels("A", 20)


def ring(size):
    others = ("".join(f"N{i} = N{it}\n" for it in range(size) if it != i) for i in range(size))
    return "S = N0\n" + "".join(f'{it}N{i} = "x{i}"\n' for i, it in enumerate(others))


PAIRS = 'S = "b{i}" B "e{i}"\n'
STATEMENTS = 'T = "k{i}" A "{{" L "}}"\nT = "q{i}" "{{" L "}}" A ";"\n'
DIAMOND = "A{i} = L{i}\nA{i} = R{i}\nL{i} = A{n}\nR{i} = A{n}\n"
CHOICE = (
    'S = C{i}\nC{i} = "a{i}" E{i} "d"\nC{i} = "b{i}" F{i} "d"\nC{i} = "a{i}" F{i} "e"\n'
    'C{i} = "b{i}" E{i} "e"\nE{i} = "c"\nF{i} = "c"\n'
)
KINDS = {
    "levels": lambda size: levels("S", size),
    "brackets": lambda size: rows(size, PAIRS) + levels("B", 40),
    "statements": lambda size: "S = L\nL =\nL = L T\n" + rows(size, STATEMENTS) + levels("A", 40),
    "keywords": keywords,
    "operators": lambda size: "S = E\n" + rows(size, 'E = E "o{i}" E\n') + 'E = "id"\n',
    "chain": lambda size: "S = N0\n" + rows(size, "N{i} = N{n}\n") + f'N{size} = "x"\n',
    "marked": lambda size: "S = N0\n" + rows(size, "inline N{i}\nN{i} = N{n}\n") + f'N{size} = "x"\n',
    "long": lambda size: "S =" + ' "a"' * size + "\n",
    "terminals": lambda size: rows(size, 'S = "t{i}"\n'),
    "diamonds": lambda size: f'S = A0\n{rows(size, DIAMOND)}A{size} = "x"\nA{size} = "y"\n',
    "ring": ring,
    "twins": lambda size: "S = T\n" + 'T = "x"\n' * size,
    "choices": lambda size: rows(size, CHOICE),
    "stitched": lambda size: rows(1, CHOICE) + keywords(size),
}


def main(words):
    if len(words) != 2 or words[0] not in KINDS or not words[1].isdecimal():
        print(__doc__)
        return 2
    sys.stdout.write(KINDS[words[0]](int(words[1])))
    return 0


if __name__ == "__main__":
    sys.exit(main(sys.argv[1:]))
