"""answer.py QUESTIONS ANSWERS

Answers each question, with a byte 0 after it, by the generated modules beside it. A question is a
line of numbers: that of the tables, the limit, whether the end is read, and the terminals.
"""
import importlib
import sys


class Trees:
    """The trees so far, with the positions from which and up to which they have terminals."""

    def __init__(self):
        self.trees, self.read = [], 0

    def shift(self, position, terminal):
        assert position == self.read
        self.read += 1
        self.trees.append((shown(terminal), position, self.read))

    def reduce(self, production, first, end):
        rest = len(self.trees) - production.length
        parts, at = self.trees[rest:], first
        for _, start, stop in parts:
            assert start == at
            at = stop
        assert at == end == self.read
        tree = f"[{production.left.text}: {', '.join(it[0] for it in parts)}]"
        self.trees[rest:] = [(tree, first, end)]


def shown(terminal):
    return "Eof" if terminal.name == "END" else f'"{terminal.text}"'


def answer(module, limit, has_end, terminals):
    trees, run = Trees(), module.Run(limit)
    for wrong in (-1, module.Terminal.END + 1):
        try:
            run.push(wrong, trees)
            return "fault\n"
        except ValueError:
            pass
    try:
        if not has_end:
            for it in terminals:
                run.push(it, trees)
            return "goes on\n"
        module.parse(terminals, trees, limit)
    except module.LimitError:
        return "limit\n"
    except module.RefusedError as why:
        lines = [f"refused at {shown(why.terminal)}", str(why.position), *map(shown, why.expected)]
        return "".join(f"{it}\n" for it in lines)
    (tree,) = trees.trees
    return f"{tree[0]}\n"


def main(questions, answers):
    with open(questions, encoding="utf-8") as it:
        rows = [[int(number) for number in line.split()] for line in it]
    with open(answers, "w", encoding="utf-8", newline="") as to:
        for tables, limit, has_end, *terminals in rows:
            to.write(answer(importlib.import_module(f"t{tables}"), limit, has_end, terminals) + "\0")


main(*sys.argv[1:])
