"""Runs by the data of `lrshow`, step by step as docs/FORMATS.md has them, with the expected tokens."""
import collections

# A text of the kind that `lrtab` prints, and for a refusal the position and the expected tokens.
Outcome = collections.namedtuple("Outcome", "text position expected", defaults=(None, None))


class Refused(Exception):
    """The next token is wrong."""


class Limit(Exception):
    """No step was left."""


class Model:
    """The tables of data. A reduction by the nonterminal `hidden` is no step, and makes no tree."""

    def __init__(self, data, hidden=None):
        self.terminals, self.hidden, sets = data["terminals"], hidden, data["sets"]
        self.productions = {it["number"]: (it["nonterminal"], len(it["symbols"])) for it in data["productions"]}
        self.states = {it["number"]: it for it in data["states"]}
        self.reductions = {
            (number, token): self.productions[it["production"]]
            for number, state in self.states.items() for it in state["reductions"] for token in sets[it["lookahead"]]
        }

    def step(self, stack, trees, token):
        """Makes a step on a token. Returns whether it was shifted, and None if the input is accepted."""
        target = self.states[stack[-1]]["shifts"].get(token)
        if target is not None:
            stack.append(target)
            trees.append(shown(token))
            return True
        if (stack[-1], token) not in self.reductions:
            raise Refused
        name, length = self.reductions[stack[-1], token]
        first = len(trees) - length
        tree = trees[first] if name == self.hidden else f"[{name}: {', '.join(trees[first:])}]"
        del stack[first + 1 :], trees[first:]
        trees.append(tree)
        if name not in self.states[stack[-1]]["gotos"]:
            return None
        stack.append(self.states[stack[-1]]["gotos"][name])
        return False

    def is_hidden(self, stack, token):
        return self.reductions.get((stack[-1], token), ("",))[0] == self.hidden

    def read(self, stack, trees, token, left):
        """Makes the steps on a token. Returns how many steps are left, and whether the input is accepted."""
        while True:
            counts = token in self.states[stack[-1]]["shifts"] or (stack[-1], token) in self.reductions
            counts = counts and not self.is_hidden(stack, token)
            if counts and left == 0:
                raise Limit
            was_shifted = self.step(stack, trees, token)
            left -= counts
            if was_shifted is not False:
                return left, was_shifted is None

    def may_follow(self, stack, token, left):
        try:
            self.read(list(stack), [""] * (len(stack) - 1), token, left)
        except (Refused, Limit):
            return False
        return True

    def outcome(self, limit, tokens, has_end=True):
        """The outcome of a run. Without an end it may go on."""
        stack, trees, left = [0], [], limit
        for position, token in enumerate([*tokens, *[None] * has_end]):
            before, kept = list(stack), left
            try:
                left, is_accepted = self.read(stack, trees, token, left)
            except Limit:
                return Outcome("limit")
            except Refused:
                expected = [it for it in [*self.terminals, None] if self.may_follow(before, it, kept)]
                return Outcome(f"refused at {shown(token)}", position, [*map(shown, expected)])
            if is_accepted:
                return Outcome(trees[0])
        return Outcome("goes on")


def shown(token):
    return "Eof" if token is None else f'"{token}"'
