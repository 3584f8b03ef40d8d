"""Declarations in Rattle's sources: where one ends, and what its parts are."""
import re

CLAUSE = re.compile(r"\b(?:requires|ensures)\*?(?: \w+)? $")
# A comment, a text and a character, whose brackets are none.
PASSED = re.compile(r'//[^\n]*|"(?:[^"\\]|\\.)*"|\'[^\'\\\n]\'')
HEAD = re.compile(
    r'(?m)^(?P<indent> *)(?:pub(?:\([\w ]+\))? )?(?:unsafe |const |extern "C" )*'
    r"(?P<kind>fn|struct|enum|trait|type|impl)\b(?: (?P<name>\w+))?"
)


def after(text, at):
    """The place after what stands at a place, which may be a comment, a text or all in brackets."""
    if passed := PASSED.match(text, at):
        return passed.end()
    if text[at] in "([{":
        at += 1
        while text[at] not in ")]}":
            at = after(text, at)
    return at + 1


def end_of(text, at, has_body):
    """The place after a declaration, or before its body where it is not to have one."""
    while text[at] != ";":
        if text[at] == "{" and not CLAUSE.search(text[:at].rpartition("\n")[2]):
            return after(text, at) if has_body else at
        at = after(text, at)
    return at + 1


class Declaration:
    """A declaration: its kind and name, the type or trait in whose block it stands, and its place."""

    def __init__(self, text, head, owner=""):
        self.kind, self.name, self.indent, self.owner = head["kind"], head["name"] or "", head["indent"], owner
        self.start, self.end = head.start(), end_of(text, head.end(), True)
        self.body = end_of(text, head.end(), False)
        self.contract, self.text = text[self.start : self.body], text[self.start : self.end]

    @property
    def named(self):
        """The types and traits that the head of an impl names, as words."""
        return self.contract.partition("\n    where")[0] if self.kind == "impl" else self.name


def declarations_of(text):
    """The declarations of a source file, in their order: at its top, and in impls and traits."""
    found = []
    for head in HEAD.finditer(text):
        around = [it for it in found if it.start < head.start() < it.end]
        if any(it.kind not in ("impl", "trait") for it in around):
            continue
        if (head["kind"] == "impl") != (head["name"] is None) and head["kind"] != "impl":
            continue
        found.append(Declaration(text, head, around[-1].named if around else ""))
    return found
