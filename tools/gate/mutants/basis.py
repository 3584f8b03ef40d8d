"""What a refusal of a mutant rests on, as texts, so that a checksum shows whether any of it changed.

The basis of a mutant is its edit, the mutated function with its contract and proof files, the
contracts of the functions that it may call, and the definitions and types that these contracts
name, with those that they name, and so on. A name is resolved by the imports of its file. A call is
resolved by its name: where several functions have it, the basis has the contracts of them all. So
the basis may be too large, and then a mutant is tried once too often.
"""
import hashlib
import os
import re

from gate.declarations import declarations_of
from gate.files import below, files_below, listed, read
from gate.mutants.copies import is_of_a_trait, marks_above

NAME = re.compile(r"[^\W\d][\w']*")
TYPE = re.compile(r"\b[A-Z]\w*")
WORD = re.compile(r"(?m)^ {0,2}(?:pub )?(?P<kind>abbrev|record|data) (?:pub )?(?P<name>[^\W\d][\w']*)")
MODULE = re.compile(r"(?m)^module .*$")
IMPORT = re.compile(r"(?m)^ *(?:pub )?(?:ghost )?use Rattle\.(?P<crate>\w+)\.specs\.(?P<path>[\w.]+)\.\{(?P<names>[^}]*)\}")
PATH_CALL = re.compile(r"\b(?P<above>[A-Z]\w*)::(?:<[^>]*>::)?(?P<name>[a-z_]\w*)")
METHOD_CALL = re.compile(r"\.(?P<name>[a-z_]\w*)(?:::<[^()]*>)?\(")
# The methods that signs and loops call.
SIGNS = {"==": "eq", "!=": "eq", " < ": "cmp", " > ": "cmp", "for ": "next", "?": "from"}


def without_comments(text):
    """The text without comments and empty lines."""
    lines = [re.sub(r"(^|\s)(//|--).*$", "", it).rstrip() for it in text.split("\n")]
    return "\n".join(it for it in lines if it)


def plain(text):
    """The text of a declaration without comments, imports and words of visibility, which a refusal
    does not rest on."""
    lines = [it for it in without_comments(text).split("\n") if not re.match(r" *(pub )?(ghost )?use ", it)]
    return re.sub(r"(?m)^( *)pub(\([a-z ]+\))? ", r"\1", "\n".join(lines))


def imports_of(text):
    """What a file imports from specs: by the name that it uses, the crate, the path and the name there."""
    found = {}
    for it in IMPORT.finditer(text):
        for name in it["names"].split(","):
            old, _, new = name.strip().partition(" as ")
            found[new or old] = (it["crate"], it["path"].split("."), old)
    return found


def words_of(text):
    """The definitions of a file of specs, by name, each with the head of the module around it, and
    the constructors of its types."""
    starts = sorted([*WORD.finditer(text), *MODULE.finditer(text)], key=lambda it: it.start())
    ends, module, found = [*(it.start() for it in starts[1:]), len(text)], "", {}
    for start, end in zip(starts, ends):
        if start.re is MODULE:
            module = start[0]
            continue
        own = text[start.start() : end].rstrip()
        own = f"{module}\n{own}" if own.startswith(" ") else own
        constructors = re.findall(r"(?m)^ +(?:pub )?([^\W\d]\w*) :", own) if start["kind"] == "data" else []
        found.update({it: own for it in [start["name"], *constructors]})
    return found


class Source:
    """A file of specs or of code: what it imports from specs, and the definitions that stand in it."""

    def __init__(self, path):
        text = read(path)
        self.is_code = path.endswith(".rt")
        self.imports = imports_of(text)
        self.words = {} if self.is_code else words_of(without_comments(text))
        self.declarations = declarations_of(text) if self.is_code else []


class Crate:
    """The sources of a crate, its types by name, and its functions by name with their sources."""

    def __init__(self, folder):
        tops = [(part, it) for part in ("specs", "src") for it in files_below(f"{folder}/{part}")]
        self.sources = {os.path.relpath(it, folder): Source(it) for _, it in tops if it.endswith((".rt", ".antt"))}
        self.types, self.functions = {}, {}
        for source in self.sources.values():
            for it in source.declarations:
                model = re.search(r"\bModel for (\w+)", it.contract) if it.kind == "impl" else None
                if it.kind == "fn":
                    self.functions.setdefault(it.name, []).append((source, it))
                elif model or (it.kind != "impl" and not it.owner):
                    name = model[1] if model else it.name
                    self.types.setdefault(name, []).append((source, plain(it.text)))


def calls_in(text):
    """What a body may call, as pairs: a type, or "" for a free function and "." for a method, and
    a name."""
    found = {(it["above"], it["name"]) for it in PATH_CALL.finditer(text)}
    found |= {(".", it["name"]) for it in METHOD_CALL.finditer(text)}
    found |= {(".", name) for sign, name in SIGNS.items() if sign in text}
    return found | {("", it) for it in NAME.findall(text)}


def is_called(function, above):
    """Whether a call with this before its name may be one of the function."""
    if above in ("", "."):
        return (above == ".") == bool(function.owner)
    return re.search(rf"\b{above}\b", function.owner) is not None


class Repository:
    """The crates of a repository, each read once."""

    def __init__(self, root):
        self.root, self.listed, self.crates = root, listed(root), {}

    def crate(self, name):
        if name not in self.crates:
            self.crates[name] = Crate(f"{self.root}/crates/{name}")
        return self.crates[name]

    def seen_by(self, name):
        """The crate and those below it."""
        return [self.crate(it) for it in [name, *below(name, self.listed)]]

    def meaning(self, source, name, crates):
        """What a name of a source stands for: definitions or types, each with its source."""
        if name in source.words:
            return [(source, source.words[name])]
        if name in source.imports:
            crate, path, old = source.imports[name]
            known = self.crate(crate) if crate in self.listed else None
            if path[0] == "declared":
                wanted = path[-2] if path[-1] == "TheVariants" else path[-1]
                return known.types.get(wanted, []) if known else []
            found = known and known.sources.get(f"specs/{'/'.join(path)}.antt")
            return self.meaning(found, old, crates) if found else []
        types = crates if source.is_code else []
        return [it for crate in types for it in crate.types.get(name, [])]

    def meanings(self, crates, texts):
        """The definitions and types that texts name, given with their sources, and those that these
        name, and so on."""
        found, waiting = set(), list(texts)
        while waiting:
            source, text = waiting.pop()
            for name in set(NAME.findall(text)):
                new = [it for it in self.meaning(source, name, crates) if it not in found]
                found.update(new)
                waiting += new
        return {text for _, text in found}

    def called(self, crates, calls):
        """The contracts of the functions that may be called, with their sources."""
        return {
            (source, plain(it.contract))
            for above, name in calls
            for crate in crates
            for source, it in crate.functions.get(name, ())
            if is_called(it, above)
        }

    def basis(self, mutant):
        """The texts on which a refusal of the mutant rests."""
        folder, crates = f"{self.root}/crates/{mutant.crate}", self.seen_by(mutant.crate)
        own = Mutated(mutant, read(f"{folder}/{mutant.file}"))
        source = self.crate(mutant.crate).sources[mutant.file]
        called = self.called(crates, own.calls)
        texts = [(source, own.contract), (source, " ".join(TYPE.findall(own.text + own.owner))), *called]
        proofs = files_below(f"{folder}/proofs/{mutant.function.replace('::', '/')}")
        return {
            "mutant": [own.name, *mutant.pairs],
            "function": own.text,
            "proofs": sorted(without_imports(read(it)) for it in proofs),
            "contracts": sorted({contract for _, contract in called}),
            "meanings": sorted(self.meanings(crates, texts)),
        }

    def sum_of(self, mutant):
        """The checksum of the mutant's basis."""
        return hashlib.sha256(repr([*self.basis(mutant).items()]).encode()).hexdigest()[:16]


class Mutated:
    """The function of a mutant: its text, its contract, the block in which it stands, and its calls.
    Where the mutant edits more than its function, the whole file stands for it."""

    def __init__(self, mutant, text):
        self.name = mutant.function.rpartition("::")[2]
        at, lines = text.index(mutant.pairs[0][0]), text.split("\n")
        around = [it for it in declarations_of(text) if it.name == self.name and it.start <= at < it.end]
        self.text = self.contract = without_comments(text)
        self.owner, self.calls = "", set()
        if around and all(old in around[-1].text for old, _ in mutant.pairs):
            line = text.count("\n", 0, around[-1].start)
            marks = "\n".join(marks_above(lines, line))
            self.text = plain(f"{marks}\n{around[-1].text}")
            self.contract, self.owner = plain(around[-1].contract), around[-1].owner
            if is_of_a_trait(lines, line):
                self.calls = {(it, self.name) for it in TYPE.findall(self.owner.partition(" for ")[0])}
        self.calls |= calls_in(without_comments("\n".join([self.text, *(new for _, new in mutant.pairs)])))
        own_type = TYPE.findall(self.owner.partition(" for ")[2] or self.owner)
        self.calls |= {(it, name) for above, name in self.calls if above == "Self" for it in own_type[:1]}


def without_imports(text):
    """The text of a proof file without its imports, which name crates and folders."""
    return "\n".join(it for it in without_comments(text).split("\n") if not it.startswith(("use ", "pub use ")))
