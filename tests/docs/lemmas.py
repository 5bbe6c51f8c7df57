"""Finds what proofs/ states and nothing names.

    for path, line, name in unnamed(texts):     `texts` has the text of each source (.rt, .antt) by its path, crates/NAME/proofs/File.antt

A lemma, or a definition of proofs/, is named where its name stands outside its own statement and proof: in its file, in one that imports it
from there, in a `using(..)`, or where it is passed on. The public names at the left of Answers.antt and Proof.antt are those that the
prover asks for, as all of Invariants.antt is. Fields of records and cases of data are no lemmas.
"""
import collections
import os
import re

# What stands between the words of a source.
BETWEEN = re.compile(r"[\s(){}\[\];,.]+")
LIST_OF_NAMES = re.compile(r"(pub )?(?:ghost )?use (Rattle\.\S+?)\.\{([^}]*)\};?$")
MODULE = re.compile(r"(?:pub )?(?:ghost )?use (Rattle\.\S+)(?: as (\w+))?;?$")
BLOCK = re.compile(r"(?:pub )?(?:(?:abbrev|unfoldable|opaque) )*(?:pub )?(?:record|data) .*where$")
STATEMENT = re.compile(r"(?:(?:abbrev|unfoldable|opaque) )*(pub )?([^\s(){}\[\];,.:]+) :(?: |$)")
USING = re.compile(r"\busing\(([^()]*)\)")
# What begins a line and is no name.
WORDS = {"let", "in", "where", "elim", "module", "use", "record", "data"}
# The files whose public names the prover asks for.
ASKED = ("Answers.antt", "Proof.antt")


def words_of(line):
    return [word for word in BETWEEN.split(line) if word]


def depth(line):
    return len(line) - len(line.lstrip(" "))


class Source:
    """A source: its lines without comments and imports, the words in them, and what it imports."""

    def __init__(self, path, text):
        self.path, self.lines = path, []
        self.imports, self.modules, self.passed = collections.defaultdict(dict), {}, collections.defaultdict(set)
        self.using = {word for names in USING.findall(text) for word in re.split(r"[^\w]+", names)}
        comment = r"(?:^|\s)--(?: .*)?$" if path.endswith(".antt") else r"//.*$"
        for line in text.split("\n"):
            self.lines.append("" if self.takes_import(line.strip()) else re.sub(comment, "", line))
        self.count = collections.Counter(word for line in self.lines for word in words_of(line))
        self.code = "\n".join(self.lines)

    def takes_import(self, line):
        """Notes what the line imports; it is False where it is no import."""
        names, module = LIST_OF_NAMES.match(line), MODULE.match(line)
        if names:
            for it in names[3].split(","):
                name, _, alias = it.strip().partition(" as ")
                self.imports[names[2]][name] = alias or name
                if names[1]:
                    self.passed[names[2]].add(name)
        elif module:
            self.modules[module[2] or module[1].rpartition(".")[2]] = module[1]
        return bool(names or module)

    def statements(self):
        """Yields the line, the depth and the name of each lemma and definition, and whether it is public."""
        blocks = []
        for at, line in enumerate(self.lines):
            if not line.strip():
                continue
            while blocks and depth(line) <= blocks[-1]:
                blocks.pop()
            found = STATEMENT.match(line.strip())
            if BLOCK.match(line.strip()):
                blocks.append(depth(line))
            elif found and not blocks and found[2] not in WORDS:
                yield at, depth(line), found[2], bool(found[1])

    def end_of(self, at, left, name):
        """Returns the line behind the statement and the proof of what is stated at this line and depth."""
        for end in range(at + 1, len(self.lines)):
            line = self.lines[end]
            first = next(iter(words_of(line)), "")
            goes_on = depth(line) > left or depth(line) == left and (first in (name, "unfolding", "where") or line.strip()[:1] in "})]")
            if line.strip() and not goes_on:
                return end
        return len(self.lines)

    def unnamed(self, named):
        """Yields the line and the name of each lemma and definition that this file doesn't name, and that is not among those `named`
        elsewhere."""
        asked = os.path.basename(self.path) in ASKED
        for at, left, name, public in self.statements():
            if asked and public and not left or public and name in named:
                continue
            own = sum(words_of(line).count(name) for line in self.lines[at:self.end_of(at, left, name)])
            if self.count[name] == own:
                yield at + 1, name


def module_of(path):
    """Returns the module of a file of crates/."""
    return "Rattle." + path.removeprefix("crates/").removesuffix(".antt").replace("/", ".")


def unnamed(texts):
    sources = [Source(path, text) for path, text in texts.items()]
    named = collections.defaultdict(set)
    for source in sources:
        for module, names in source.imports.items():
            named[module] |= {name for name, alias in names.items() if source.count[alias]} | source.passed[module]
        for alias, module in source.modules.items():
            named[module] |= set(re.findall(rf"(?<![\w.]){re.escape(alias)}\.([^\s(){{}}\[\];,.]+)", source.code))
    using = set().union(*(source.using for source in sources))
    for source in sources:
        if "/proofs/" in source.path and not source.path.endswith("/Invariants.antt"):
            for line, name in source.unnamed(named[module_of(source.path)] | using):
                yield source.path, line, name
