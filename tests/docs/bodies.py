"""Finds functions that are there twice.

    for one, other in twins(crates, names):     `crates` as tools/contracts.py has them, `names` those of the crates to look at

Two functions of one signature are twins where they have the same body, or, in two crates, the same clauses. Comments and clauses are no part
of a body, and lifetimes and the bounds of type parameters none of a signature; parameters, type parameters and locals may have other names.
A body of one call, one field or one word is too small to count, and a law does nothing.
"""
import re
from typing import NamedTuple

from contracts import names_of_use, sides_of, without_generics

# A comment, a text, a character, a lifetime or a label, a word, or a mark.
TOKEN = re.compile(r"""//[^\n]*|b?"(?:\\.|[^"\\])*"|b?'(?:\\x[0-9a-fA-F]{2}|\\.|[^'\\\n])'|'\w+(?:\s*:(?!:))?|\w+"""
                   r"""|::|->|=>|[=!<>]=|&&|\|\||\.\.=?|\S""")
NO_TOKEN = re.compile(r"//|'\w+(?:\s*:)?$")
CLAUSE = re.compile(r"\b(?:requires|ensures)\*?(?:\s+\w+)?\s*\{")
# The names that a clause gives: `λ a b.` and `(a b : T)`.
BOUND = re.compile(r"λ ([\w\s]+?)\.|\(([\w\s]+?) :")
TYPE_PARAMETER = re.compile(r"(?:^|,)\s*(?:const\s+)?([A-Z]\w*)\s*(?=[:,]|$)")
TYPE = re.compile(r"[A-Z]\w*[a-z]\w*$")
# What a local may be named: no keyword, and no type of std.
NAME = re.compile(r"(?!(?:[iu](?:8|16|32|64|128|size)|bool|char|str|as|break|const|continue|crate|dyn|else|false|fn|for|if|impl|in|let|loop|match"
                  r"|move|mut|ref|return|super|true|unsafe|where|while|_)$)[a-z_]\w*$")
WORD = re.compile(r"""\w|b?['"]""")
OPENS, CLOSES = {"(", "{", "["}, {")", "}", "]"}
# What stands between the words of a call or a field.
BETWEEN = {".", "::", "(", ")", ",", "&", "*", "?"}
# How many words and marks the least body has that counts: that of `*a == *b`.
LEAST = 5


class Function(NamedTuple):
    """A function: its crate, its file, its line and its name. With its signature, its body and its clauses, as tokens with numbers for the
    names that may differ; None where there is nothing that counts."""
    crate: str
    path: str
    line: int
    name: str
    body: tuple
    clauses: tuple


def tokens_of(text):
    """Returns the words and marks of a text, without those that make no difference: comments, lifetimes, and commas at an end."""
    found = []
    for token in TOKEN.findall(text):
        if NO_TOKEN.match(token) or token == "," and found[-1:] == ["<"]:
            continue
        if found[-1:] == [","] and token in (")", "]", "}", ">"):
            found.pop()
        if found[-1:] == ["<"] and token == ">":
            found.pop()
        else:
            found.append(token)
    return found


def with_neighbours(tokens):
    """Returns each token between the one before it and the one after it."""
    return zip(["", *tokens], tokens, [*tokens[1:], ""])


def with_fields(tokens):
    """Returns the tokens with the names of fields marked and written out: `S { .a : 1 , .b : b }` for `S { a: 1, b }`."""
    found, in_struct = [], []
    for before, token, after in with_neighbours(tokens):
        if token in OPENS:
            in_struct.append(token == "{" and bool(TYPE.match(before.rpartition(".")[2])))
        elif token in CLOSES:
            in_struct.pop()
        is_field = in_struct[-1:] == [True] and before in ("{", ",") and after in (":", ",", "}") and NAME.match(token)
        found.append(f".{token}" if is_field else token)
        if is_field and after != ":":
            found += [":", token]
    return found


def numbered(tokens, is_local):
    """Returns the tokens with a number for each local name, in the order in which these appear."""
    numbers, found = {}, []
    for before, token, after in with_neighbours(tokens):
        found.append(f"${numbers.setdefault(token, len(numbers))}" if is_local(before, token, after) else token)
    return tuple(found)


def is_small(body):
    """Whether a body is one call of what is at hand, one field or one word, or less than what counts."""
    is_plain = all(token in BETWEEN or WORD.match(token) for token in body)
    return len(body) < LEAST or is_plain and body.count("(") < 2


def generics_of(text):
    """Returns the angle brackets that a text begins with."""
    return text[:len(text) - len(without_generics(text.replace("->", "  ")))]


def signature_of(item):
    """Returns the parameters and the result of a function, as they are written, and its type parameters before them."""
    head = item.head[:CLAUSE.search(item.head).start()] if item.clauses else item.head
    head = re.sub(r".*?\bfn\s+\w+", "", head, count=1, flags=re.DOTALL).partition(" where ")[0]
    generics = generics_of(head)
    return re.sub(r"^\(\s*(&?)\s*(mut\b)?\s*self\b", r"(self: \1 \2 Self", head[len(generics):].strip()), generics


def home_of(crates, crate, name):
    """Returns the crate that declares what a crate has under this name, or passes on."""
    for passed in crates.crate(crate).passed:
        if passed.path == f"{crate}::{name}" and passed.origin.partition("::")[0] in crates.below:
            return home_of(crates, passed.origin.partition("::")[0], name)
    return crate


class File:
    """A file of a crate: which crates declare the types that it names, and the names that are no locals."""

    def __init__(self, crates, crate, source):
        self.crate, self.source = crate, source
        self.homes = {it.name: crate.name for file in crate.sources.values() for it in file.items if it.kind in ("struct", "enum", "trait", "type")}
        self.known = {it.name for it in source.items if it.kind == "fn"}
        for path, name, alias in (use for it in source.items if it.kind == "use" for use in names_of_use(it.head)):
            self.known.add(alias)
            if path.partition("::")[0] in crates.below:
                self.homes[alias] = home_of(crates, path.partition("::")[0], name)

    def tokens(self, text, own):
        """Returns the tokens of a text with its crate before each type; `Self` is this type."""
        found = [it for token in tokens_of(text) for it in (tokens_of(own) if token == "Self" else [token])]
        return [f"{self.homes[it]}.{it}" if it in self.homes else it for it in found]

    def functions(self):
        """Yields the functions of the file."""
        for item in self.source.items:
            if item.kind == "fn":
                yield self.function(item, "", "")
            elif item.kind in ("impl", "trait"):
                own = sides_of(item.head)[1] if item.kind == "impl" else item.name
                around = generics_of(re.sub(r"^(?:unsafe\s+)?impl", "", item.head).strip())
                yield from (self.function(it, own, around) for it in self.source.inside(item) if it.kind == "fn")

    def function(self, item, own, around):
        """Returns the function that an item is, which stands in an `impl` of this type with these type parameters, if in one."""
        head, generics = signature_of(item)
        signature = self.tokens(head, own)
        body = self.tokens(self.source.text[slice(*item.body)], own) if item.body else []
        line = self.source.text.count("\n", 0, self.source.text.rfind(f"fn {item.name}", 0, item.body[0])) + 1 if item.body else 0
        does = promises = None
        if signature != ["(", ")"] and not is_small(body):
            types = set(TYPE_PARAMETER.findall(generics[1:-1]) + TYPE_PARAMETER.findall(around[1:-1]))
            given = types | {name for name, after in zip(signature, signature[1:]) if after == ":" and NAME.match(name)}
            does = numbered(with_fields([*signature, "{", *body, "}"]), self.local(item.name, given))
            promises = self.promises(item, own, signature, given)
        return Function(self.crate.name, self.source.path, line, item.name, does, promises)

    def local(self, own_name, given):
        """Returns a test for the names of a body that may differ: its function's own, those that are given to it, and its locals."""
        def is_local(before, token, after):
            is_free = before not in (".", "::") and (token in given or token == own_name)
            return is_free or NAME.match(token) and token not in self.known and before not in (".", "::") and after not in ("(", "::", "!")
        return is_local

    def promises(self, item, own, signature, given):
        """Returns the signature and the clauses of a function as tokens; None where it ensures nothing."""
        clauses = " ".join(f"{it.kind} {it.text}" for it in item.clauses)
        bound = given | {name for names in BOUND.findall(clauses) for name in " ".join(names).split()}
        if all(it.kind != "ensures" for it in item.clauses):
            return None
        return numbered([*signature, *self.tokens(clauses, own)], lambda before, token, after: token in bound and before != ".")


def functions_of(crates, name):
    """Yields the functions of a crate."""
    crate = crates.crate(name)
    for source in crate.sources.values():
        yield from File(crates, crate, source).functions()


def twins(crates, names):
    """Yields each function that is there before, after the one that is."""
    bodies, promises = {}, {}
    for function in (it for name in names for it in functions_of(crates, name)):
        same = bodies.setdefault(function.body, function) if function.body else function
        like = promises.setdefault(function.clauses, function) if function.clauses else function
        if same is not function:
            yield same, function
        elif like.crate != function.crate:
            yield like, function
