"""Finds what sources import and what crates.txt lists, and nothing names.

    for line, name in idle(path, text):     what a .rt imports by `ghost use`, and an .antt by `use`, and has nowhere else
    libraries_in(path, text)                the libraries that a source names

In a .rt a name stands again where a clause or a ghost item has it, since the code means its own; one with places for its arguments where
all its parts stand; and `◌>>=◌` where there is a `do`, which means it. What is passed on by `pub use` is not asked for.
"""
import re

# An import of antt's, of names or of a module; a comment; and what is no code of a .rt: comments, texts, characters.
NAMES = re.compile(r"(?m)^[ \t]*(?P<public>pub )?(?P<ghost>ghost )?use (?:[^\s{;]+\.\{(?P<names>[^}]*)\}|(?:[^\s{;]+\.)?(?P<module>[^\s{;.]+(?: as [^\s;]+)?));?$")
IMPORT = re.compile(r"(?m)^[ \t]*(?:pub(?:\([a-z]+\))? )?(?:ghost )?use [^;{\n]*(?:\{[^}]*\})?.*$")
COMMENT = re.compile(r"(?m)(?<![^\s(){}.;,@])--(?: .*)?$")
DEAD = re.compile(r'''//[^\n]*|"(?:\\.|[^"\\])*"|'(?:\\x[0-9a-fA-F]{2}|\\.|[^'\\\n])\'''', re.DOTALL)
# What stands before the braces of a clause or of a ghost item; the latter may have several.
GHOST = re.compile(r"\b(?P<word>requires|ensures|ghost)\b(?! use\b)[^;{}]*(?={)")
FURTHER = re.compile(r"[^;{},]*(?={)")
# A word, with the dot before it that a field has, and what stands behind a parameter's value; and what stands between words.
WORD = re.compile(r"(\.?)([^\s(){}\[\];,.⟦⟧]+)(\.(?:now|old|new|entry|exit)(?![\w-]))?")
BETWEEN = re.compile(r"[(){}\[\];,.⟦⟧]")
BIND = "◌>>=◌"


def blank(pattern, text):
    """Returns the text with blanks in place of what has the pattern, of the same lines."""
    return pattern.sub(lambda found: re.sub(r"[^\n]", " ", found[0]), text)


def code_of(path, text):
    return blank(DEAD if path.endswith(".rt") else COMMENT, text)


def closing(text, at):
    """Returns where the brace that opens here is closed."""
    depth = 0
    for found in re.compile(r"[{}]").finditer(text, at):
        depth += 1 if found[0] == "{" else -1
        if not depth:
            return found.start()
    return len(text)


def ghosts_of(code):
    """Returns the text of the clauses and the ghost items."""
    found, at = [], 0
    while head := GHOST.search(code, at):
        at = closing(code, head.end()) + 1
        found.append(code[head.end():at])
        while head["word"] == "ghost" and (more := FURTHER.match(code, at)):
            at = closing(code, more.end()) + 1
            found.append(code[more.end():at])
    return " ".join(found)


class Words:
    """The words of a text that name something: no fields, and no parameters whose values are asked for."""

    def __init__(self, text):
        self.text = text
        self.all = {word for dot, word, value in WORD.findall(text) if not dot and not value}

    def has(self, word):
        return word in self.text if BETWEEN.search(word) else word in self.all

    def name(self, name):
        """Whether they name this, which may have places for its arguments."""
        parts = [it for it in name.split("◌") if it]
        return self.has(name) or name == BIND and self.has("do") or len(name) > len(parts[0]) and all(map(self.has, parts))


def idle(path, text):
    code = code_of(path, text)
    rest = blank(IMPORT, code)
    words = Words(ghosts_of(rest) if path.endswith(".rt") else rest)
    for found in NAMES.finditer(code):
        if not found["public"] and (found["ghost"] or path.endswith(".antt")):
            part = "module" if found["names"] is None else "names"
            for it in re.finditer(r"[^\s,][^,]*", found[part] or ""):
                name, _, alias = it[0].strip().partition(" as ")
                if not words.name(alias or name):
                    yield code.count("\n", 0, found.start(part) + it.start()) + 1, name


def libraries_in(path, text):
    code = code_of(path, text)
    found = set(re.findall(r"(?<![\w.])Rattle\.(\w+)", code))
    return found | (set(re.findall(r"(?<![\w:])(\w+)\s*::", code)) if path.endswith(".rt") else set())
