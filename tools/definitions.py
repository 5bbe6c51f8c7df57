"""Reads the definitions of specs/, and which of them others cite.

    all_of = Definitions(crates)                 those of the crates of a `contracts.Crates`
    all_of.reached(citations)                    the definitions that these reach, and the types of the code, as two sets
    all_of.reached(citations, is_narrow=True)    the same of what the narrow profile needs: no clause at `Wide` counts
    all_of.in_order(keys)                        the definitions by file, in the order in which the files are read

A definition is named by its file and its name. A constructor counts as the definition that it belongs to.
"""
import os
import re
from typing import NamedTuple

HEAD = re.compile(r"(?:(?:pub|abbrev|unfoldable|record|data)\s+)*([^\s:]+)")
USE = re.compile(r"(?:pub )?use Rattle\.(?P<path>[\w.]+?)(?:\.\{(?P<names>.*)\}| as (?P<alias>\w+))?$")
WORD = re.compile(r"(?<![\w.])([A-Za-z_]\w*)(?:\.([A-Za-z_]\w*))?")
# A place of a type of the code, as definitions name it: its crate, and its module and name.
TYPE = re.compile(r"(\w+)\.specs\.declared\.([\w.]+?)\.(?:TheVariants\.|TheConstants\.)?(\w+)$")


class Key(NamedTuple):
    """Where a definition is: its file from the top of the repository, and its name."""
    file: str
    name: str


class Definition:
    """A definition: how many lines it has without comments, and its text; and the same without its clauses at the wide profile."""

    def __init__(self):
        self.lines, self.text, self.narrow_lines, self.narrow_text, self.is_wide = 0, "", 0, "", False

    def add(self, line):
        text = line.partition("--")[0] + "\n"
        if not line[0].isspace():
            self.is_wide = "(Wide " in line.partition(" = ")[0]
        self.lines += 1
        self.text += text
        if not self.is_wide:
            self.narrow_lines += 1
            self.narrow_text += text


class File:
    """A file of definitions: those that it has, and what names mean in it."""

    def __init__(self, path, text):
        self.path, self.definitions, self.names, self.modules, self.owners = path, {}, {}, {}, {}
        current = None
        for line in text.split("\n"):
            if line.startswith(("use ", "pub use ")):
                self.read_use(line)
            elif line.startswith("--") or line.startswith(("pub mod ", "mod ")) or not line.strip():
                continue
            elif line[0].isspace():
                self.read_inner(current, line)
            else:
                name = HEAD.match(line)[1]
                current = name if name.strip("}") else current
                self.definitions.setdefault(current, Definition()).add(line)

    def read_use(self, line):
        found = USE.match(line)
        if not found:
            return
        if found["names"]:
            for name in (it.strip() for it in found["names"].split(",") if it.strip()):
                origin, _, alias = name.partition(" as ")
                self.names[alias or origin] = (found["path"], origin)
        else:
            self.modules[found["alias"] or found["path"].rpartition(".")[2]] = found["path"]

    def read_inner(self, current, line):
        if not line.strip().startswith("--"):
            self.definitions[current].add(line)
            constructor = re.match(r"  (?:pub )?(\w+) :", line)
            if constructor and self.definitions[current].text.lstrip().startswith(("pub data", "data")):
                self.owners[constructor[1]] = current


class Definitions:
    """The definitions of all crates."""

    def __init__(self, crates):
        self.top, self.files, self.order = crates.top, {}, []
        for crate in crates.below:
            self.read_folder(f"crates/{crate}/specs", "Lib")

    def read_folder(self, folder, listing):
        """Reads the files that a list of modules names, in its order, each before those below it."""
        path = f"{folder}/{listing}.antt"
        if not os.path.exists(os.path.join(self.top, path)):
            return
        below = folder if listing == "Lib" else f"{folder}/{listing}"
        text = self.read(path)
        for name in re.findall(r"(?m)^pub mod (\w+)$", text):
            file = f"{below}/{name}.antt"
            self.order.append(file)
            self.files[file] = File(file, self.read(file))
            self.read_folder(below, name)

    def read(self, path):
        with open(os.path.join(self.top, path), encoding="utf-8") as file:
            return file.read()

    def find(self, path, name):
        """Returns the definition of this name in this module, or the type of the code that it is; None if it is neither."""
        kind = TYPE.fullmatch(f"{path}.{name}")
        if kind:
            return f"{kind[1]}::{kind[3]}" if "TheVariants" not in path else f"{kind[1]}::{path.split('.')[-2]}"
        file = "crates/" + path.replace(".", "/") + ".antt"
        if file not in self.files:
            outer, _, last = path.rpartition(".")
            file, name = "crates/" + outer.replace(".", "/") + ".antt", last
        if file not in self.files:
            return None
        name = self.files[file].owners.get(name, name)
        return Key(file, name) if name in self.files[file].definitions else None

    def cited_by(self, key, is_narrow=False):
        """Yields what a definition cites."""
        file = self.files[key.file]
        found = file.definitions[key.name]
        for name, member in WORD.findall(found.narrow_text if is_narrow else found.text):
            own = file.owners.get(name, name)
            if own in file.definitions:
                yield Key(key.file, own)
            elif name in file.names:
                yield self.find(*file.names[name])
            elif name in file.modules and member:
                yield self.find(file.modules[name], member)

    def reached(self, keys, is_narrow=False):
        """Returns the definitions that these reach, themselves among them, and the types of the code that these cite."""
        found, types, left = set(), set(), list(keys)
        while left:
            key = left.pop()
            if isinstance(key, str):
                types.add(key)
            elif key and key not in found:
                found.add(key)
                left += self.cited_by(key, is_narrow)
        return found, types

    def in_order(self, keys):
        """Yields each file of these definitions, in reading order, with the definitions in the file's order."""
        by_file = {}
        for key in keys:
            by_file.setdefault(key.file, set()).add(key.name)
        for file in self.order:
            if file in by_file:
                yield file, [name for name in self.files[file].definitions if name in by_file[file]]

    def lines_of(self, keys, is_narrow=False):
        found = [self.files[key.file].definitions[key.name] for key in keys]
        return sum(it.narrow_lines if is_narrow else it.lines for it in found)
