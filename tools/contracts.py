"""Reads the sources of crates for what can be called from outside: items, their doc comments, and their clauses.

    crates = Crates(top)                     the crates of the crates.txt in this folder
    crates.libraries()                       the names of those that have public contracts
    crate = crates.crate(name)               its modules, and what is reachable from outside: `crate.reachable`
    item.clauses, item.head, item.docs       of a function: its clauses, its signature with them, its doc comment
    scope.citations(text)                    the definitions of specs/ that a text cites, by the `ghost use` lines in force

It looks at the forms that stand in the crates, and raises `Unclear` where it meets another one.
"""
import os
import re
from typing import NamedTuple

TOP = os.path.dirname(os.path.dirname(os.path.abspath(__file__)))

# What is no code: comments, texts, characters.
DEAD = re.compile(r'''//[^\n]*|b?"(?:\\.|[^"\\])*"|b?'(?:\\x[0-9a-fA-F]{2}|\\.|[^'\\\n])\'''', re.DOTALL)
START = re.compile(r'(?P<public>pub(?:\([a-z]+\))?\s+)?(?:(?:unsafe|const|extern)\s+(?=(?:(?:unsafe|extern)\s+)*(?:fn|impl|trait)\b))*'
                   r'(?P<kind>fn|struct|enum|trait|impl|mod|use|const|static|type|ghost\s+use|ghost|macro_rules!)(?![\w])\s*(?P<name>\w+)?')
CLAUSE = re.compile(r'\b((?:requires|ensures)\*?)(?:\s+(\w+))?\s*$')
CLOSING = {'(': ')', '[': ']', '{': '}'}
# Libraries with contracts that crates of tests call.
FOR_TESTS = ('test_alloc', 'test_texts')
# Members of std's traits that hold proofs and state nothing.
PROOFS = {'laws'}


class Unclear(Exception):
    """A source has a form that is not read here, as the message says."""


class Clause(NamedTuple):
    """A clause of a function: `requires` or `ensures`, its label ('' without one), and its text."""
    kind: str
    label: str
    text: str


class Item(NamedTuple):
    """An item of a source. `head` is its text up to its body, `body` where the inside of its braces begins and ends, if it has any."""
    kind: str
    name: str
    public: str
    docs: list
    notes: list
    attributes: list
    head: str
    clauses: list
    body: tuple
    whole: str

    def is_public(self):
        return self.public == 'pub'


def blanked(text):
    """Returns the text with blanks in place of what is no code, of the same length."""
    return DEAD.sub(lambda found: re.sub(r'[^\n]', ' ', found[0]), text)


def plain(text):
    """Returns the text with one blank for each white space."""
    return ' '.join(text.split())


class Source:
    """The text of a file, and its items."""

    def __init__(self, path):
        self.path = path
        with open(path, encoding='utf-8') as file:
            self.text = file.read()
        self.mask = blanked(self.text)
        self.items = list(self.items_in(0, len(self.text)))

    def unclear(self, at, why):
        line = self.text.count('\n', 0, at) + 1
        return Unclear(f'{self.path}:{line}: {why}')

    def closing(self, at):
        """Returns where the bracket that opens here is closed."""
        open_ones = []
        for found in re.compile(r'[()\[\]{}]').finditer(self.mask, at):
            if found[0] in CLOSING:
                open_ones.append(CLOSING[found[0]])
            elif open_ones.pop() != found[0]:
                break
            if not open_ones:
                return found.start()
        raise self.unclear(at, 'a bracket is not closed')

    def first_of(self, marks, at):
        """Returns where the first of these marks stands from here on, outside of brackets."""
        while at < len(self.mask):
            if self.mask[at] in marks:
                return at
            at = self.closing(at) + 1 if self.mask[at] in CLOSING else at + 1
        raise self.unclear(at - 1, 'an item has no end')

    def dedented(self, begin, end):
        """Returns the text between, with the indentation of its first line taken from the others."""
        indent = begin - (self.text.rfind('\n', 0, begin) + 1)
        lines = self.text[begin:end].rstrip().split('\n')
        return '\n'.join([lines[0], *[line[indent:] if not line[:indent].strip() else line for line in lines[1:]]])

    def items_in(self, at, end):
        """Yields the items between these places."""
        docs, notes, attributes = [], [], []
        while True:
            at = re.compile(r'\s*').match(self.text, at, end).end()
            if at >= end:
                return
            if self.text.startswith('//', at):
                line = self.text[at:self.text.find('\n', at)]
                if line.startswith('///'):
                    docs.append(re.sub(r'^/// ?', '', line))
                elif not line.startswith('//!'):
                    notes.append(line)
                at += len(line)
            elif self.text[at] == '#':
                close = self.closing(self.text.index('[', at)) + 1
                if not self.text.startswith('#!', at):
                    attributes.append(self.text[at:close])
                at = close
            else:
                item, at = self.item_at(at, docs, notes, attributes)
                yield item
                docs, notes, attributes = [], [], []

    def item_at(self, at, docs, notes, attributes):
        """Returns the item that begins here, and where it ends."""
        found = START.match(self.mask, at)
        if not found:
            raise self.unclear(at, 'no item is known that begins so')
        kind, public = plain(found['kind']), plain(found['public'] or '')
        clauses, body = [], None
        if kind == 'fn':
            stop, clauses = self.clauses_from(found.end())
        elif kind in ('use', 'ghost use', 'ghost', 'const', 'static', 'type'):
            stop = self.first_of(';', found.end())
        else:
            stop = self.first_of('{;', found.end())
        close = stop
        if self.mask[stop] == '{':
            close = self.closing(stop)
            body = (stop + 1, close)
        name = found['name'] or ''
        head, whole = self.dedented(at, stop), self.dedented(at, close + 1)
        return Item(kind, name, public, docs, notes, attributes, head, clauses, body, whole), close + 1

    def clauses_from(self, at):
        """Returns where the body of a function begins, or the semicolon in its place, and the function's clauses."""
        clauses = []
        while True:
            stop = self.first_of('{;', at)
            clause = CLAUSE.search(self.mask, at, stop) if self.mask[stop] == '{' else None
            if not clause:
                return stop, clauses
            close = self.closing(stop)
            clauses.append(Clause(clause[1], clause[2] or '', plain(self.text[stop + 1:close])))
            at = close + 1

    def inside(self, item):
        """Returns the items in the braces of an item."""
        return list(self.items_in(*item.body)) if item.body else []

    def parts_of(self, item):
        """Returns the fields of a struct, each with its doc comment, without the comma."""
        begin, end = item.body
        parts = []
        while begin < end:
            stop = begin
            while stop < end and self.mask[stop] != ',':
                stop = self.closing(stop) + 1 if self.mask[stop] in CLOSING else self.angle_closed(stop, end)
            if self.text[begin:stop].strip():
                start = begin + len(self.text[begin:stop]) - len(self.text[begin:stop].lstrip())
                parts.append((self.mask[start:stop].strip(), self.dedented(start, stop)))
            begin = stop + 1
        return parts

    def angle_closed(self, at, end):
        """Returns the place after this one, or after the angle brackets that open here."""
        if self.mask[at] != '<':
            return at + 1
        depth = 0
        for place in range(at, end):
            depth += {'<': 1, '>': -1}.get(self.mask[place], 0)
            if depth == 0:
                return place + 1
        raise self.unclear(at, 'an angle bracket is not closed')


def without_generics(text):
    """Returns the text after the angle brackets that it begins with."""
    depth = 0
    for place, mark in enumerate(text):
        depth += {'<': 1, '>': -1}.get(mark, 0)
        if depth == 0:
            return text[place + 1:] if mark == '>' else text
    return text


def sides_of(head):
    """Returns the trait ('' without one) and the type that the head of an `impl` names, as they are written."""
    rest = without_generics(plain(re.sub(r'^(unsafe\s+)?impl', '', head)).strip())
    rest = re.split(r'\bwhere\b', rest)[0].strip()
    first, _, second = rest.partition(' for ')
    return (first.strip(), second.strip()) if second else ('', first.strip())


def bare(written):
    """Returns the name of a type or a trait without its path and its parameters."""
    return re.split(r'[<\s]', written.lstrip('&'))[0].split('::')[-1]


def names_of_use(head):
    """Yields the path and the names of a `use` line: `a::b::{c, d as e}` gives ('a::b', 'c', 'c') and ('a::b', 'd', 'e')."""
    text = plain(re.sub(r'^(pub(\([a-z]+\))?\s+)?(ghost\s+)?use\s+', '', head))
    mark = '.' if text.startswith('Rattle.') else '::'
    path, _, last = text.rpartition(mark + '{')
    if not path:
        path, _, last = text.rpartition(mark)
    for name in last.rstrip('}').split(','):
        if name.strip():
            name, _, alias = name.strip().partition(' as ')
            yield path, name, alias or name


class Definition(NamedTuple):
    """A definition of specs/: its crate, its file from the top of the repository, and its name."""
    crate: str
    file: str
    name: str


class Scope:
    """Which definitions of the repository's specs/ names mean, by `ghost use` lines."""

    def __init__(self, items, above=None):
        self.names = dict(above.names) if above else {}
        self.modules = dict(above.modules) if above else {}
        for item in items:
            if item.kind == 'ghost use':
                for path, name, alias in names_of_use(item.head):
                    self.add(path.split('.'), name, alias, '{' in item.head)

    def add(self, path, name, alias, is_list):
        # (the check makes declared/ and contracts/ of the code: no file of the repository has what stands there)
        if path[0] != 'Rattle' or len(path) < 3 or path[2] != 'specs' or {'declared', 'contracts'} & {*path, name}:
            return
        folder = os.path.join('crates', path[1], *path[2:])
        if not os.path.exists(os.path.join(TOP, f'{folder}.antt')) and os.path.exists(os.path.join(TOP, f'{os.path.dirname(folder)}.antt')):
            # (the last name is that of a type of the module, whose cases the list names)
            folder, name, is_list = os.path.dirname(folder), path[-1], True
        if is_list:
            self.names[alias] = Definition(path[1], folder + '.antt', name)
        else:
            self.modules[alias] = (path[1], os.path.join(folder, name + '.antt'))

    def citations(self, text):
        """Returns the definitions that the text cites, by their files and names."""
        found = {self.names[name] for name in self.names if is_cited(name, text)}
        for alias, (crate, file) in self.modules.items():
            found |= {Definition(crate, file, name) for name in re.findall(rf'(?<![\w.]){alias}\.(\w+)', text)}
        return sorted((it for it in found if it.crate != 'std'), key=lambda it: (it.file, it.name))


def is_cited(name, text):
    """Returns whether the text has the name, be it one with places for its arguments, and not as a field or a parameter's value."""
    if '◌' in name:
        return all(re.search(rf'(?<!\S){re.escape(part)}(?!\S)', text) for part in name.split('◌') if part)
    return re.search(rf'(?<![\w.]){re.escape(name)}(?!\w|\.(?:now|old|new|entry)\b)', text) is not None


class Reached(NamedTuple):
    """An item that can be named from outside, by this path, and the module that it stands in."""
    path: str
    item: Item
    module: str


class Passed(NamedTuple):
    """What a module passes on from another crate: its path here, and the path there."""
    path: str
    origin: str


class Member(NamedTuple):
    """A member of an `impl` or of a trait, and what names mean in it."""
    item: Item
    scope: Scope
    source: Source


class Impl(NamedTuple):
    """An `impl` of a trait for a type, as they are written, with its members."""
    trait: str
    type: str
    head: str
    members: list


class Crate:
    """The modules of a crate, and what is reachable from outside, in the order in which lib.rt names it."""

    def __init__(self, name, folder):
        self.name, self.folder = name, folder
        self.sources, self.scopes, self.order = {}, {}, []
        self.top = 'lib' if os.path.exists(os.path.join(folder, 'src', 'lib.rt')) else 'main'
        self.read_module('', os.path.join(folder, 'src', self.top + '.rt'))
        self.reachable, self.passed = [], []
        if self.top == 'lib':
            self.reach('', name)
            self.reach_macros()
        self.types = {it.item.name: it for it in self.reachable if it.item.kind in ('struct', 'enum', 'type')}
        self.traits = {it.item.name: it for it in self.reachable if it.item.kind == 'trait'}

    def read_module(self, module, path):
        """Reads the module in this file, and those that it declares but for tests."""
        source = Source(path)
        self.sources[module], self.scopes[module] = source, Scope(source.items)
        self.order.append(module)
        for item in source.items:
            if item.kind == 'mod' and not any('cfg(test)' in it for it in item.attributes):
                if item.body:
                    raise Unclear(f'{path}: the module {item.name} has no file of its own')
                inner = f'{module}/{item.name}' if module else item.name
                self.read_module(inner, os.path.join(self.folder, 'src', inner + '.rt'))

    def first_sentence(self):
        """Returns the first sentence of the crate's doc comment."""
        lines = []
        for line in self.sources[''].text.split('\n'):
            if not line.startswith('//!') or not line[3:].strip():
                break
            lines.append(line[3:].strip())
        return re.split(r'(?<=\.)\s', ' '.join(lines))[0]

    def reach(self, module, path):
        """Adds what can be named from outside in this module, which has this path there."""
        items = self.sources[module].items
        for item in items:
            if item.kind == 'use' and item.is_public():
                for origin, name, alias in names_of_use(item.head):
                    self.reach_name(module, path, origin, name, alias)
        for item in items:
            if item.kind == 'mod' and item.is_public():
                self.reach(f'{module}/{item.name}' if module else item.name, f'{path}::{item.name}')
            elif item.kind in ('fn', 'struct', 'enum', 'trait', 'const', 'static', 'type') and item.is_public():
                self.reachable.append(Reached(f'{path}::{item.name}', item, module))

    def reach_macros(self):
        """Adds the macros that can be named from outside, wherever they stand."""
        for module in self.order:
            for item in self.sources[module].items:
                if item.kind == 'macro_rules!' and any('macro_export' in it for it in item.attributes):
                    self.reachable.append(Reached(f'{self.name}::{item.name}!', item, module))

    def reach_name(self, module, path, origin, name, alias):
        """Adds what a `pub use` line of the module names."""
        inside = re.sub(r'^(crate|self)(::|$)', '', origin).replace('::', '/')
        inside = f'{module}/{inside}' if module and not origin.startswith('crate') else inside
        if inside not in self.sources:
            self.passed.append(Passed(f'{path}::{alias}', f'{origin}::{name}'))
            return
        found = [it for it in self.sources[inside].items if it.name == name and it.is_public()]
        if len(found) != 1:
            raise Unclear(f'{self.sources[module].path}: {origin} has {len(found)} public items that are named {name}')
        self.reachable.append(Reached(f'{path}::{alias}', found[0], inside))

    def impls(self):
        """Yields the `impl` blocks of the crate, in the order of its modules."""
        for module in self.order:
            source = self.sources[module]
            for item in source.items:
                if item.kind == 'impl':
                    inside = source.inside(item)
                    scope = Scope(inside, self.scopes[module])
                    trait, owner = sides_of(item.head)
                    yield Impl(trait, owner, item.head, [Member(it, scope, source) for it in inside if it.kind != 'ghost use'])

    def impls_of(self, name):
        """Returns the `impl` blocks of a type, those of no trait and those of traits."""
        mine = [it for it in self.impls() if bare(it.type) == name]
        return [it for it in mine if not it.trait], [it for it in mine if it.trait]

    def methods_of(self, name):
        """Returns the public members of a type that belong to no trait."""
        return [member for block in self.impls_of(name)[0] for member in block.members if member.item.is_public()]

    def members_of_trait(self, name):
        """Returns the members of a public trait."""
        reached = self.traits[name]
        source = self.sources[reached.module]
        inside = source.inside(reached.item)
        scope = Scope(inside, self.scopes[reached.module])
        return [Member(it, scope, source) for it in inside if it.kind != 'ghost use']

    def functions(self):
        """Yields each public function and method with its path from outside, and what names mean in it."""
        for reached in self.reachable:
            if reached.item.kind == 'fn':
                yield reached.path, Member(reached.item, self.scopes[reached.module], self.sources[reached.module])
            elif reached.item.name in self.types:
                for member in self.methods_of(reached.item.name):
                    if member.item.kind == 'fn':
                        yield f'{reached.path}::{member.item.name}', member
            elif reached.item.kind == 'trait':
                for member in self.members_of_trait(reached.item.name):
                    if member.item.kind == 'fn':
                        yield f'{reached.path}::{member.item.name}', member


def laws_of_trait(members):
    """Returns the names of the ghost members of a trait that state something of the others."""
    ghosts = {it.item.name: it.item.whole.partition(':')[2] for it in members if it.item.kind == 'ghost'}
    return {name for name, text in ghosts.items() if any(re.search(rf'(?<!\w){other}(?!\w)', text) for other in ghosts if other != name)}


class Crates:
    """The crates of a repository."""

    def __init__(self, top):
        self.top = top
        with open(os.path.join(top, 'crates.txt'), encoding='utf-8') as file:
            lines = [line.partition('#')[0].strip() for line in file]
        self.below = {name.split()[0]: rest.split() for name, _, rest in (line.partition(':') for line in lines if line)}
        self.read = {}

    def libraries(self):
        """Returns the crates that have public contracts: those with a lib.rt, but for crates of tests alone, whose names begin with `test_`."""
        return [name for name in self.below
                if (not name.startswith('test_') or name in FOR_TESTS) and os.path.exists(os.path.join(self.top, 'crates', name, 'src', 'lib.rt'))]

    def crate(self, name):
        if name not in self.read:
            self.read[name] = Crate(name, os.path.join(self.top, 'crates', name))
        return self.read[name]

    def laws_of(self, trait):
        """Returns the names of the members of a trait, of std or of a crate, that in an `impl` hold proofs."""
        for name in self.below:
            if os.path.isdir(os.path.join(self.top, 'crates', name, 'src')) and trait in self.crate(name).traits:
                return laws_of_trait(self.crate(name).members_of_trait(trait))
        return PROOFS
