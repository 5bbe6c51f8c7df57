"""Reading the texts of a block with what `tools/judged` tells of them: which statements a layer has, and what is read past."""
from typing import List, NamedTuple, Optional

from lefdef_text import NARROW, Library, Words
from lefdef_text.def_reader import SKIPPED_SECTIONS, DefReader, units_of
from lefdef_text.design import Design, Segment
from lefdef_text.lef_reader import LefReader
from lefdef_text.net_reader import NetReader

WORDS_SHOWN = 160


class Statement(NamedTuple):
    """A statement of a layer: its first word, where it is, its words, and what of the layer it gives: TYPE, DIRECTION, WIDTH, SPACING, TABLE
    (the spacing of a table), or nothing."""
    keyword: str
    place: str
    words: List[str]
    gives: Optional[str]

    def text(self):
        """Returns the words on one line, the first of them where they are many."""
        text = ' '.join(' '.join(self.words).split())
        return f'{text} ;' if len(text) <= WORDS_SHOWN else f'{text[:WORDS_SHOWN]} ..'


class NotedWords(Words):
    """The words of a text that notes what is read past, by its form: how often, and where first."""

    def __init__(self, path):
        super().__init__(path)
        self.noted = {}

    def place(self, at):
        return f'{self.path}:{self.line(at)}'

    def past(self, form, begin):
        if form.endswith('PROPERTY'):
            form = f'{form} {self.words[begin + 1]}'
        self.noted.setdefault(form, [begin, 0, 0])
        self.noted[form][1] += 1
        if form in SKIPPED_SECTIONS:
            self.noted[form][2] += sum(1 for at in range(begin, self.at) if self.words[at] == '-' and self.words[at - 1] == ';')

    def past_lines(self):
        """Returns a line for each form that was read past, in the order of the first ones."""
        return [f'past {self.place(at)} {count} {form}' + (f', entries {entries}' if entries else '')
                for form, (at, count, entries) in self.noted.items()]


class LayerReader(LefReader):
    """Reads a LEF text, and keeps the statements of each layer in `rules`, by the name of the layer."""

    def __init__(self, text, library, rules):
        super().__init__(text, library)
        self.rules, self.statements_of_layer = rules, None

    def layer(self):
        name = self.text.words[self.text.at]
        self.statements_of_layer = self.rules.setdefault(name, [])
        super().layer()

    def layer_statement(self, word, found):
        begin, before = self.text.at - 1, set(found)
        super().layer_statement(word, found)
        gives = [key for key in found if key not in before and found[key] is not None]
        if word != ';':
            words = self.text.words[begin:self.text.at - 1]
            self.statements_of_layer.append(Statement(word, self.text.place(begin), words, gives[0] if gives else None))


class Met:
    """How often a form was met, and the first one: the number of its word, and its net."""

    def __init__(self):
        self.count, self.at, self.net = 0, None, None

    def add(self, at, net):
        if not self.count:
            self.at, self.net = at, net
        self.count += 1


def is_open_bend(wire, following):
    """Returns whether two wires of a path that follow one another are a bend at whose point no extension fills the outer corner."""
    is_bend = isinstance(wire, Segment) and isinstance(following, Segment) and (wire.x1 == wire.x2) != (following.x1 == following.x2)
    return is_bend and 2 * wire.after < wire.width


class NotedNetReader(NetReader):
    """Reads nets, and keeps where their terminals are, which `( * pin )` denotes none, and which wiring other readers draw otherwise: bends of
    special nets, and steps to the same point."""

    def __init__(self, text, design):
        super().__init__(text, design)
        self.terminal_at, self.unmatched, self.net_name = {}, [], ''
        self.bends, self.steps, self.has_width = Met(), Met(), True

    def net_entry(self, entries, is_special):
        self.net_name = self.text.words[self.text.at]
        super().net_entry(entries, is_special)

    def terminal(self, net, is_special):
        begin = self.text.at
        super().terminal(net, is_special)
        if not is_special:
            self.terminal_at.setdefault(next(reversed(net.terminals)), begin)

    def path(self, wires, is_special):
        first, self.has_width = len(wires), True
        super().path(wires, is_special)
        if is_special:
            for number in range(first + 1, len(wires)):
                if is_open_bend(wires[number - 1], wires[number]):
                    self.bends.add(self.ends_at[number - 1], self.net_name)

    def special_width(self):
        width = super().special_width()
        self.has_width = width > 0
        return width

    def path_point(self, last):
        begin, found = self.text.at, super().path_point(last)
        if last == found[:2] and self.has_width:
            self.steps.add(begin, self.net_name)
        return found

    def every_component(self, pin):
        found = super().every_component(pin)
        if not found:
            self.unmatched.append((self.text.at - 1, pin, self.net_name, bool(self.design.components)))
        return found


class NotedDefReader(DefReader):
    """Reads a DEF text, and keeps where its components are."""
    net_reader = NotedNetReader

    def __init__(self, text, design):
        super().__init__(text, design)
        self.component_at = {}

    def component(self):
        self.component_at[self.text.words[self.text.at]] = self.text.at
        super().component()


class Texts:
    """LEF texts and maybe a DEF, read: their words, the library, the statements of its layers, and the block."""

    def __init__(self, design_path, library_paths, profile=NARROW):
        self.library, self.rules, self.words = Library(), {}, []
        for path in library_paths:
            self.words.append(NotedWords(path))
            LayerReader(self.words[-1], self.library, self.rules).within(profile).read()
        self.design = self.reader = None
        if design_path is not None:
            self.words.append(NotedWords(design_path))
            units = units_of(self.words[-1])
            self.reader = NotedDefReader(self.words[-1], Design(self.library.at(units), units)).within(profile)
            self.design = self.reader.read()
