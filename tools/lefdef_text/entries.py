"""What the entries of all sections of a DEF text have: names, layers, points and clauses."""
from .reader import Reader


class EntryReader(Reader):
    """Reads a part of a DEF text into a design."""

    def __init__(self, text, design):
        super().__init__(text)
        self.design, self.library = design, design.library

    def point(self):
        return self.text.point(self.text.whole)

    def polygon(self, begin):
        """Takes the points of a polygon, of which the word is the word number `begin`, and returns its slabs."""
        text, points = self.text, [self.point()]
        while text.words[text.at] == '(':
            text.take()
            points.append(tuple(self.coordinate(points[-1], axis) for axis in (0, 1)))
            text.expect(')')
        return self.slabs(points, begin)

    def coordinate(self, last, axis):
        """Takes a coordinate, where `*` is that of the last point, if there is one."""
        text = self.text
        if last and text.words[text.at] == '*':
            text.take()
            return last[axis]
        return text.whole()

    def layer(self):
        return self.known('layer', self.library.layers)

    def section(self, name, entry):
        text = self.text
        text.whole()
        text.expect(';')
        while (word := text.take()) == '-':
            entry()
        if word.upper() != 'END':
            text.unexpected('an entry or END')
        text.expect(name)

    def clauses(self, clause):
        """Takes the clauses of an entry and its semicolon; `clause` is given the word after each +."""
        text = self.text
        while (mark := text.take()) == '+':
            clause(text.word('the word of a clause').upper())
        if mark != ';':
            text.unexpected('+ or ;')

    def skip_clause(self, section):
        """Takes the rest of a clause, which is read past."""
        text, begin = self.text, self.text.at - 1
        while text.words[text.at] not in ('+', ';'):
            text.take()
        text.past(f'{section} + {text.words[begin].upper()}', begin)

    def new_name(self, kind, *records):
        text = self.text
        name = text.name(f'the name of a {kind}')
        if any(name in known for known in records):
            text.fault(f'{kind} {name} appears twice', kind='DuplicateName', form=f'a {kind} appears twice')
        return name

    def bad_via(self, via):
        """Refuses the word that was taken last, the name of a via that is not good."""
        self.text.fault(f'via {via.name} does not join two routing layers', kind='BadVia', form='a via does not join two routing layers')

    def twice(self, word, is_given):
        if is_given:
            self.text.refuse(f'{word} is given twice, or with a word that it excludes')
