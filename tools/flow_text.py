"""What the tools for flows share: a text that is edited at its words, the statements of a DEF, and where the edited text goes.

    text = EditedText(path)                  its words
    text.replace(at, word), text.put_before(at, words), text.put_in_place(begin, end, words), text.take_out(begin, end)
    text.edited()                            the text with these edits; all else stays byte for byte
    text = DefText(path)                     such a text of a DEF, and its statements with their sections
"""
import argparse
import os
import sys
from typing import NamedTuple

from lefdef_text import Refused, Words, message_of
from lefdef_text.words import WORD

REFUSED, NO_FILE, USAGE = 2, 5, 64
STATUSES = ('Exit status: 0: written; 2: a text is refused, with its file, its line and the word; 5: a file cannot be read or written, or exists already; '
            '64: usage error. Messages go to standard error.')
ENTRY_SECTIONS = ('VIAS', 'COMPONENTS', 'PINS', 'BLOCKAGES', 'SPECIALNETS', 'NETS', 'GROUPS', 'REGIONS', 'FILLS', 'SLOTS', 'STYLES', 'SCANCHAINS',
                  'NONDEFAULTRULES', 'PINPROPERTIES', 'PROPERTYDEFINITIONS')


class UsageFault(Exception):
    """An argument names what is not there, as the message says."""


class NotWritten(Exception):
    """The edited text could not be written, for the reason in the message."""


class Statement(NamedTuple):
    """The words `begin` to `end`, of which the last is the semicolon, and the section that they are in ('' outside of one)."""
    section: str
    begin: int
    end: int


class EditedText(Words):
    """A text and edits of it."""

    def __init__(self, path, text=None):
        super().__init__(path, text)
        self.spans = [found.span(1) for found in WORD.finditer(self.text) if found[1]]
        self.edits = []

    def replace(self, at, word):
        self.edits.append((*self.spans[at], word))

    def put_before(self, at, words):
        start = self.spans[at][0]
        self.edits.append((start, start, words))

    def put_in_place(self, begin, end, words):
        """Puts other words in the place of the words `begin` to `end`."""
        self.edits.append((self.spans[begin][0], self.spans[end][1], words))

    def take_out(self, begin, end):
        """Takes out the words `begin` to `end` with the rest of their line, where nothing else is on it."""
        start, stop = self.spans[begin][0], self.spans[end][1]
        line_start = self.text.rfind('\n', 0, start) + 1
        line_stop = self.text.find('\n', stop)
        line_stop = len(self.text) if line_stop < 0 else line_stop + 1
        if not self.text[line_start:start].strip() and not self.text[stop:line_stop].strip():
            start, stop = line_start, line_stop
        self.edits.append((start, stop, ''))

    def blank(self, begin, end):
        """Takes out the words `begin` to `end` and keeps their line feeds, so that all that follows keeps its line."""
        start, stop = self.spans[begin][0], self.spans[end][1]
        self.edits.append((start, stop, '\n' * self.text.count('\n', start, stop)))

    def edited(self):
        parts, done = [], 0
        for start, stop, words in sorted(self.edits, key=lambda edit: edit[:2]):
            parts += self.text[done:start], words
            done = stop
        return ''.join(parts) + self.text[done:]


class DefText(EditedText):
    """A DEF text, its statements, and edits of it. A text that is cut, in which a section does not end as it begins, is refused."""

    def __init__(self, path, text=None):
        super().__init__(path, text)
        self.section_at, self.end_at = {}, {}
        self.statements = list(self.split())

    def split(self):
        section = ''
        while self.more():
            begin = self.at
            word = self.keyword()
            if word == 'END':
                self.end_at[section] = begin
                self.expect(section or 'DESIGN')
                if not section:
                    return self.check_end()
                section = ''
            elif word == 'BEGINEXT':
                while self.keyword() != 'ENDEXT':
                    pass
            elif word != ';':
                self.skip_statement()
                if not section and word in ENTRY_SECTIONS:
                    section = word
                    self.section_at[word] = begin
                else:
                    yield Statement(section, begin, self.at - 1)
        return self.ends_early()

    def check_end(self):
        if self.more():
            self.refuse('nothing may follow END DESIGN', self.at)

    def of(self, section, keyword='-'):
        """Returns the statements of a section that begin with a keyword."""
        return [it for it in self.statements if it.section == section and self.words[it.begin].upper() == keyword]

    def clauses(self, statement):
        """Returns the places of the words after a statement's `+` signs, each with the place where its clause ends."""
        starts = [at + 1 for at in range(statement.begin, statement.end) if self.words[at] == '+' and self.words[at - 1] != '+']
        return [(at, (starts[k + 1] - 1 if k + 1 < len(starts) else statement.end)) for k, at in enumerate(starts)]

    def terminals(self, entry):
        """Yields the two words of each terminal of a net's entry: a component, `*` or PIN, and a pin."""
        at = entry.begin + 2
        while self.words[at] == '(' and at < entry.end:
            yield self.words[at + 1], self.words[at + 2]
            while self.words[at] != ')' and at < entry.end:
                at += 1
            at += 1


class Parser(argparse.ArgumentParser):
    """Words of a command line; a usage error ends with its own status."""

    def __init__(self, prog, doc, statuses):
        super().__init__(prog=prog, description=doc, formatter_class=argparse.RawDescriptionHelpFormatter, epilog=statuses)

    def error(self, message):
        self.print_usage(sys.stderr)
        self.exit(USAGE, f'{self.prog}: {message}\n')


class Arguments(Parser):
    """Words of a command line: a DEF, LEFs where the tool needs them, and where the answer goes. `order` is what is said of the order of the
    files."""
    order = 'the DEF is named first'

    def __init__(self, prog, doc, libraries=None):
        super().__init__(prog, doc, STATUSES)
        self.add_inputs(libraries)
        self.add_argument('-o', '--output', metavar='FILE', help='write the text there, in place of standard output')
        self.add_argument('--force', action='store_true', help='overwrite FILE if it exists')

    def add_inputs(self, libraries):
        self.add_argument('design', metavar='DEF', help='the block')
        if libraries:
            self.add_argument('libraries', metavar='LEF', nargs=libraries, help='its libraries, in the order in which lefdef is given them')

    def inputs(self, asked):
        """Returns the path of the DEF, or None, and those of the LEFs."""
        return asked.design, getattr(asked, 'libraries', ())


def check_output(asked, design, libraries):
    """Returns why the output cannot be written, or None: a text that is read is never overwritten, another file only with --force."""
    if asked.output is None or not os.path.exists(asked.output):
        return None
    if any(path and os.path.exists(path) and os.path.samefile(path, asked.output) for path in (design, *libraries)):
        return f'{asked.output} is read: it is not overwritten'
    return None if asked.force else f'{asked.output} exists already; with --force it is overwritten'


def write(path, text):
    data = text.encode('utf-8', 'surrogateescape')
    try:
        if path is None:
            sys.stdout.buffer.write(data)
            sys.stdout.buffer.flush()
        else:
            with open(path, 'wb') as file:
                file.write(data)
    except OSError as error:
        raise NotWritten(f'cannot write {path or "standard output"}: {error.strerror}') from error


def run(parser, words, edit):
    """Runs a tool: `edit` takes the arguments and a function that notes a line, and returns the edited text. What it noted is printed once
    the text is written: of a text that is refused only the reason is printed."""
    asked, notes = parser.parse_args(words), []
    design, libraries = parser.inputs(asked)
    why = check_output(asked, design, libraries)
    status = NO_FILE
    if why:
        notes = [why]
    else:
        try:
            write(asked.output, edit(asked, notes.append))
            status = 0
        except Refused as refused:
            print(message_of(refused, design, libraries, parser.order), file=sys.stderr)
            return REFUSED
        except UsageFault as fault:
            notes, status = [fault], USAGE
        except NotWritten as fault:
            notes = [fault]
        except OSError as error:
            notes = [f'cannot read {error.filename}: {error.strerror}']
    for line in notes:
        print(f'{parser.prog}: {line}', file=sys.stderr)
    return status


def print_lines(prog, lines_of):
    """Runs a tool that prints what it finds: `lines_of` returns the lines and the exit status. Of what cannot be read nothing is printed."""
    try:
        lines, status = lines_of()
        write(None, ''.join(f'{line}\n' for line in lines))
        return status
    except NotWritten as fault:
        print(f'{prog}: {fault}', file=sys.stderr)
    except OSError as error:
        print(f'{prog}: cannot read {error.filename}: {error.strerror}', file=sys.stderr)
    return NO_FILE


def counted(number, one, many=None):
    return f'{number} {one if number == 1 else many or one + "s"}'
