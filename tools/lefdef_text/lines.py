"""The lines that lefdef prints (docs/FORMATS.md, "Printed lines")."""
import re
import sys
from typing import Any, Dict, NamedTuple, Tuple

from .rects import Rect
from .words import Refused, read_text, shown

NAME = r'\S+'
SIDES = r'-?[0-9]+ -?[0-9]+ -?[0-9]+ -?[0-9]+'
OWNER = rf'NET {NAME}|TERM {NAME} {NAME}|POWER|GROUND|OBS {NAME}|BLOCKAGE [0-9]+'
# What stands in a line, and what it is read as; a length is a number of database units.
TYPES = {
    'name': (rf'({NAME})', str), 'word': ('([A-Za-z]+)', str), 'owner': (f'({OWNER})', str), 'piece': (rf'({NAME}) ({NAME})', lambda a, b: f'{a} {b}'),
    'sides': (f'({SIDES})', lambda words: Rect(*map(int, words.split(' ')))), 'count': ('([0-9]+)', int), 'length': ('([0-9]+)', int)}
PAIR = 'layer:name owner:owner sides:sides other_owner:owner other_sides:sides'
# Every form of a line outside the text of a design: the words that it begins with, and what follows, each with a name and its type. A word
# without a type stands for itself, and where a kind has several forms ` | ` is between them.
FORMS = {
    'UNPLACED': 'component:name',
    'OUTSIDE': 'component:name',
    'OFFSITE': 'component:name',
    'OVERLAP': 'component:name other:name',
    'BLOCKED': 'component:name',
    'SHORT': PAIR,
    'TOONEAR': PAIR,
    'OPEN': 'net:name piece:piece',
    'legal': '',
    'violations': 'count:count',
    'FIXEDILLEGAL': 'count:count',
    'NOTCLEAN': 'count:count',
    'UNFINISHED': 'net:name',
    'unfinished': 'count:count',
    'hpwl': 'length:length',
    'NOSITE': 'component:name',
    'NOROOM': 'component:name',
    'UNROUTABLE': 'net:name',
    'UNREACHABLE': 'net:name piece:piece',
    'GRIDTOOLARGE': '',
    'TOOMANY': '',
    'MEMORY': '',
    'REFUSED': 'file:count line:count reason:word',
    'SCALE': 'name:name reason:word',
    'DIFFERS': 'part:word',
    'GONE': 'section:word name:name',
    'ADDED': 'section:word name:name',
    'CHANGED': 'section:word name:name change:word',
    'same': '',
    'places': 'places:count | places:count wires wires:count',
    'wires': 'wires:count',
    'differs': 'count:count',
    '# move': 'component:name distance:length',
    '# total': 'distance:length',
    '# greatest': 'distance:length',
    '# length': 'length:length',
    '# vias': 'count:count',
}
VIOLATIONS = ('UNPLACED', 'OUTSIDE', 'OFFSITE', 'OVERLAP', 'BLOCKED', 'SHORT', 'TOONEAR', 'OPEN')
DIFFERENCES = ('DIFFERS', 'GONE', 'ADDED', 'CHANGED')
# What a last line counts; an answer with another one has that line alone.
LISTED = {
    'legal': VIOLATIONS, 'violations': VIOLATIONS, 'FIXEDILLEGAL': VIOLATIONS, 'NOTCLEAN': VIOLATIONS, 'unfinished': ('UNFINISHED',),
    'same': DIFFERENCES, 'places': DIFFERENCES, 'wires': DIFFERENCES, 'differs': DIFFERENCES}
WHAT_IS_LISTED = {'UNFINISHED': 'nets', **dict.fromkeys(DIFFERENCES, 'differences'), **dict.fromkeys(VIOLATIONS, 'violations')}


class Form(NamedTuple):
    """A form of a line: the expression that it matches, and what it has: a name, how many groups of the expression, and what reads them."""
    pattern: Any
    fields: Tuple[Tuple[str, int, Any], ...]

    def values(self, groups):
        values, at = {}, 0
        for name, count, value in self.fields:
            values[name] = value(*groups[at:at + count])
            at += count
        return values


def form_of(kind, words):
    fields = [word.split(':') for word in words]
    pattern = ' '.join([kind, *(TYPES[field[1]][0] if len(field) > 1 else re.escape(field[0]) for field in fields)])
    named = [field for field in fields if len(field) > 1]
    return Form(re.compile(pattern, re.ASCII), tuple((name, re.compile(TYPES[of][0]).groups, TYPES[of][1]) for name, of in named))


def forms_of(kind):
    """Returns the forms of the lines of a kind."""
    return [form_of(kind, form.split()) for form in FORMS[kind].split('|')]


def length_names(kind):
    """Returns which parts of the lines of a kind are lengths."""
    return {name for name, _, of in (word.partition(':') for word in FORMS[kind].split()) if of == 'length'}


LINE_FORMS = {kind: forms_of(kind) for kind in FORMS}
VIOLATION_LINES = {kind: LINE_FORMS[kind][0].pattern for kind in VIOLATIONS}


class Violation(NamedTuple):
    """A violation as lefdef listed it: its kind, what it names after the kind, the number of its line in the list, and the line itself.

    It names a component; two components; a layer and for each of two shapes its owner and its sides (four numbers in one string);
    or a net and the two words of a piece."""
    kind: str
    names: Tuple[str, ...]
    line: int
    text: str


class Line(NamedTuple):
    """A printed line: its kind, what it has by the names of FORMS, its number in the answer, and the line itself."""
    kind: str
    values: Dict[str, Any]
    number: int
    text: str

    def is_violation(self):
        return self.kind in VIOLATIONS

    def violation(self):
        return Violation(self.kind, VIOLATION_LINES[self.kind].fullmatch(self.text).groups(), self.number, self.text)


def line_of(text, number):
    """Returns a printed line, or None of a text that is none."""
    kind = ' '.join(text.split(' ')[:2]) if text.startswith('# ') else text.split(' ')[0]
    found = ((form, form.pattern.fullmatch(text)) for form in LINE_FORMS.get(kind, ()))
    return next((Line(kind, form.values(matched.groups()), number, text) for form, matched in found if matched), None)


def answer_text(path):
    """Returns what a file has, or standard input (`-`)."""
    return sys.stdin.buffer.read().decode('utf-8', 'surrogateescape') if path == '-' else read_text(path)


def split_lines(text):
    lines = text.split('\n')
    if lines and not lines[-1]:
        lines.pop()
    return lines


def read_violations(path):
    """Returns the violations that a file lists (`-` is standard input), which is what lefdef printed, to the last line."""
    lines = split_lines(answer_text(path))
    found = []
    for number, text in enumerate(lines, 1):
        line = line_of(text, number)
        if line and LISTED.get(line.kind) == VIOLATIONS:
            check_count(path, line, found)
            if number < len(lines):
                raise Refused(path, number + 1, f'nothing may follow {text}')
            return found
        if not line or not line.is_violation():
            raise Refused(path, number, f'this is no line of a list of violations: {shown(text)}')
        found.append(line.violation())
    raise Refused(path, max(len(lines), 1), 'the list ends without its last line, `legal` or `violations N`')


def check_count(path, last, listed):
    count = sum(last.values.values())
    if count != len(listed):
        what = WHAT_IS_LISTED[LISTED[last.kind][0]]
        raise Refused(path, last.number, f'{count} {what} are counted, and {len(listed)} listed')
