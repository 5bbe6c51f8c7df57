"""The words of LEF and DEF texts, and their numbers, points and statements (docs/FORMATS.md, "Words")."""
import re
from array import array

from .rects import ordered

# White space is the bytes 9 to 13 and 32, which is `\s` in ASCII. A comment is matched outside the group.
WORD = re.compile(r'#[^\n]*|("(?:[^"\\]|\\"|\\(?!"))*"|[^\s#"]\S*(?=;(?:\s|\Z))|[^\s#"]\S*|")', re.ASCII)
WHOLE = re.compile(r'[+-]?[0-9]+')
LENGTH = re.compile(r'([+-]?)([0-9]*)\.?([0-9]*)')
MARKS = frozenset(';()+-*')
GREATEST_NUMBER = 2_000_000_000
GREATEST_LENGTH = 2 * 10 ** 15


class Refused(Exception):
    """A text is not one that can be read; the message names the file, the line and the reason.

    The kind is the one that lefdef prints, after `REFUSED` or `SCALE`. The form is the reason without what differs from one place to the
    next, such as a number. The word at fault is the word number `at` of its text: the last one where a text ends too early, or '' where it has
    none."""

    def __init__(self, path, line, why, kind='Unexpected', form=None, at=None, word=''):
        super().__init__(f'{path}:{line}: {why}')
        self.path, self.line, self.why = path, line, why
        self.kind, self.form, self.at, self.word = kind, form or why, at, word


def shown(text, most=200):
    """Returns the first characters of a text on one line, with a blank for white space and ? for each that cannot be shown."""
    return ''.join(' ' if it.isspace() else it if it.isprintable() else '?' for it in text[:most])


def read_text(path):
    """Returns the text of a file, byte for byte: what is no UTF-8 is kept, and is written again as it was."""
    with open(path, 'rb') as file:
        return file.read().decode('utf-8', 'surrogateescape')


def value_of(word):
    """Returns the value of a sign and digits, of which there may be none or very many; beyond the limits any value beyond them."""
    digits = word.lstrip('+-').lstrip('0')[:20]
    return int(digits or '0') * (-1 if word.startswith('-') else 1)


def millionths_of(word):
    """Returns the value of a length in millionths of a micron, or None of a word that is no length of at most six decimals."""
    found = LENGTH.fullmatch(word)
    decimals = found[3].rstrip('0') if found else ''
    if not found or not (found[2] or found[3]) or len(decimals) > 6:
        return None
    millionths = value_of(found[2]) * 10 ** 6 + int(decimals.ljust(6, '0'))
    return -millionths if found[1] == '-' else millionths


def lines_of_words(text):
    """Returns the line of each word of a text."""
    lines, line, done = array('L'), 1, 0
    for found in WORD.finditer(text):
        if found[1]:
            line += text.count('\n', done, found.start())
            done = found.start()
            lines.append(line)
    return lines


class Words:
    """The words of a text, and how far they have been read."""

    def __init__(self, path, text=None):
        self.path = path
        self.text = read_text(path) if text is None else text
        self.words = list(filter(None, WORD.findall(self.text)))
        self.count = len(self.words)
        self.at = 0
        self.lines = None
        if '"' in self.words:
            self.unclosed(self.words.index('"'))
        self.words.append('')

    def unclosed(self, at):
        """Refuses the text for a quoted word without an end, which begins in place of the word number `at`."""
        self.refuse('a quoted word is not closed', at, 'UnclosedString')

    def line(self, at):
        """Returns the line of the word number `at`, or of the last word where there are fewer."""
        at = min(at, self.count - 1)
        if at < 0:
            return 1
        if self.lines is None:
            self.lines = lines_of_words(self.text)
        return self.lines[at]

    def refusal(self, why, at=None, kind='Unexpected', form=None):
        """Returns the refusal of the text at the word number `at`, or at the word that was taken last."""
        at = self.at - 1 if at is None else at
        word = self.words[at] if 0 <= at < self.count else ''
        return Refused(self.path, self.line(at), why, kind, form, at, word)

    def refuse(self, why, at=None, kind='Unexpected', form=None):
        """Refuses the text at the word number `at`, or at the word that was taken last."""
        raise self.refusal(why, at, kind, form)

    def fault(self, why, at=None, kind='Unexpected', form=None):
        """Refuses the text for a fault that leaves no doubt of where its form ends. What follows such a call is for the words of `tolerant`,
        which keep the fault and let the reader go on."""
        self.refuse(why, at, kind, form)

    def past(self, form, begin):
        """Is told of each form that is read past: the words from the word number `begin` up to the next one, which have no effect. Here
        nothing is done with it; a tool that lists such forms has words of its own."""

    def more(self):
        return self.at < self.count

    def peek(self):
        """Returns the next word in capitals, or '' at the end."""
        return self.words[self.at].upper()

    def ends_early(self):
        self.refuse('the text ends too early', self.count - 1, 'UnexpectedEnd')

    def take(self):
        word = self.words[self.at]
        if not word:
            self.ends_early()
        self.at += 1
        return word

    def keyword(self):
        return self.take().upper()

    def unexpected(self, what, kind='Unexpected'):
        """Refuses the word that was taken last, where something else was expected."""
        self.refuse(f'{what} was expected, not {self.words[self.at - 1]}', kind=kind, form=f'{what} was expected')

    def expect(self, keyword):
        """Takes a keyword, in any case of letters, or a mark."""
        if self.words[self.at] == keyword:
            self.at += 1
        elif self.keyword() != keyword:
            self.unexpected(keyword)

    def name(self, what):
        """Takes a name: a plain word that is no mark."""
        word = self.take()
        if word in MARKS or word[0] == '"':
            self.unexpected(what)
        return word

    def word(self, what):
        """Takes a name or a quoted word."""
        word = self.take()
        if word in MARKS:
            self.unexpected(what)
        return word

    def whole(self):
        """Takes a whole number."""
        word = self.take()
        if not WHOLE.fullmatch(word):
            return self.no_number('a whole number')
        number = int(word) if len(word) < 20 else value_of(word)
        if abs(number) > GREATEST_NUMBER:
            self.refuse(f'{word[:40]} is beyond {GREATEST_NUMBER}', kind='TooLarge', form=f'a number is beyond {GREATEST_NUMBER}')
        return number

    def length(self):
        """Takes a length, in millionths of a micron."""
        word = self.take()
        millionths = millionths_of(word)
        if millionths is None:
            return self.no_number('a length of at most six decimals')
        if abs(millionths) > GREATEST_LENGTH:
            self.refuse(f'{word[:40]} is beyond 2,000 metres', kind='TooLarge', form='a length is beyond 2,000 metres')
        return millionths

    def no_number(self, what):
        """Refuses the word that was taken last, where a number of this form was expected."""
        self.unexpected(what, 'BadNumber')

    def point(self, number):
        """Takes a point in parentheses, each coordinate by `number`."""
        self.expect('(')
        x, y = number(), number()
        self.expect(')')
        return x, y

    def corners(self, point):
        """Takes two corners of a rectangle, in any order, each by `point`."""
        at = self.at
        return self.with_area(point() + point(), at)

    def with_area(self, sides, at):
        """Returns the rectangle of two corners that begins at the word number `at`, or refuses one without area."""
        rect = ordered(*sides)
        if rect.x1 == rect.x2 or rect.y1 == rect.y2:
            self.fault('a rectangle has no area', at, 'EmptyRect')
        return rect

    def statement(self):
        """Takes the words up to the next semicolon, and that, and returns them without it."""
        begin = self.at
        self.skip_statement()
        return self.words[begin:self.at - 1]

    def skip_statement(self):
        try:
            self.at = self.words.index(';', self.at) + 1
        except ValueError:
            self.ends_early()

    def skip_block(self, end):
        """Takes the words up to the first `END` with the keyword `end`."""
        while not (self.keyword() == 'END' and self.peek() == end):
            pass
        self.at += 1
