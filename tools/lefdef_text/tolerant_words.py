"""The words of LEF and DEF texts whose faults are kept, and the faults."""
import os
import re

from .words import Words

GREATEST_TEXT = 1 << 28
NUMBER_LIKE = re.compile(r'[+-]?([0-9]+\.?[0-9]*|\.[0-9]+)([eE][+-]?[0-9]{1,2})?')
ZEROS_AFTER_POINT = re.compile(r'[+-]?[0-9]+\.0*')
# Faults behind which a part of a text is not looked at.
HIDING = ('Unexpected', 'BadNumber', 'TooLarge')


class Faults:
    """The faults of some texts, in the order in which they were met; the words of these texts; where they were not looked at, each place as the
    path, the first line and the last; and of what nothing is known because of a fault."""

    def __init__(self):
        self.found, self.places, self.met = [], set(), 0
        self.texts, self.unread = {}, []
        self.lost_names, self.are_names_lost = set(), False
        self.doubtful_vias = set()

    def mark(self):
        """Returns what is kept so far, for `back_to`."""
        return len(self.found), set(self.places), self.met, len(self.unread), set(self.lost_names), self.are_names_lost, set(self.doubtful_vias)

    def back_to(self, mark):
        """Forgets what was kept since a mark."""
        found, self.places, self.met, unread, self.lost_names, self.are_names_lost, self.doubtful_vias = mark
        del self.found[found:], self.unread[unread:]

    def keep(self, refused):
        """Keeps a fault, unless it is there already, or is that of a name which may have been defined in what was not looked at."""
        self.met += 1
        place = refused.path, refused.at, refused.kind
        is_lost = refused.kind == 'UnknownName' and (self.are_names_lost or refused.word in self.lost_names)
        if place not in self.places and not is_lost:
            self.places.add(place)
            self.found.append(refused)


def is_too_long(path):
    """Returns whether a file is longer than a text may be."""
    return os.path.isfile(path) and os.path.getsize(path) > GREATEST_TEXT


def form_of_number(word, is_length):
    """Returns how a number is written that is no whole number, or no length."""
    if 'e' in word.lower():
        form = 'with an exponent'
    elif is_length:
        form = 'of more than six decimals'
    else:
        form = 'with zeros after a point' if ZEROS_AFTER_POINT.fullmatch(word) else 'with digits after a point'
    return f'a {"length" if is_length else "number"} {form}'


class TolerantWords(Words):
    """The words of a text whose faults are kept."""

    def __init__(self, path, faults):
        self.faults, self.is_cut = faults, False
        faults.texts[path] = self
        super().__init__(path, '' if is_too_long(path) else None)
        if is_too_long(path):
            self.fault(f'the text is longer than {GREATEST_TEXT:,} bytes', 0, 'TooLarge')
            self.cut(0)

    def cut(self, at):
        """Leaves out the words from the word number `at` on."""
        self.words, self.count, self.is_cut = [*self.words[:at], ''], at, True
        self.faults.are_names_lost = True

    def unclosed(self, at):
        self.fault('a quoted word is not closed', at, 'UnclosedString')
        self.cut(at)

    def fault(self, why, at=None, kind='Unexpected', form=None):
        self.faults.keep(self.refusal(why, at, kind, form))

    def no_number(self, what):
        """Keeps a word that is written as a number of another form, and returns its value; refuses another word."""
        word = self.words[self.at - 1]
        if len(word) > 40 or not NUMBER_LIKE.fullmatch(word):
            self.unexpected(what, 'BadNumber')
        is_length = what.startswith('a length')
        self.fault(f'{what} was expected, not {word}', kind='BadNumber', form=form_of_number(word, is_length))
        return int(float(word) * (10 ** 6 if is_length else 1))

    def has_semicolon(self):
        """Returns whether a semicolon comes, now or later."""
        try:
            return self.words.index(';', self.at) >= 0
        except ValueError:
            return False

    def keep(self, refused):
        """Keeps a refusal behind which reading goes on; a text that ends early is refused again."""
        if refused.kind == 'UnexpectedEnd':
            raise refused
        self.faults.keep(refused)

    def go_on(self, refused, begin, stops, behind=''):
        """Keeps a refusal, and goes on at the first of the words `stops` from the word at fault on, but behind the word number `begin`; or behind
        a word `behind`, if that comes first."""
        self.keep(refused)
        at = max(refused.at, begin + 1)
        while at < self.count and self.words[at].upper() not in (*stops, behind):
            at += 1
        if refused.kind in HIDING and at > refused.at + 1:
            self.faults.unread.append((self.path, self.line(refused.at), self.line(at)))
        self.at = at + 1 if behind and self.words[at] == behind else at

    def stop(self, refused):
        """Keeps the refusal with which a text ends, unless it was cut."""
        if not self.is_cut:
            self.faults.keep(refused)
            self.faults.are_names_lost = True
