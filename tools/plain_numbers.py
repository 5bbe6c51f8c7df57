"""Numbers of LEF and DEF texts that lefdef does not read, because they have digits or an exponent that no number of these texts has, and that
lie so near to a database unit that the unit is meant."""
from fractions import Fraction

from flow_text import counted
from lefdef_text.tolerant_words import NUMBER_LIKE
from lefdef_text.words import GREATEST_NUMBER

# How far a number may lie from the unit that it is written as, in database units.
NOISE = Fraction(1, 10 ** 6)
MILLIONTHS = 10 ** 6


def microns(millionths):
    """Returns a length as a LEF has it."""
    whole, rest = divmod(abs(millionths), MILLIONTHS)
    return ('-' if millionths < 0 else '') + f'{whole}.{rest:06}'.rstrip('0').rstrip('.')


class PlainNumbers:
    """Words of an edited text: a number of another form is read as the unit that it lies at, and written so in the end. `units` are the database
    units of a micron, or None where they are not known."""
    units = None

    def __init__(self, *words):
        self.numbers = {}
        super().__init__(*words)

    def no_number(self, what):
        word, is_length = self.words[self.at - 1], what.startswith('a length')
        if len(word) > 60 or not NUMBER_LIKE.fullmatch(word):
            self.unexpected(what, 'BadNumber')
        if is_length and self.units is None:
            self.refuse(f'{what} was expected, not {word}, and the units of a micron are not known: the LEF has no UNITS DATABASE MICRONS, '
                        'so give those of the DEF with --units', kind='BadNumber')
        exact = Fraction(word) * (self.units if is_length else 1)
        number = round(exact)
        if abs(exact - number) > NOISE:
            self.refuse(f'{word} is more than a millionth of a database unit from {number} units' + self.of_units(is_length), kind='BadNumber')
        if abs(number) > GREATEST_NUMBER:
            self.refuse(f'{word} is beyond {GREATEST_NUMBER} database units', kind='TooLarge')
        return self.written(number, is_length)

    def of_units(self, is_length):
        return f', of which {self.units} are a micron' if is_length else ''

    def written(self, number, is_length):
        """Notes how the number that was taken last is written, and returns its value."""
        value, rest = divmod(number * MILLIONTHS, self.units) if is_length else (number, 0)
        if rest:
            self.refuse(f'{number} units, of which {self.units} are a micron, are no length of at most six decimals', kind='BadNumber')
        self.numbers[self.at - 1] = microns(value) if is_length else str(number)
        return value

    def write_numbers(self, tell):
        """Writes the numbers that are read as the units that they lie at, and tells how many."""
        for place, word in self.numbers.items():
            self.replace(place, word)
        if self.numbers:
            tell(f'{counted(len(self.numbers), "number")} written as the unit that each lies at, the first in line {self.line(min(self.numbers))}')
