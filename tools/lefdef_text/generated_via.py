"""Reading generated vias (docs/FORMATS.md, "Vias"): numbers in place of rectangles."""
import re

from .rects import Rect, moved
from .words import GREATEST_NUMBER

MOST_CUTS = 10_000
MOST_SHAPES = 4_000_000
# How many numbers the clauses have, and the least that each of these may be.
SIZES = {'CUTSIZE': (2, 1), 'CUTSPACING': (2, 0), 'ENCLOSURE': (4, 0), 'ROWCOL': (2, 1), 'ORIGIN': (2, None), 'OFFSET': (4, None)}
REQUIRED = ('VIARULE', 'LAYERS', 'ENCLOSURE', 'CUTSIZE', 'CUTSPACING')
UNREAD = ('RECT', 'POLYGON', 'PATTERNNAME', 'MASK')
ROW = r'[0-9A-Fa-f]+_(?:R[1-9A-Fa-f][0-9A-Fa-f]|[0-9A-Fa-f])+'
PATTERN = re.compile(f'{ROW}(?:_{ROW})*')
REPEATED = re.compile('R(.)(.)')


def is_generated(text):
    """Returns whether the entry of VIAS whose clauses come next has the clause VIARULE."""
    for at in range(text.at, text.count):
        if text.words[at] == ';':
            return False
        if text.words[at] == '+' and text.words[at + 1].upper() == 'VIARULE':
            return True
    return False


def rows_of_pattern(word):
    """Returns the rows of a pattern from the bottom up: for how many rows each is, and its bits from the left; or None of another word."""
    parts = word.split('_')
    if not PATTERN.fullmatch(word) or not all(1 <= int(count, 16) <= MOST_CUTS for count in parts[::2]):
        return None
    rows = []
    for count, digits in zip(parts[::2], parts[1::2]):
        digits = REPEATED.sub(lambda found: found[2] * int(found[1], 16), digits)
        rows.append((int(count, 16), ''.join(f'{int(digit, 16):04b}' for digit in digits)))
    return rows


def is_cut_between(layers):
    """Returns whether of three layers the first and the last are for wires, and the one between is one of cuts."""
    return [layer.is_routing() for layer in layers] == [True, False, True] and layers[1].has_metal()


class GeneratedVia:
    """A generated via: `found` has its numbers by the words of clauses or of statements, in a unit of which a side may have so many."""
    limit = GREATEST_NUMBER

    def __init__(self):
        self.found = {}

    def refuse(self, why, kind='Unexpected', form=None):
        """Refuses the via as a whole."""
        raise NotImplementedError

    def shapes(self):
        """Returns the rectangles."""
        missing = [word for word in REQUIRED if word not in self.found]
        if missing:
            self.refuse(f'a generated via lacks {missing[0]}', form='a generated via lacks a clause')
        box = self.box()
        low, cut, high = self.found['LAYERS']
        ends, shifts = self.found['ENCLOSURE'], self.found.get('OFFSET', (0, 0, 0, 0))
        plates = [moved(Rect(box.x1 - x, box.y1 - y, box.x2 + x, box.y2 + y), *shift)
                  for x, y, shift in ((*ends[:2], shifts[:2]), (*ends[2:], shifts[2:]))]
        for rect in (box, *plates):
            if max(map(abs, rect)) > self.limit:
                self.refuse(f'a side of a generated via is beyond {self.limit}', 'TooLarge')
        return [(low, plates[0]), *((cut, rect) for rect in self.cuts(box)), (high, plates[1])]

    def box(self):
        """Returns the rectangle around all cuts."""
        (width, height), (across, up) = self.found['CUTSIZE'], self.found['CUTSPACING']
        rows, columns = self.found.get('ROWCOL', (1, 1))
        x, y = columns * (width + across) - across, rows * (height + up) - up
        if x % 2 or y % 2:
            self.refuse('the cuts of a via are an odd number of units wide or high', 'BadVia')
        return moved(Rect(-x // 2, -y // 2, x // 2, y // 2), *self.found.get('ORIGIN', (0, 0)))

    def cuts(self, box):
        """Returns the cuts, row by row."""
        (width, height), (across, up) = self.found['CUTSIZE'], self.found['CUTSPACING']
        rows, columns = self.found.get('ROWCOL', (1, 1))
        first = Rect(box.x1, box.y1, box.x1 + width, box.y1 + height)
        return [moved(first, column * (width + across), row * (height + up))
                for row, bits in enumerate(self.rows_of_bits(rows, columns)) for column in range(columns) if bits[column:column + 1] == '1']

    def rows_of_bits(self, rows, columns):
        """Returns the bits of each row."""
        if 'PATTERN' not in self.found:
            return ['1' * columns] * rows
        bits = []
        for count, row in self.found['PATTERN']:
            bits += [row] * min(count, rows - len(bits))
        return bits


class GeneratedEntry(GeneratedVia):
    """A generated via of VIAS, whose clauses a reader of a DEF takes."""

    def __init__(self, reader):
        super().__init__()
        self.reader, self.text = reader, reader.text
        self.begin = self.text.at - 2

    def refuse(self, why, kind='Unexpected', form=None):
        self.text.refuse(why, self.begin, kind, form)

    def shapes(self):
        """Takes the clauses with the semicolon, and returns the rectangles."""
        self.reader.clauses(self.clause)
        shapes = super().shapes()
        self.check_room(len(shapes), self.begin)
        return shapes

    def check_room(self, count, at):
        """Refuses a via with which the vias have too many rectangles."""
        if self.reader.rects_of_vias + count > MOST_SHAPES:
            self.text.refuse(f'there are more than {MOST_SHAPES:,} rectangles of vias', at, 'TooMany')

    def clause(self, word):
        """Takes a clause, whose word was taken."""
        text = self.text
        if word in UNREAD:
            text.refuse(f'{word} of a generated via is not supported', kind='Unsupported')
        elif word in SIZES or word in ('VIARULE', 'LAYERS', 'PATTERN'):
            self.reader.twice(word, word in self.found)
            self.found[word] = self.value(word)
        else:
            self.reader.skip_clause('VIAS')

    def value(self, word):
        """Takes what a clause says behind its word."""
        text = self.text
        if word == 'VIARULE':
            return text.word('the name of a rule')
        if word == 'LAYERS':
            return self.layers()
        if word == 'PATTERN':
            return rows_of_pattern(text.name('a pattern of cuts')) or text.unexpected('a pattern of cuts')
        at, (count, least) = text.at, SIZES[word]
        numbers = tuple(self.number(least) for _ in range(count))
        if word == 'ROWCOL' and numbers[0] * numbers[1] > MOST_CUTS:
            text.fault(f'a via has more than {MOST_CUTS:,} cuts', at, 'TooLarge')
            return 1, 1
        return numbers

    def number(self, least):
        number = self.text.whole()
        if least is not None and number < least:
            self.text.refuse(f'{number} is below {least}', kind='TooLarge', form=f'a number is below {least}')
        return number

    def layers(self):
        at = self.text.at
        layers = [self.reader.layer() for _ in range(3)]
        if not is_cut_between(layers):
            self.text.refuse('the layers of a via are one for wires, one of cuts, and one for wires', at)
        return [layer.name for layer in layers]
