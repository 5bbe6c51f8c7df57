"""Reads a generated via: one of VIAS or of a LEF that has numbers in place of rectangles."""
import re

from .geometry import moved
from .words import NotRead, whole_number

MOST_CUTS = 10000
# The clauses that count, each with how many numbers it has, and the least that they may be.
NUMBERS = {'CUTSIZE': (2, 1), 'CUTSPACING': (2, 0), 'ENCLOSURE': (4, 0), 'ROWCOL': (2, 1), 'ORIGIN': (2, None), 'OFFSET': (4, None)}
NEEDED = {'VIARULE', 'CUTSIZE', 'LAYERS', 'CUTSPACING', 'ENCLOSURE'}
DEFAULTS = {'ROWCOL': (1, 1), 'ORIGIN': (0, 0), 'OFFSET': (0, 0, 0, 0)}
LEFT_OUT = ('RECT', 'POLYGON', 'PATTERNNAME', 'MASK')
# An item of a row of a pattern: a digit, behind R and how many times it stands there, or alone.
DIGITS = re.compile(r'R([1-9A-Fa-f])([0-9A-Fa-f])|([0-9A-Fa-f])')
ROWS = re.compile(rf'([0-9A-Fa-f]+)_((?:{DIGITS.pattern})+)')


def is_generated(words):
    """Whether an entry of these words has a clause VIARULE."""
    return any(mark == '+' and word.upper() == 'VIARULE' for mark, word in zip(words, words[1:]))


def generated_shapes(clauses, layers, length=whole_number):
    """Returns the shapes of a generated via of these clauses or statements, each a list of words; layers has the numbers of layers by their names,
    and length reads a number but those of ROWCOL."""
    found = {}
    for clause in clauses:
        word, rest = clause[0].upper(), clause[1:]
        if word in LEFT_OUT or word in found:
            raise NotRead(f'a generated via has {word}, or has it twice')
        if word in NUMBERS:
            found[word] = numbers(rest, *NUMBERS[word], whole_number if word == 'ROWCOL' else length)
        elif word == 'LAYERS':
            found[word] = layer_numbers(rest, layers)
        elif word in ('PATTERN', 'VIARULE'):
            if len(rest) != 1:
                raise NotRead(f'{word} has other than one word')
            found[word] = Pattern(rest[0]) if word == 'PATTERN' else rest[0]
    if NEEDED - set(found):
        raise NotRead('a generated via lacks numbers')
    return shapes_of({**DEFAULTS, **found})


def layer_numbers(names, layers):
    """Returns the numbers of three layers."""
    if len(names) != 3 or any(name not in layers for name in names):
        raise NotRead('a generated via is not on three layers')
    return [layers[name] for name in names]


def shapes_of(found):
    """Returns the shapes of a via with these numbers, by the words of clauses."""
    bottom, cut, top = found['LAYERS']
    around = array_box(found)
    px, py, qx, qy = found['OFFSET']
    bx, by, tx, ty = found['ENCLOSURE']
    cuts = [(cut, rect) for rect in cut_rects(found, around[:2], found.get('PATTERN'))]
    return [(bottom, moved(grown(around, bx, by), (px, py))), *cuts, (top, moved(grown(around, tx, ty), (qx, qy)))]


def clauses_of(words):
    """Returns the clauses among words that begin with a `+`, each without it."""
    clauses = []
    for word in words:
        if word == '+':
            clauses.append([])
        else:
            clauses[-1].append(word)
    return clauses


def numbers(words, count, least, number):
    """Returns these words as so many numbers, of which none is below the least; a function reads each."""
    if len(words) != count:
        raise NotRead(f'there are not {count} numbers')
    found = tuple(number(word) for word in words)
    if least is not None and min(found) < least:
        raise NotRead(f'a number is below {least}')
    return found


def array_box(found):
    """Returns the box around all cuts."""
    (width, height), (across, up), (rows, columns) = found['CUTSIZE'], found['CUTSPACING'], found['ROWCOL']
    if rows * columns > MOST_CUTS:
        raise NotRead('there are too many cuts')
    whole = columns * width + (columns - 1) * across, rows * height + (rows - 1) * up
    if whole[0] % 2 or whole[1] % 2:
        raise NotRead('the middle of the cuts is on no database unit')
    x, y = found['ORIGIN']
    return x - whole[0] // 2, y - whole[1] // 2, x + whole[0] // 2, y + whole[1] // 2


def grown(rect, across, up):
    """Returns a rectangle that reaches so much farther along x and along y."""
    return rect[0] - across, rect[1] - up, rect[2] + across, rect[3] + up


def cut_rects(found, corner, pattern):
    """Returns the cuts from the lower left corner of all of them on, row by row."""
    (width, height), (across, up), (rows, columns) = found['CUTSIZE'], found['CUTSPACING'], found['ROWCOL']
    places = [(row, column) for row in range(rows) for column in range(columns) if not pattern or pattern.has(row, column)]
    cut = corner[0], corner[1], corner[0] + width, corner[1] + height
    return [moved(cut, (column * (width + across), row * (height + up))) for row, column in places]


class Pattern:
    """Which cuts of an array there are: rows of bits from the bottom up, each for so many rows of the array."""

    def __init__(self, word):
        if not re.fullmatch(rf'{ROWS.pattern}(?:_{ROWS.pattern})*', word):
            raise NotRead(f'{word} is no pattern')
        self.groups = [(int(count, 16), bits_of(digits)) for count, digits, *_ in ROWS.findall(word)]
        if not all(1 <= count <= MOST_CUTS for count, _ in self.groups):
            raise NotRead(f'{word} is for no row, or for too many')

    def has(self, row, column):
        """Whether there is a cut in this row and this column."""
        for count, bits in self.groups:
            if row < count:
                return bits[column:column + 1] == '1'
            row -= count
        return False


def bits_of(digits):
    """Returns the bits of a row, from the left."""
    return ''.join(f'{int(digit or alone, 16):04b}' * int(times or '1', 16) for times, digit, alone in DIGITS.findall(digits))
