"""Where the names and the numbers of a picture stand on the page, so that none is printed over another one."""
from typing import NamedTuple

from lefdef_text import Rect, meets
from violation_marks import xml_text

LEFT, TOP = 64, 40
HALO = 'stroke="#ffffff" stroke-width="2.5" stroke-linejoin="round" paint-order="stroke"'
# How wide a letter is, of the size of its font, and where a name may stand on what is seen of its rectangle, the best place first.
LETTER = 0.62
PLACES = (0.5, 0.25, 0.75, 0.125, 0.875)
SQUARE = 64
NUMBER_HEIGHT = 17
# From so many pixels on a gap is long: its number stands on it.
LONG = 80
# The squares of the page that have one number together where there are many.
COLUMN, LINE = 110, 52


class View(NamedTuple):
    """What is drawn: a window of the block in database units, and how many pixels a unit takes."""
    window: Rect
    scale: float

    def x(self, x):
        return LEFT + (x - self.window.x1) * self.scale

    def y(self, y):
        return TOP + (self.window.y2 - y) * self.scale

    def width(self):
        return (self.window.x2 - self.window.x1) * self.scale

    def height(self):
        return (self.window.y2 - self.window.y1) * self.scale

    def pixels(self, pixels):
        """Returns how many database units so many pixels are, as it is written."""
        return f'{pixels / self.scale:.4g}'


def number(value):
    """Returns a number of pixels, or of database units with fractions, as it is written."""
    return f'{value:.3f}'.rstrip('0').rstrip('.')


class Room:
    """What is taken of the page."""

    def __init__(self):
        self.squares = {}

    def is_taken(self, box):
        """Returns whether a box overlaps one that is taken by more than a pixel."""
        inner = box[0] + 0.5, box[1] + 0.5, box[2] - 0.5, box[3] - 0.5
        return any(meets(inner, other) for square in self.squares_of(inner) for other in self.squares.get(square, ()))

    def take(self, box):
        box = box[0] + 0.5, box[1] + 0.5, box[2] - 0.5, box[3] - 0.5
        for square in self.squares_of(box):
            self.squares.setdefault(square, []).append(box)

    @staticmethod
    def squares_of(box):
        columns, lines = [range(int(box[at] // SQUARE), int(box[at + 2] // SQUARE) + 1) for at in (0, 1)]
        return [(column, line) for column in columns for line in lines]


class Names:
    """The names of what is drawn in a view."""

    def __init__(self, view):
        self.view, self.room = view, Room()

    def name(self, rect, text, size, colour, is_bold=False, least=7):
        """Returns a name on what is seen of a rectangle, upright where it fits so alone: in its middle, or where that is taken beside it;
        None where there is no room for it."""
        view = self.view
        left, right = view.x(max(rect.x1, view.window.x1)), view.x(min(rect.x2, view.window.x2))
        upper, lower = view.y(min(rect.y2, view.window.y2)), view.y(max(rect.y1, view.window.y1))
        width, height, letters = right - left, lower - upper, LETTER * len(text) + 0.3
        across, along = min(size, width / letters, height), min(size, height / letters, width)
        if max(across, along) < least:
            return None
        is_upright = across < min(size, 9) and along > across
        size = along if is_upright else across
        x_reach, y_reach = (size / 2, size * letters / 2) if is_upright else (size * letters / 2, size / 2)
        for place in PLACES:
            x = (left + right) / 2 if is_upright else min(max(left + place * width, left + x_reach), right - x_reach)
            y = min(max(upper + place * height, upper + y_reach), lower - y_reach) if is_upright else (upper + lower) / 2
            box = x - x_reach, y - y_reach, x + x_reach, y + y_reach
            if not self.room.is_taken(box):
                self.room.take(box)
                return self.text(x, y, text, size, colour, is_bold, is_upright)
        return None

    @staticmethod
    def text(x, y, text, size, colour, is_bold, is_upright):
        turn = f' transform="rotate(-90 {number(x)} {number(y)})"' if is_upright else ''
        weight = ' font-weight="bold"' if is_bold else ''
        return (f'<text x="{number(x)}" y="{number(y)}" dy="0.35em" text-anchor="middle" font-size="{number(size)}"{weight} fill="{colour}" {HALO}{turn}>'
                f'{xml_text(text)}</text>')


class MarkNumbers:
    """The numbers of marks beside them."""

    def __init__(self, view, colour):
        self.view, self.colour, self.room = view, colour, Room()

    def plate(self, x, y, text, title=''):
        """Yields a number on a plate."""
        half = 5 + 3.5 * len(text)
        inside = f'><title>{xml_text(title)}</title></rect>' if title else '/>'
        yield (f'<rect x="{number(x - half)}" y="{number(y - NUMBER_HEIGHT / 2)}" width="{number(2 * half)}" height="{NUMBER_HEIGHT}" '
               f'rx="{NUMBER_HEIGHT / 2}" fill="{self.colour}" stroke="#ffffff"{inside}')
        yield f'<text x="{number(x)}" y="{number(y)}" dy="0.36em" text-anchor="middle" fill="#ffffff">{text}</text>'

    def of_each(self, marks, has_gaps):
        """Yields the number of each mark, and maybe how wide its gap is."""
        view = self.view
        for mark in marks:
            text, (x, y) = str(mark.number), self.place(mark, not has_gaps)
            yield from self.plate(*self.free_spot(x, y, 5 + 3.5 * len(text)), text)
            if mark.gap and has_gaps:
                (xa, ya), (xb, yb) = mark.gap
                x, y = view.x((xa + xb) / 2), view.y((ya + yb) / 2)
                where = f'x="{number(x)}" y="{number(y - 6)}" text-anchor="middle"' if ya == yb else f'x="{number(x + 8)}" y="{number(y)}" dy="0.35em"'
                yield f'<text {where} fill="{self.colour}" {HALO}>{xml_text(mark.note.split(" ")[0])}</text>'

    def place(self, mark, is_on_gap):
        """Returns where the number of a mark is to stand: beside its box, or maybe on the middle of a long gap."""
        view, box = self.view, mark.box
        if is_on_gap and mark.gap and max(box.x2 - box.x1, box.y2 - box.y1) * view.scale >= LONG:
            (xa, ya), (xb, yb) = mark.gap
            return view.x((xa + xb) / 2), view.y((ya + yb) / 2)
        return view.x(box.x2) + 11, view.y(box.y2) - 11

    def free_spot(self, x, y, half):
        """Returns the nearest spot to the right of one, in the window, where a plate of this width is free, and takes it."""
        right = LEFT + self.view.width() - half - 6
        x, y = min(max(x, LEFT + half), right), min(max(y, TOP + 10), TOP + self.view.height() - 10)
        first = x
        while self.room.is_taken((x - half, y - NUMBER_HEIGHT / 2, x + half, y + NUMBER_HEIGHT / 2)):
            x, y = (x + NUMBER_HEIGHT, y) if x + NUMBER_HEIGHT <= right else (min(first, LEFT + half), y + NUMBER_HEIGHT + 1)
        self.room.take((x - half, y - NUMBER_HEIGHT / 2, x + half, y + NUMBER_HEIGHT / 2))
        return x, y

    def of_squares(self, marks):
        """Yields a number for each square of the page in which there are marks: that of the first one, and how many more there are."""
        view, squares = self.view, {}
        for mark in marks:
            x, y = view.x((mark.box.x1 + mark.box.x2) / 2), view.y((mark.box.y1 + mark.box.y2) / 2)
            x, y = min(max(x, LEFT), LEFT + view.width()), min(max(y, TOP), TOP + view.height())
            squares.setdefault((int(x - LEFT) // COLUMN, int(y - TOP) // LINE), []).append((mark.number, x, y))
        for found in squares.values():
            text = f'{found[0][0]} +{len(found) - 1}' if len(found) > 1 else str(found[0][0])
            title = ', '.join(str(first) for first, _, _ in found[:20]) + (' ..' if len(found) > 20 else '')
            yield from self.plate(*self.free_spot(found[0][1], found[0][2], 5 + 3.5 * len(text)), text, title)
