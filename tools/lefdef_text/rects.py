"""Rectangles, and where they lie in a turned or mirrored macro."""
from typing import NamedTuple

ORIENTATIONS = ('N', 'S', 'W', 'E', 'FN', 'FS', 'FW', 'FE')


class Rect(NamedTuple):
    """A rectangle by its left, lower, right and upper side."""
    x1: int
    y1: int
    x2: int
    y2: int


def ordered(xa, ya, xb, yb):
    """Returns the rectangle of two corners."""
    return Rect(xa if xa < xb else xb, ya if ya < yb else yb, xb if xa < xb else xa, yb if ya < yb else ya)


def moved(rect, x, y):
    return Rect(rect[0] + x, rect[1] + y, rect[2] + x, rect[3] + y)


def grown(rect, by):
    return Rect(rect[0] - by, rect[1] - by, rect[2] + by, rect[3] + by)


def meets(a, b):
    """Returns whether two rectangles share a point."""
    return a[0] <= b[2] and b[0] <= a[2] and a[1] <= b[3] and b[1] <= a[3]


def least_box(rects):
    """Returns the least rectangle around some, or None around none."""
    rects = list(rects)
    if not rects:
        return None
    return Rect(min(r[0] for r in rects), min(r[1] for r in rects), max(r[2] for r in rects), max(r[3] for r in rects))


TURNS = {
    'N': lambda x, y, w, h: (x, y),
    'S': lambda x, y, w, h: (w - x, h - y),
    'W': lambda x, y, w, h: (h - y, x),
    'E': lambda x, y, w, h: (y, w - x),
    'FN': lambda x, y, w, h: (w - x, y),
    'FS': lambda x, y, w, h: (x, h - y),
    'FW': lambda x, y, w, h: (y, x),
    'FE': lambda x, y, w, h: (h - y, w - x),
}


def turned(rect, width, height, orientation):
    """Returns where a rectangle of a macro of this size lies in the oriented box, whose lower left corner is at 0 0."""
    turn = TURNS[orientation]
    return ordered(*turn(rect[0], rect[1], width, height), *turn(rect[2], rect[3], width, height))
