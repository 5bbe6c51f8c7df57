"""Figures of special nets: rectangles and vias that are no paths."""
from .model import Segment
from .words import NotRead


def rect_segments(layer, rect):
    """Returns the segments whose metal together is a rectangle."""
    left, lower, right, upper = rect
    if (upper - lower) % 2 == 0:
        return [along_x(layer, rect)]
    if (right - left) % 2 == 0:
        return [along_y(layer, rect)]
    if upper - lower >= 3:
        return [along_x(layer, (left, lower, right, upper - 1)), along_x(layer, (left, lower + 1, right, upper))]
    if right - left >= 3:
        return [along_y(layer, (left, lower, right - 1, upper)), along_y(layer, (left + 1, lower, right, upper))]
    raise NotRead('a square of one unit is no wire')


def along_x(layer, rect):
    """Returns the segment along x that is this rectangle, whose height is even."""
    left, lower, right, upper = rect
    middle = (lower + upper) // 2
    return Segment(layer, upper - lower, (left, middle), (right, middle), 0, 0)


def along_y(layer, rect):
    """Returns the segment along y that is this rectangle, whose width is even."""
    left, lower, right, upper = rect
    middle = (left + right) // 2
    return Segment(layer, right - left, (middle, lower), (middle, upper), 0, 0)
