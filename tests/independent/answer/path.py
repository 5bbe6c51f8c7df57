"""The rectangles of a path of a geometry, in the wide profile."""
from . import geometry
from .words import NotRead, millionths

# How many millionths of a micron a length of a LEF has at the most.
MOST_MILLIONTHS = 2 * 10 ** 15


def width_in(words):
    """Returns the width that these words behind WIDTH give the paths behind it, or 0, which is no path's width, if they give none."""
    try:
        width = millionths(words[0]) if words else 0
    except NotRead:
        return 0
    return width if 0 < width <= MOST_MILLIONTHS else 0


def lines_of(points):
    """Returns the lines from each of some points to the next, or from a point to itself if there is no other."""
    return list(zip(points, points[1:] or points))


def rectangles_of(points, width):
    """Returns the rectangle of each line of a path through some points, of a width or of None if there is none."""
    if not width or width % 2:
        raise NotRead('a path has no width, or an odd one')
    if not points or any(a[0] != b[0] and a[1] != b[1] for a, b in lines_of(points)):
        raise NotRead('a path has no point, or a slanted line')
    rects = [around_line(a, b, width // 2) for a, b in lines_of(points)]
    if any(abs(side) > MOST_MILLIONTHS for rect in rects for side in rect):
        raise NotRead('a path goes too far')
    return rects


def around_line(a, b, half):
    """Returns the rectangle that reaches so far beyond the line between two points on all sides."""
    left, lower, right, upper = geometry.between(a, b)
    return left - half, lower - half, right + half, upper + half
