"""The slabs of a rectilinear polygon (docs/FORMATS.md, "Sites and macros")."""
from bisect import insort
from itertools import islice

from .rects import Rect

MOST_SLABS = 1_000_000


def is_between(low, middle, high):
    return low < middle < high or high < middle < low


def is_passed_over(before, point, after):
    """Returns whether a point lies in the middle of a side from one point to another."""
    (xa, ya), (x, y), (xb, yb) = before, point, after
    return xa == x == xb and is_between(ya, y, yb) or ya == y == yb and is_between(xa, x, xb)


def neighbours(points):
    """Yields each point of a closed walk with the one before it and the one after it."""
    return zip(points[-1:] + points[:-1], points, points[1:] + points[:1])


def corners_of(points):
    """Returns the points of a closed walk that are not repeated, and not in the middle of a side."""
    moved = [point for before, point, _ in neighbours(points) if point != before]
    return [point for before, point, after in neighbours(moved) if not is_passed_over(before, point, after)]


def has_slanted_side(points):
    """Returns whether a side of the closed walk through points is neither horizontal nor vertical."""
    return any(x != xb and y != yb for _, (x, y), (xb, yb) in neighbours(corners_of(points)))


def why_not_read(points):
    """Returns what a polygon through points is that is not read, or None."""
    if has_slanted_side(points):
        return 'a polygon with a slanted side'
    count = len(slabs_of(points))
    return f'a polygon with more than {MOST_SLABS:,} slabs' if count > MOST_SLABS else None if count else 'a polygon without area'


def slabs_of(points):
    """Returns the rectangles of the unit squares inside a walk, of which no side is slanted: those west of which an odd number of vertical
    sides are. They are from below, and from the left in each band between two heights of corners. Of more than MOST_SLABS one more is returned."""
    return list(islice(all_slabs(points), MOST_SLABS + 1))


def all_slabs(points):
    """Yields the rectangles."""
    corners = corners_of(points)
    upright = sorted(((min(y, yb), x, max(y, yb)) for _, (x, y), (xb, yb) in neighbours(corners) if x == xb), reverse=True)
    heights, crossing = sorted({y for _, y in corners}), []
    for low, high in zip(heights, heights[1:]):
        crossing = [(x, upper) for x, upper in crossing if upper > low]
        while upright and upright[-1][0] == low:
            insort(crossing, upright.pop()[1:])
        yield from runs([x for x, _ in crossing], low, high)


def runs(xs, low, high):
    """Yields the rectangles of a band: xs is where vertical sides cross it, rising."""
    begin = None
    for number, x in enumerate(xs):
        if number + 1 < len(xs) and xs[number + 1] == x:
            continue  # (the last one of several at one place tells what is behind them)
        is_inside = number % 2 == 0
        if is_inside and begin is None:
            begin = x
        elif not is_inside and begin is not None:
            yield Rect(begin, low, x, high)
            begin = None
