"""The slabs of a polygon of a geometry, in the wide profile."""
from .words import NotRead

# How many slabs a polygon has at the most.
MOST_SLABS = 1000000


def around(items):
    """Returns each item of a closed walk, between the one before it and the one behind it."""
    return [(items[number - 1], item, items[(number + 1) % len(items)]) for number, item in enumerate(items)]


def goes_straight_on(a, b, c):
    """Whether the point b lies in the middle of a horizontal or vertical side from a to c."""
    return any(a[this] == b[this] == c[this] and (a[other] < b[other] < c[other] or a[other] > b[other] > c[other]) for this, other in ((0, 1), (1, 0)))


def corners_of(points):
    """Returns the points that are not passed over."""
    once = [point for before, point, _ in around(points) if point != before]
    return [b for a, b, c in around(once) if not goes_straight_on(a, b, c)]


def slabs_of(points):
    """Returns the slabs of the closed walk through these points, from the bottom up and from west to east."""
    corners = corners_of(points)
    sides = [(corner, after) for _, corner, after in around(corners)]
    if any(a[0] != b[0] and a[1] != b[1] for a, b in sides):
        raise NotRead('a polygon has a slanted side')
    heights = sorted({y for _, y in corners})
    slabs = []
    for low, high in zip(heights, heights[1:]):
        borders = set()  # where an odd number of sides cross the band: there the inside begins or ends
        for (x, y), (_, to) in sides:
            if min(y, to) <= low and high <= max(y, to):
                borders ^= {x}
        borders = sorted(borders)
        slabs += [(left, low, right, high) for left, right in zip(borders[::2], borders[1::2])]
    if len(slabs) > MOST_SLABS:
        raise NotRead('a polygon has too many slabs')
    if not slabs:
        raise NotRead('a polygon has no unit square inside')
    return slabs
