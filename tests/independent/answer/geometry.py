"""Rectangles: points, unit squares, distances and orientations."""

ORIENTATIONS = ('N', 'S', 'W', 'E', 'FN', 'FS', 'FW', 'FE')
# The place of the point (x, y) of a box that is w wide and h high in the oriented box.
PLACES = {
    'N': lambda x, y, w, h: (x, y), 'S': lambda x, y, w, h: (w - x, h - y),
    'W': lambda x, y, w, h: (h - y, x), 'E': lambda x, y, w, h: (y, w - x),
    'FN': lambda x, y, w, h: (w - x, y), 'FS': lambda x, y, w, h: (x, h - y),
    'FW': lambda x, y, w, h: (y, x), 'FE': lambda x, y, w, h: (h - y, w - x),
}
# The orientation that is mirrored on the y axis.
MIRRORED = {'N': 'FN', 'FN': 'N', 'S': 'FS', 'FS': 'S', 'W': 'FW', 'FW': 'W', 'E': 'FE', 'FE': 'E'}


def between(a, b):
    """Returns the rectangle with these two opposite corners."""
    return min(a[0], b[0]), min(a[1], b[1]), max(a[0], b[0]), max(a[1], b[1])


def moved(rect, by):
    """Returns a rectangle moved by a vector."""
    return rect[0] + by[0], rect[1] + by[1], rect[2] + by[0], rect[3] + by[1]


def around(point, distance):
    """Returns the square of the points at most so far from a point along x and along y."""
    return point[0] - distance, point[1] - distance, point[0] + distance, point[1] + distance


def oriented(rect, width, height, orientation):
    """Returns the place of a rectangle of a box in the oriented box."""
    place = PLACES[orientation]
    return between(place(rect[0], rect[1], width, height), place(rect[2], rect[3], width, height))


def oriented_size(width, height, orientation):
    """Returns the width and the height of an oriented box."""
    return (height, width) if orientation in ('W', 'E', 'FW', 'FE') else (width, height)


def overlap(a, b):
    """Whether two rectangles share a unit square."""
    return a[0] < b[2] and b[0] < a[2] and a[1] < b[3] and b[1] < a[3]


def holds(outer, inner):
    """Whether all unit squares of the inner rectangle are some of the outer one."""
    return outer[0] <= inner[0] and outer[1] <= inner[1] and inner[2] <= outer[2] and inner[3] <= outer[3]


def has_point(rect, point):
    """Whether a point is one of a rectangle, an edge or a corner included."""
    return rect[0] <= point[0] <= rect[2] and rect[1] <= point[1] <= rect[3]


def common(a, b):
    """Returns the least and the greatest point that two rectangles share, or None."""
    low = max(a[0], b[0]), max(a[1], b[1])
    high = min(a[2], b[2]), min(a[3], b[3])
    return (low, high) if low[0] <= high[0] and low[1] <= high[1] else None


def squared_distance(a, b):
    """Returns the squared distance of the nearest points of two rectangles."""
    across = max(a[0] - b[2], b[0] - a[2], 0)
    up = max(a[1] - b[3], b[1] - a[3], 0)
    return across * across + up * up


def box_around(rects):
    """Returns the least rectangle that contains all of these, or None if there are none."""
    if not rects:
        return None
    left, lower, right, upper = zip(*rects)
    return min(left), min(lower), max(right), max(upper)


def near_pairs(rects, distance):
    """Yields each pair of numbers of rectangles that are at most this distance apart along x and along y, the lower first."""
    active = []
    for number in sorted(range(len(rects)), key=lambda it: rects[it][0]):
        left, lower, _, upper = rects[number]
        active = [it for it in active if rects[it][2] + distance >= left]
        for other in active:
            if rects[other][1] - distance <= upper and lower - distance <= rects[other][3]:
                yield min(number, other), max(number, other)
        active.append(number)
