"""Points of rectilinear polygons, which go around a rectangle or a part of it."""


def along(dice, low, high):
    """Returns two numbers that rise from one number to another at least three above it, and are neither."""
    first = dice.between(low + 1, high - 2)
    return first, dice.between(first + 1, high - 1)


def corners(rect):
    """Returns the corners of a rectangle in their order."""
    left, lower, right, upper = rect
    return [(left, lower), (right, lower), (right, upper), (left, upper)]


def square(dice, rect):
    """Returns a whole rectangle."""
    return corners(rect), []


def ell(dice, rect):
    """Returns a rectangle without its upper right corner."""
    left, lower, right, upper = rect
    x, y = along(dice, left, right)[0], along(dice, lower, upper)[0]
    return [(left, lower), (right, lower), (right, y), (x, y), (x, upper), (left, upper)], [(x, y, right, upper)]


def horseshoe(dice, rect):
    """Returns a rectangle without a part of it in the middle of its upper side."""
    left, lower, right, upper = rect
    (a, b), y = along(dice, left, right), along(dice, lower, upper)[0]
    return [(left, lower), (right, lower), (right, upper), (b, upper), (b, y), (a, y), (a, upper), (left, upper)], [(a, y, b, upper)]


def ring(dice, rect):
    """Returns a rectangle without a part of it inside, to which the walk goes from a corner and from which it comes back the same way."""
    left, lower, right, upper = rect
    (a, b), (c, d) = along(dice, left, right), along(dice, lower, upper)
    hole = [(a, c), (a, d), (b, d), (b, c)]
    if dice.chance(0.5):
        hole.reverse()
        hole = hole[-1:] + hole[:-1]
    return [*corners(rect), (left, lower), (a, lower), *hole, (a, c), (a, lower)], [(a, c, b, d)]


def touching(dice, rect):
    """Returns two parts of a rectangle that share a point, at which the walk crosses itself."""
    left, lower, right, upper = rect
    x, y = along(dice, left, right)[0], along(dice, lower, upper)[0]
    return [(left, lower), (x, lower), (x, upper), (right, upper), (right, y), (left, y)], [(x, lower, right, y), (left, y, x, upper)]


def polygon_and_rest(dice, rect):
    """Returns the points of a polygon in a rectangle, and the rectangles that are the rest of it."""
    left, lower, right, upper = rect
    shapes = (square, ell, horseshoe, ring, touching) if right - left > 3 and upper - lower > 3 else (square,)
    points, rest = dice.one_of(shapes)(dice, rect)
    return written(dice, points), rest


def written(dice, points):
    """Returns the points of a walk in another order, and in some cases with some that are passed over."""
    start = dice.below(len(points))
    points = points[start:] + points[:start]
    if dice.chance(0.5):
        points = points[::-1]
    found = []
    for point, after in zip(points, points[1:] + points[:1]):
        found += [point] * (2 if dice.chance(0.1) else 1)
        if dice.chance(0.1):
            found.append(((point[0] + after[0]) // 2, (point[1] + after[1]) // 2))
    return found + found[:1] if dice.chance(0.2) else found


def wild_walk(dice, size):
    """Returns the points of a rectilinear walk that may go anywhere in a square of this size, and across itself."""
    count = dice.between(2, 6)
    xs, ys = [[dice.below(size + 1) for _ in range(count)] for _ in range(2)]
    walk = [(x, y) for x, after, y in zip(xs, xs[1:] + xs[:1], ys) for x in (x, after)]
    return written(dice, walk)
