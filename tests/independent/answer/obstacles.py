"""The metal of a design by where it lies, so that what is near a rectangle is found at once."""
import math

from . import geometry


class Obstacles:
    """All shapes of a design, in square bins for each layer."""

    def __init__(self, layers, shapes):
        self.layers = layers
        self.bins = {}
        self.side = self.best_side(shapes)
        for shape in shapes:
            self.add(shape.layer, shape.rect, shape.owner)

    @staticmethod
    def best_side(shapes):
        """Returns a side of the bins for which few shapes lie in many bins, and there are not many more bins than shapes."""
        if not shapes:
            return 1000
        rects = [shape.rect for shape in shapes]
        sides = sorted(max(rect[2] - rect[0], rect[3] - rect[1]) for rect in rects)
        left, lower, right, upper = geometry.box_around(rects)
        even = math.isqrt((right - left) * (upper - lower) // len(rects))
        return max(sides[len(sides) * 3 // 4], sides[-1] // 64, even)

    def places(self, layer, rect):
        """Yields the bins that a rectangle of a layer meets."""
        for column in range(rect[0] // self.side, rect[2] // self.side + 1):
            for row in range(rect[1] // self.side, rect[3] // self.side + 1):
                yield layer, column, row

    def add(self, layer, rect, owner):
        """Adds a shape."""
        for place in self.places(layer, rect):
            self.bins.setdefault(place, []).append((rect, owner))

    def blocks(self, layer, rect, owner):
        """Whether a rectangle of this owner would be short with a shape of another one, or too near to it."""
        spacing = self.layers[layer].spacing
        wide = rect[0] - spacing, rect[1] - spacing, rect[2] + spacing, rect[3] + spacing
        for place in self.places(layer, wide):
            for other, whose in self.bins.get(place, ()):
                if whose != owner and is_too_near(rect, other, spacing):
                    return True
        return False


def is_too_near(a, b, spacing):
    """Whether two rectangles share a point or are nearer than the spacing."""
    return geometry.common(a, b) is not None or geometry.squared_distance(a, b) < spacing ** 2
