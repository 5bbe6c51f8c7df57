"""The grid of tracks: its values, nodes and steps, and the metal that each adds."""
from bisect import bisect_left

from . import geometry
from .model import PlacedVia, Segment
from .metal import wire_shapes

# How many tracks and how many slots a design may have that is routed, and one that is finished.
LIMIT = 2 ** 22
FINISH_LIMIT = 2 ** 24
WEST, EAST, SOUTH, NORTH, BELOW, ABOVE = (0, -1, 0), (0, 1, 0), (0, 0, -1), (0, 0, 1), (-1, 0, 0), (1, 0, 0)
# In the order in which a walk is gone back.
DIRECTIONS = (WEST, EAST, SOUTH, NORTH, BELOW, ABOVE)


class GridTooLarge(Exception):
    """A design has too many tracks, or its grid too many slots."""


class Grid:
    """The grid of a design. A node is (level, column, row): the numbers of its routing layer, from 0, of its x and of its y value."""

    def __init__(self, design, limit=LIMIT):
        self.layers = design.library.layers
        self.levels = design.library.routing_layers()
        if sum(tracks.count for tracks in design.tracks) > limit or self.least_size(design) > limit:
            raise GridTooLarge
        self.lines = [self.lines_of(design, number) for number in self.levels]
        self.xs = sorted(set().union(*(lines for lines, vertical in zip(self.lines, self.vertical()) if vertical)))
        self.ys = sorted(set().union(*(lines for lines, vertical in zip(self.lines, self.vertical()) if not vertical)))
        if len(self.levels) * len(self.xs) * len(self.ys) > limit:
            raise GridTooLarge
        self.vias = [self.via_between(design.library.vias, *pair) for pair in zip(self.levels, self.levels[1:])]

    def least_size(self, design):
        """Returns a number of slots that the grid has at the least: those that one statement for each axis gives."""
        most = {'X': 0, 'Y': 0}
        for number in self.levels:
            for tracks in self.tracks_of(design, number):
                most[tracks.axis] = max(most[tracks.axis], tracks.count)
        return len(self.levels) * most['X'] * most['Y']

    def vertical(self):
        """Returns for each level whether its layer is vertical."""
        return [self.layers[number].direction == 'VERTICAL' for number in self.levels]

    def tracks_of(self, design, number):
        """Returns the statements whose tracks run along the direction of a routing layer and are for it."""
        axis = 'X' if self.layers[number].direction == 'VERTICAL' else 'Y'
        return [it for it in design.tracks if it.axis == axis and (not it.layers or number in it.layers)]

    def lines_of(self, design, number):
        """Returns the lines of the tracks of a routing layer across its own direction's axis."""
        lines = set()
        for tracks in self.tracks_of(design, number):
            lines.update(range(tracks.start, tracks.start + tracks.count * tracks.step, tracks.step))
        return lines

    @staticmethod
    def via_between(vias, lower, upper):
        """Returns the via that steps between two routing layers take, or None."""
        joining = [via for via in vias if via.joins == (lower, upper)]
        return next((via for via in joining if via.default), joining[0] if joining else None)

    def is_vertical(self, level):
        return self.layers[self.levels[level]].direction == 'VERTICAL'

    def point(self, node):
        """Returns the point of a node."""
        return self.xs[node[1]], self.ys[node[2]]

    def is_node(self, node):
        """Whether there is a node at this level, column and row."""
        level, column, row = node
        if not (0 <= level < len(self.levels) and 0 <= column < len(self.xs) and 0 <= row < len(self.ys)):
            return False
        return (self.xs[column] if self.is_vertical(level) else self.ys[row]) in self.lines[level]

    def neighbour(self, node, direction):
        """Returns the node one step from a node in this direction, or None."""
        other = node[0] + direction[0], node[1] + direction[1], node[2] + direction[2]
        if not self.is_node(other):
            return None
        if direction[0]:
            return other if self.vias[min(node[0], other[0])] else None
        along = direction[2] if self.is_vertical(node[0]) else direction[1]
        return other if along else None

    def node_shapes(self, node):
        """Returns the shapes that a node adds."""
        layer = self.levels[node[0]]
        return [(layer, geometry.around(self.point(node), self.layers[layer].width // 2))]

    def step_shapes(self, a, b):
        """Returns the shapes that the step between two nodes adds."""
        return wire_shapes(self.run(a, b) if a[0] == b[0] else self.via_at(a, b))

    def run(self, a, b):
        """Returns the segment between two nodes of one level."""
        layer = self.levels[a[0]]
        half = self.layers[layer].width // 2
        return Segment(layer, 2 * half, self.point(a), self.point(b), half, half)

    def via_at(self, a, b):
        """Returns the via between two nodes at one point."""
        return PlacedVia(self.vias[min(a[0], b[0])], self.point(a))

    def node_at(self, layer, point):
        """Returns the node of a routing layer at a point, or None."""
        column, row = bisect_left(self.xs, point[0]), bisect_left(self.ys, point[1])
        node = self.levels.index(layer), column, row
        return node if self.is_node(node) and self.point(node) == point else None

    def nodes_in(self, level, rect):
        """Yields the nodes of a level whose points are points of a rectangle."""
        columns = [column for column, x in enumerate(self.xs) if rect[0] <= x <= rect[2]]
        for row, y in enumerate(self.ys):
            if rect[1] <= y <= rect[3]:
                yield from (node for node in ((level, column, row) for column in columns) if self.is_node(node))
