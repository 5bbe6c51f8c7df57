"""Which pieces of a net are joined to one another, and where the joints are that the net still needs.

The pieces that are joined to one another make a group. A net of k groups with metal needs k - 1 joints; they are those of a least spanning
tree of the groups, each over the gap between the nearest rectangles of two groups. Metal is looked for in a tree of boxes, so that a net of
100,000 rectangles takes seconds.
"""
import math
from collections import Counter
from typing import NamedTuple

from lefdef_text import Rect, meets

MOST_IN_LEAF = 8


class Metal(NamedTuple):
    """A rectangle of a piece, with the number of its layer from the bottom, and that of the piece in its net."""
    x1: int
    y1: int
    x2: int
    y2: int
    layer: int
    piece: int

    def rect(self):
        return Rect(*self[:4])


class Joint(NamedTuple):
    """The gap between two groups: its length squared, how many layers up or down it goes, and the metal on its sides."""
    squared: int
    steps: int
    near: Metal
    far: Metal

    def turned(self):
        return self._replace(near=self.far, far=self.near)


def between(a, b):
    """Returns where two rectangles meet: what they share, or the rectangle between their nearest points, which may be flat."""
    x1, x2 = sorted((max(a[0], b[0]), min(a[2], b[2])))
    y1, y2 = sorted((max(a[1], b[1]), min(a[3], b[3])))
    return Rect(x1, y1, x2, y2)


def squared_distance(a, b):
    dx = b[0] - a[2] if b[0] > a[2] else a[0] - b[2] if a[0] > b[2] else 0
    dy = b[1] - a[3] if b[1] > a[3] else a[1] - b[3] if a[1] > b[3] else 0
    return dx * dx + dy * dy


class Groups:
    """Things that are joined, by their numbers; the number of a group is the least one in it."""

    def __init__(self, count):
        self.above = list(range(count))

    def of(self, at):
        above = self.above
        while above[at] != at:
            above[at] = at = above[above[at]]
        return at

    def join(self, a, b):
        """Joins the groups of two things, and returns whether they were two."""
        low, high = sorted((self.of(a), self.of(b)))
        self.above[high] = low
        return low != high


class Boxes:
    """Metal in a tree of boxes, halved across their longer side. `group` is that of all metal in a box, or None where there are several."""
    __slots__ = ('box', 'layers', 'metal', 'halves', 'group')

    def __init__(self, metal):
        columns = list(zip(*metal))
        self.box = Rect(min(columns[0]), min(columns[1]), max(columns[2]), max(columns[3]))
        self.layers = frozenset(columns[4])
        self.metal, self.halves, self.group = metal, (), None
        if len(metal) > MOST_IN_LEAF:
            low = 0 if self.box.x2 - self.box.x1 >= self.box.y2 - self.box.y1 else 1
            metal = sorted(metal, key=lambda it: it[low] + it[low + 2])
            half = len(metal) // 2
            self.halves = Boxes(metal[:half]), Boxes(metal[half:])
            self.metal = ()

    def meeting(self, one):
        """Yields the metal on the layer of one rectangle that shares a point with it."""
        left = [self]
        while left:
            node = left.pop()
            if one.layer in node.layers and meets(node.box, one):
                left += node.halves
                for other in node.metal:
                    if other.layer == one.layer and meets(other, one):
                        yield other

    def mark_groups(self, groups):
        """Notes the group of each box, after groups have been joined."""
        for half in self.halves:
            half.mark_groups(groups)
        of = {half.group for half in self.halves} or {groups.of(it.piece) for it in self.metal}
        self.group = of.pop() if len(of) == 1 else None

    def nearest(self, one, groups, group, best):
        """Returns the joint from a rectangle of this group to the nearest one of another, where it is less than the best one so far."""
        found, (squared, steps) = None, best[:2] if best else (math.inf, 0)
        left = [(0, self)]
        while left:
            far, node = left.pop()
            if far > squared or node.group == group or far == squared and (steps == 0 or steps == 1 and one.layer not in node.layers):
                continue
            if node.halves:
                near, other = node.halves
                far, farther = squared_distance(near.box, one), squared_distance(other.box, one)
                if farther < far:
                    near, other, far, farther = other, near, farther, far
                if farther <= squared:
                    left.append((farther, other))
                if far <= squared:
                    left.append((far, near))
            for other in node.metal:
                far = squared_distance(one, other)
                if far <= squared and groups.of(other.piece) != group:
                    up = abs(one.layer - other.layer)
                    if far < squared or up < steps:
                        squared, steps, found = far, up, other
        return Joint(squared, steps, one, found) if found else best


class NetGroups:
    """The pieces of a net in groups, with their metal, and the joints that are missing between these."""

    def __init__(self, pieces):
        """Takes for each piece its rectangles as (number of the layer, rectangle)."""
        self.count = len(pieces)
        self.metal = [Metal(*rect, layer, piece) for piece, shapes in enumerate(pieces) for layer, rect in shapes]
        self.boxes = Boxes(self.metal) if self.metal else None
        self.groups = Groups(self.count)
        self.join_pieces()
        self.group = [self.groups.of(piece) for piece in range(self.count)]
        self.sizes = Counter(self.group)
        self.of_metal = {self.group[it.piece] for it in self.metal}

    def join_pieces(self):
        """Joins pieces that share two points on one layer."""
        points = {}
        for a in self.metal:
            for b in self.boxes.meeting(a):
                if a.piece < b.piece and self.groups.of(a.piece) != self.groups.of(b.piece):
                    box = between(a, b)
                    shared = points.setdefault((a.piece, b.piece, a.layer), set())
                    shared.update((box[:2], box[2:]))
                    if len(shared) > 1:
                        self.groups.join(a.piece, b.piece)

    def size(self, piece):
        """Returns how many pieces are joined to one, with itself."""
        return self.sizes[self.group[piece]]

    def has_metal(self, group):
        return group in self.of_metal

    def joints(self):
        """Returns the joints that are missing, each by the group from which it leads towards the first piece that has metal."""
        metal, least = [[] for _ in range(self.count)], [0] * len(self.metal)
        for at, it in enumerate(self.metal):
            metal[self.group[it.piece]].append(at)
        groups, found = Groups(self.count), []
        for piece, group in enumerate(self.group):
            groups.join(piece, group)
        while (joints := self.nearest_of_all(groups, metal, least)):
            for joint in sorted(joints):
                if groups.join(joint.near.piece, joint.far.piece):
                    found.append(joint)
            for group in range(self.count):
                if metal[group] and groups.of(group) != group:
                    metal[groups.of(group)] += metal[group]
                    metal[group] = []
        return self.towards_first(found)

    def nearest_of_all(self, groups, metal, least):
        """Returns the least joint of each group but the largest one, or none where there is one group. The metal of a group is given by its
        numbers. What is known of a rectangle is that no other group is nearer than `least`, which holds on when groups are joined."""
        present = [group for group in range(self.count) if metal[group]]
        if len(present) < 2:
            return []
        largest = max(present, key=lambda group: len(metal[group]))
        self.boxes.mark_groups(groups)
        joints = []
        for group in present:
            if group != largest:
                best = None
                for at in metal[group]:
                    if best is None or least[at] <= best.squared:
                        best = self.boxes.nearest(self.metal[at], groups, group, best)
                        least[at] = best.squared
                joints.append(best)
        return joints

    def towards_first(self, joints):
        """Returns joints by the group at their far end from the first one, in their order from there."""
        ends = {}
        for joint in joints:
            ends.setdefault(self.group[joint.near.piece], []).append(joint.turned())
            ends.setdefault(self.group[joint.far.piece], []).append(joint)
        first = self.group[self.metal[0].piece] if self.metal else 0
        found, left = {}, [first]
        while left:
            for joint in ends.get(left.pop(), ()):
                group = self.group[joint.near.piece]
                if group != first and group not in found:
                    found[group] = joint
                    left.append(group)
        return found
