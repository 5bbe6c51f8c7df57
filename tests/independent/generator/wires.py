"""Wires anywhere, and wires of the router of which some are taken away."""
from answer import geometry
from answer.model import Patch, PlacedVia, Segment, Via
from answer.router import NotRouted, routed
from .cells import any_square


def own_vias(dice, plan, library):
    """Returns the vias of the DEF."""
    levels = library.routing_layers()
    found = []
    for number in range(dice.below(3) if plan.wires and library.layers else 0):
        lower = dice.below(max(1, len(levels) - 1))
        pair = levels[lower:lower + 2]
        cuts = [it for it in range(pair[0] + 1, pair[-1]) if library.layers[it].kind == 'CUT'] if pair else []
        if len(pair) < 2 or len(cuts) != 1:
            continue
        half = max(1, plan.pitch // dice.between(4, 9))
        good = dice.chance(0.8)
        shapes = [(layer, geometry.around((0, 0), half)) for layer in (pair[0], cuts[0], pair[1])]
        shapes = shapes if good else shapes[:2]
        found.append(Via(f'own{number}', tuple(shapes), False, (pair[0], pair[1]) if good else None))
    return found


class WireMaker:
    """Makes wires of all forms, near some points, so that they touch in many ways."""

    def __init__(self, dice, plan, library, vias, points):
        self.dice = dice
        self.plan = plan
        self.library = library
        self.vias = [via for via in library.vias + vias if via.joins]
        self.points = points
        self.levels = library.routing_layers()

    def wires(self, special, count):
        """Returns so many wires, of which many begin where another one ends."""
        found, at = [], None
        for _ in range(count if self.levels else 0):
            if at is None or self.dice.chance(0.3):
                at = self.dice.one_of(self.levels), self.dice.one_of(self.points)
            wire, at = self.wire(special, *at)
            found.append(wire)
        return tuple(found)

    def wire(self, special, layer, point):
        """Returns a wire at a layer and a point, and where one can go on."""
        if self.plan.corners:
            return Patch(layer, point, any_square(self.dice, self.plan)), (layer, point)
        kind = self.dice.below(10)
        vias = [via for via in self.vias if layer in via.joins]
        if kind < 2 and vias:
            via = self.dice.one_of(vias)
            return PlacedVia(via, point), (via.joins[0] + via.joins[1] - layer, point)
        if kind < 4 and not special:
            half = max(1, self.library.layers[layer].width // 2)
            rect = geometry.around((0, 0), half)
            corner = self.dice.between(-half, half), self.dice.between(-half, half)
            rect = rect if self.dice.chance(0.5) else (*corner, corner[0] + self.dice.between(1, half), corner[1] + half)
            return Patch(layer, point, rect), (layer, point)
        return self.segment(special, layer, point)

    def segment(self, special, layer, point):
        """Returns a segment, with an extension at some ends."""
        dice, step = self.dice, max(1, self.plan.pitch // 2)
        length = dice.one_of((1, 2, 3, 4, 6)) * step * dice.one_of((1, -1)) + (dice.between(-2, 2) if dice.chance(0.2) else 0)
        length = length or step
        end = (point[0] + length, point[1]) if dice.chance(0.5) else (point[0], point[1] + length)
        width = self.library.layers[layer].width
        if special:
            width = dice.one_of((width, 2 * width, 2 * dice.between(1, self.plan.pitch)))
        default = 0 if special else width // 2
        first, last = (default if dice.chance(0.8) else dice.one_of((0, 1, width, dice.below(30))) for _ in range(2))
        return Segment(layer, width, point, end, first, last), (layer, end)


def thinned(dice, design):
    """Returns the design with some of the wires that the router gives it, or as it is where it is not routed."""
    try:
        whole = routed(design)
    except NotRouted:
        return design
    part = dice.one_of((0.5, 0.8, 0.9))
    nets = [net._replace(wires=tuple(dice.kept([piece for wire in net.wires for piece in cut(dice, wire)], part))) for net in whole.nets]
    return design._replace(nets=nets)


def cut(dice, wire):
    """Returns a wire as it is, or a segment as two that meet at a point of it."""
    if not isinstance(wire, Segment) or dice.chance(0.7):
        return [wire]
    part = dice.between(1, 7)
    middle = tuple(a + (b - a) * part // 8 for a, b in zip(wire.start, wire.end))
    if middle in (wire.start, wire.end):
        return [wire]
    half = wire.width // 2
    pieces = [wire._replace(end=middle, end_extension=half), wire._replace(start=middle, start_extension=half)]
    return [piece if dice.chance(0.8) else turned(piece) for piece in pieces]


def turned(wire):
    """Returns a segment with its ends exchanged."""
    return wire._replace(start=wire.end, end=wire.start, start_extension=wire.end_extension, end_extension=wire.start_extension)
