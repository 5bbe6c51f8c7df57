"""Writes the wires of a net with forms of the wide profile: figures, steps without metal, arrays of one via, turned vias, rules and masks."""
from answer.geometry import ORIENTATIONS, oriented
from answer.model import PlacedVia, Segment
from answer.polygon import slabs_of
from .path_writer import PathWriter, written
from .polygons import polygon_and_rest
from .wide_forms import has


class WidePathWriter(PathWriter):
    """Writes wires in the wide profile."""

    def __init__(self, writer, special, rule):
        super().__init__(writer.dice, writer.layers, special, writer.number, writer.joins)
        self.writer = writer
        self.profile = writer.plan.profile
        self.rules, self.rule = writer.rules, rule

    def tapering(self):
        """Returns what stands behind the layer of a path of NETS, so that its wires have the widths of their layers."""
        kept = self.rules.name(True)
        if kept and has(self.dice, 'nondefault rule', 0.2):
            return ['TAPERRULE', kept]
        return ['TAPER'] if self.rule and not self.rules.keeps(self.rule) else super().tapering()

    def via(self, via):
        """Returns the words of a via, with an orientation in some cases in which it is the same."""
        same = [it for it in ORIENTATIONS if tuple((layer, oriented(rect, 0, 0, it)) for layer, rect in via.shapes) == tuple(via.shapes)]
        return [via.name, self.dice.one_of(same)] if self.turns(0.1) else super().via(via)

    def turns(self, part):
        """Whether a via is to have an orientation, in so many cases of 1: not where a net may be named END, up to which turned vias are found."""
        return not self.writer.plan.odd_names and has(self.dice, 'turned via', part)

    def mask(self):
        """Returns the words of a mask in some cases, where masks have no effect."""
        if not self.profile.drops_masks or not has(self.dice, 'mask in wiring', 0.2):
            return []
        return ['MASK', str(self.dice.between(0, 3))]

    def masked(self, words):
        is_via = len(words) < 3 and not words[0].startswith('(')
        if self.special and is_via and has(self.dice, 'array of vias', 0.1):
            words = [*words, 'DO 1 BY 1 STEP', self.number(self.dice.between(-9, 9)), self.number(self.dice.between(-9, 9))]
        return [*self.mask(), *words]

    def clauses(self, chains):
        """Returns the words of chains of wires: a chain of one wire may be a figure, and one on the layer where the path is a step to it."""
        words, last = [], None
        for chain in chains:
            figure = self.figure(chain) if self.special and has(self.dice, 'figure', 0.3) else None
            if figure:
                words.append(figure)
                last = None
            elif not self.special and last and last.layer == chain.first_layer and has(self.dice, 'virtual step', 0.4):
                words.append(self.virtual(chain))
                last = chain
            else:
                words.append((f'+ {self.beginning()} ' if not last else 'NEW ') + self.path(chain))
                last = chain
        return words

    def virtual(self, chain):
        """Returns a step to the first point of a chain, and its items."""
        point, pairs = chain.stops[0]
        extension = written(pairs)
        words = ['VIRTUAL', self.point(point, None, None)]
        words += [self.point(point, point, extension)] if extension is not None or self.dice.chance(0.1) else []
        return ' '.join([*words, *self.items(chain)])

    def figure(self, chain):
        """Returns the figure of a chain of one wire, or None where it is none."""
        wire = chain.wires[0]
        if len(chain.wires) != 1 or isinstance(wire, Segment) and (wire.start_extension or wire.end_extension):
            return None
        if isinstance(wire, PlacedVia):
            words = ['+ VIA', *self.via(wire.via), self.point(wire.point, None, None)]
        else:
            words = [self.rect_or_polygon(wire)]
        return ' '.join([*self.before(), *words])

    def rect_or_polygon(self, wire):
        """Returns the figure of a segment: a rectangle, or in some cases a polygon and rectangles that are together the same."""
        layer, rect = self.layers[wire.layer].name, self.rect_of(wire)
        points, rest = polygon_and_rest(self.dice, rect)
        if not has(self.dice, 'polygon of a DEF', 0.3) or any(right - left == 1 == upper - lower for left, lower, right, upper in slabs_of(points) + rest):
            return ' '.join(['+ RECT', layer, *self.corners(rect)])
        return ' '.join(['+ POLYGON', layer, self.writer.polygon(points), *(' '.join(['+ RECT', layer, *self.corners(it)]) for it in rest)])

    def before(self):
        """Returns clauses before a figure."""
        status = [f'+ {self.beginning()}'] if self.dice.chance(0.4) else []
        shape = ['+ SHAPE STRIPE'] if self.dice.chance(0.3) else []
        mask = self.mask()
        return [*status, *shape, *(['+', *mask] if mask else [])]

    @staticmethod
    def rect_of(wire):
        """Returns the rectangle of a segment without extensions."""
        (left, lower), (right, upper) = sorted((wire.start, wire.end))
        half = wire.width // 2
        return (left, lower - half, right, upper + half) if lower == upper else (left - half, lower, right + half, upper)

    def corners(self, rect):
        """Returns two corners of a rectangle."""
        left, lower, right, upper = rect
        pair = [(left, upper), (right, lower)] if self.dice.chance(0.3) else [(left, lower), (right, upper)]
        return [self.point(corner, None, None) for corner in pair]
