"""Makes wiring of all forms of the wide profile by chance, whatever metal it meets."""
from answer.geometry import ORIENTATIONS
from answer.polygon import slabs_of
from answer.words import NotRead
from .polygons import wild_walk
from .wide_forms import has


class WildWiring:
    """Makes clauses of wiring for a net of a design, which a writer writes."""

    def __init__(self, writer, special):
        self.writer = writer
        self.dice = writer.dice
        self.special = special
        self.layers = writer.layers
        self.levels = writer.design.library.routing_layers()
        self.pitch = writer.plan.pitch
        self.paths = writer.path_writer(special)

    def clause(self):
        """Returns a clause: a figure, or paths."""
        if self.special and has(self.dice, 'figure', 0.4):
            return self.figure()
        return f'\n  + {self.paths.beginning()} ' + '\n  NEW '.join(self.path() for _ in range(self.dice.between(1, 2)))

    def place(self):
        """Returns a point of the die."""
        left, lower, right, upper = self.writer.design.die
        return self.dice.between(left, right), self.dice.between(lower, upper)

    def length(self):
        """Returns how far something is from something else along an axis."""
        return self.dice.one_of((1, -1)) * self.dice.one_of((0, 1, self.pitch // 2, self.pitch, 3 * self.pitch, self.dice.below(2 * self.pitch)))

    def figure(self):
        """Returns a rectangle of any sides, or a via at some points."""
        words, vias = ['\n '], self.writer.good_vias
        if vias and self.dice.chance(0.5):
            words += [*self.paths.before(), '+ VIA', *self.via(self.dice.one_of(vias))]
            words += [self.writer.point(self.place()) for _ in range(self.dice.between(1, 3))]
        elif has(self.dice, 'polygon of a DEF', 0.4):
            words += [*self.paths.before(), '+ POLYGON', self.layers[self.dice.one_of(self.levels)].name, self.writer.polygon(self.walk())]
        else:
            x, y = self.place()
            width, height = self.dice.between(1, 2 * self.pitch), self.dice.between(1, 2 * self.pitch)
            if self.dice.chance(0.3):
                width, height = self.dice.one_of(((1, 3), (3, 1), (2, 1), (1, 2), (1, 5), (5, 1)))
            height = max(height, 2 if width == 1 else 1)  # (a square of one unit is no wire)
            words += [*self.paths.before(), '+ RECT', self.layers[self.dice.one_of(self.levels)].name, self.writer.corners((x, y, x + width, y + height))]
        return ' '.join(words)

    def walk(self):
        """Returns the points of a polygon with slabs, of which none is a square of one unit."""
        x, y = self.place()
        while True:
            points = wild_walk(self.dice, 2 * self.pitch)
            try:
                slabs = slabs_of(points)
            except NotRead:
                continue
            if all(right - left > 1 or upper - lower > 1 for left, lower, right, upper in slabs):
                return [(x + across, y + up) for across, up in points]

    def via(self, via):
        """Returns the words of a via in any orientation."""
        return [via.name] + ([self.dice.one_of(ORIENTATIONS if self.paths.turns(0.7) else ('N',))] if self.dice.chance(0.3) else [])

    def tapering(self):
        """Returns what may stand behind the layer of a path of NETS."""
        name = self.writer.rules.name(False)
        if name and has(self.dice, 'nondefault rule', 0.3):
            return ['TAPERRULE', name]
        return ['TAPER'] if self.dice.chance(0.2) else []

    def path(self):
        """Returns a path of some items."""
        layer, at = self.dice.one_of(self.levels), self.place()
        words, width = [self.layers[layer].name], 1
        if self.special:
            width = 2 * self.dice.below(1 + self.pitch // 4)
            words.append(str(width))
        else:
            words += self.tapering()
        words.append(self.paths.point(at, None, self.extension()))
        for _ in range(self.dice.below(7)):
            item, layer, at = self.item(layer, at, width)
            words += [*self.paths.mask(), *item]
        return ' '.join(words)

    def extension(self):
        """Returns an extension, or None."""
        return self.dice.one_of((0, 1, self.pitch // 3)) if self.dice.chance(0.2) else None

    def item(self, layer, at, width):
        """Returns an item at a layer and a point, and where the path goes on."""
        vias = [via for via in self.writer.good_vias if layer in via.joins]
        if vias and self.dice.chance(0.3):
            via = self.dice.one_of(vias)
            return self.via(via) + self.array(), sum(via.joins) - layer, at
        if not self.special and has(self.dice, 'virtual step', 0.3):
            to = at[0] + self.length(), at[1] + self.length()
            return ['VIRTUAL', self.paths.point(to, at, None)], layer, to
        if not self.special and self.dice.chance(0.2):
            return ['RECT (', *map(self.writer.number, (-1, -2, self.dice.below(9), self.pitch // 2)), ')'], layer, at
        away = self.length() if width else 0
        to = (at[0] + away, at[1]) if self.dice.chance(0.5) else (at[0], at[1] + away)
        return [self.paths.point(to, at, self.extension())], layer, to

    def array(self):
        """Returns the words of an array of vias in some cases."""
        if not self.special or not has(self.dice, 'array of vias', 0.4):
            return []
        counts = [self.dice.one_of((1, 1, 2, 3, 5)) for _ in range(2)]
        return [f'DO {counts[0]} BY {counts[1]} STEP', *(self.writer.number(self.length()) for _ in range(2))]
