"""Writes paths of ports and of obstructions of a LEF, in the wide profile."""
from fractions import Fraction

from .wide_forms import has

# Statements behind which a path has no width, though the last WIDTH before, or the layer, has one.
NO_WIDTHS = ('WIDTH ;', 'WIDTH 0 ;', 'WIDTH -0.1 ;', 'WIDTH any ;', 'WIDTH 0.0000001 ;')
# Parts of macros for which they are dropped: each one behind the name of a layer with metal.
FAULTS_OF_PATHS = (
    'OBS LAYER {} ; WIDTH 0.2 ; PATH 0 0 1 0.5 ; END', 'PIN A PORT LAYER {} ; WIDTH 0.2 ; PATH 0 0 1 0 1 1 0 0 ; END END A',
    'OBS LAYER {} ; WIDTH 0.2 ; PATH ITERATE 0 0 1 0 DO 2 BY 1 STEP 1 1 ; END', 'OBS LAYER {} ; WIDTH 0.200001 ; PATH 0 0 1 0 ; END',
    'PIN A PORT LAYER {} ; WIDTH 0.000001 ; PATH 0 0 ; END END A', 'OBS PATH 0 0 1 0 ; END', 'OBS WIDTH 0.2 ; PATH 0 0 1 0 ; LAYER {} ; END',
    'OBS LAYER {} ; WIDTH 0.2 ; PATH ; END', 'OBS LAYER {} ; WIDTH 0.2 ; PATH 0 0 1 ; END', 'OBS LAYER {} ; WIDTH 0.2 ; PATH ( 0 0 1 0 ; END',
    'OBS LAYER {} ; WIDTH 0.2 ; PATH 0 0 1 0 DO 1 BY 1 STEP 1 1 ; END', 'OBS LAYER {} ; WIDTH 0.2 ; PATH MASK any 0 0 1 0 ; END',
    'OBS LAYER {} ; WIDTH 0.2 ; PATH 0 0 1999999999.95 0 ; END', 'PIN A PORT LAYER {} ; WIDTH 0.2 ; WIDTH 2000000001 ; PATH 0 0 ; END END A',
    *(f'OBS LAYER {{}} ; {width} PATH 0 0 1 0 ; END' for width in NO_WIDTHS))
# The same behind the name of a layer of cuts, which gives paths no width.
FAULTS_OF_CUTS = ('OBS LAYER {} ; PATH 0 0 1 0 ; END', 'PIN A PORT LAYER {} ; WIDTH 0.2 ; LAYER {} ; PATH 0 0 1 0 ; END END A',
                  'OBS LAYER {} ; WIDTH 0.2 ; WIDTH 0 ; PATH 0 0 ; END')


class WidePaths:
    """Writes paths in the geometries of a library; width is that of the last WIDTH on the layer in units, or None."""

    def __init__(self, writer):
        self.writer, self.dice, self.width = writer, writer.dice, None

    def can_be_one(self, rect):
        """Whether a rectangle is a path: its lesser side is even in millionths of a micron."""
        left, lower, right, upper = rect
        return min(right - left, upper - lower) * 10 ** 6 // self.writer.units % 2 == 0

    def rect(self, layer, rect):
        """Returns the statements of a path whose rectangles are together a rectangle on a layer with metal."""
        left, lower, right, upper = rect
        width = min(right - left, upper - lower)
        half = Fraction(width, 2)
        return self.path(layer, width, self.walk((left + half, lower + half), (right - half, upper - half)))

    def walk(self, start, end):
        """Returns points that go from one end of a line to the other, in some cases by points between them or twice by the same one."""
        ends = [start, end] if self.dice.chance(0.5) else [end, start]
        if start == end and self.dice.chance(0.7):
            return ends[:1]
        inner = [tuple(a + self.dice.below(int(b - a) + 1) for a, b in zip(start, end)) for _ in range(self.dice.below(3))]
        points = [ends[0], *(inner if self.dice.chance(0.2) else []), ends[1]]
        return [point for point in points for _ in range(2 if self.dice.chance(0.05) else 1)]

    def path(self, layer, width, points):
        """Returns the statements of a path of a width through some points: with a WIDTH, unless it has this width without one in some cases."""
        words = [] if self.gives(layer, width) and self.dice.chance(0.7) else [self.width_statement(width)]
        return ' '.join([*words, self.writer.key('PATH'), *self.writer.mask(), *map(self.writer.point, points), ';'])

    def gives(self, layer, width):
        """Whether a path on a layer has a width without another WIDTH."""
        return width == (self.width or self.wire_width(layer))

    def wire_width(self, layer):
        """Returns the width of the wires of a layer, or None if it has none."""
        found = self.writer.library.layers[layer]
        return found.width if found.routes() else None

    def width_statement(self, width):
        """Returns a WIDTH, which counts for the paths behind it, in some cases behind another one."""
        self.width = width
        more = ' any 0.3' if self.dice.chance(self.writer.odd) else ''
        before = self.dice.one_of(('WIDTH 0.7 ; ', *(f'{it} ' for it in NO_WIDTHS))) if self.dice.chance(self.writer.odd) else ''
        return f'{before}{self.writer.key("WIDTH")} {self.writer.length(width)}{more} ;'

    def wild(self, layer, start):
        """Returns the statements of a path on a layer with metal that goes from a point anywhere, with turns."""
        pitch = self.writer.plan.pitch
        width = (self.width or self.wire_width(layer)) if self.dice.chance(0.5) else None
        points = [start]
        for _ in range(self.dice.below(6)):
            by = self.dice.between(-2 * pitch, 2 * pitch)
            x, y = points[-1]
            points.append((x + by, y) if self.dice.chance(0.5) else (x, y + by))
        return self.path(layer, width or 2 * self.dice.between(1, pitch // 2), points)
