"""Reading what only the wide profile has in wiring (docs/FORMATS.md, "Nets" and "Wiring"): figures, arrays of vias and steps without metal."""
from .design import Segment, ViaAt
from .words import GREATEST_NUMBER

MOST_VIAS = 4_000_000


def segments_of(layer, rect):
    """Returns segments whose metal together is a rectangle; none for a square of one unit."""
    across, up = rect.x2 - rect.x1, rect.y2 - rect.y1
    if up % 2 == 0:
        return [segment_along_x(layer, rect)]
    if across % 2 == 0:
        return [segment_along_y(layer, rect)]
    if up > 1:
        return [segment_along_x(layer, rect._replace(y2=rect.y2 - 1)), segment_along_x(layer, rect._replace(y1=rect.y1 + 1))]
    if across > 1:
        return [segment_along_y(layer, rect._replace(x2=rect.x2 - 1)), segment_along_y(layer, rect._replace(x1=rect.x1 + 1))]
    return []


def segment_along_x(layer, rect):
    """Returns the segment along x that is a rectangle of an even height."""
    y = (rect.y1 + rect.y2) // 2
    return Segment(layer, rect.x1, y, rect.x2, y, rect.y2 - rect.y1, 0, 0)


def segment_along_y(layer, rect):
    """Returns the segment along y that is a rectangle of an even width."""
    x = (rect.x1 + rect.x2) // 2
    return Segment(layer, x, rect.y1, x, rect.y2, rect.x2 - rect.x1, 0, 0)


class WideWiring:
    """What a reader of nets has for these forms."""

    def is_before_figure(self):
        """Returns whether a figure comes next, or what may stand before one, in place of a path."""
        words, at = self.text.words, self.text.at
        return self.profile.is_wide and words[at] == '+' and words[at + 1].upper() in ('RECT', 'POLYGON', 'VIA', 'SHAPE', 'MASK')

    def is_figure(self, word):
        """Returns whether a clause with this word is a figure, or a mask before one."""
        return word in ('RECT', 'POLYGON', 'VIA') and self.profile.is_wide or word == 'MASK' and self.profile.drops_masks

    def wide_figure(self, word, wires):
        """Takes a figure behind its word, or the mask before one."""
        text = self.text
        if word == 'MASK':
            text.whole()
            text.past('SPECIALNETS + MASK', text.at - 2)
        elif word in ('RECT', 'POLYGON'):
            wires += self.segments_of_figure(word)
        else:
            wires += self.vias_of_figure()

    def segments_of_figure(self, word):
        """Takes a layer and a rectangle or a polygon, and returns its segments."""
        text, begin = self.text, self.text.at - 1
        layer = self.layer()
        if not layer.is_routing():
            layer = self.no_routing_layer(layer)
        at = text.at if word == 'RECT' else begin
        rects = [text.corners(self.point)] if word == 'RECT' else self.polygon(begin)
        return [segment for rect in rects for segment in self.segments_of_rect(layer, rect, at)]

    def segments_of_rect(self, layer, rect, at):
        """Returns the segments of a rectangle of a figure; one that has none is refused at the word number `at`."""
        text = self.text
        segments = segments_of(layer.name, rect)
        if not segments and rect.x1 < rect.x2 and rect.y1 < rect.y2:
            text.fault('a square of one unit is not supported', at, 'Unsupported')
        if any(segment.width > GREATEST_NUMBER for segment in segments):
            text.fault(f'a rectangle is wider and higher than {GREATEST_NUMBER}', at, 'TooLarge')
        return segments

    def vias_of_figure(self):
        """Takes a good via and its points, and returns it at each of them."""
        text = self.text
        name = text.name('a via')
        via = self.design.vias[name] if name in self.design.vias else self.unknown('via', name)
        if not via.is_good():
            self.bad_via(via)
        via = self.in_orientation(via, True)
        points = [self.point()]
        while text.words[text.at] == '(':
            points.append(self.point())
        return [ViaAt(via, x, y) for x, y in points]

    def virtual_point(self, last):
        """Takes VIRTUAL and a point, where the path goes on without metal on the way."""
        text = self.text
        text.expect('VIRTUAL')
        text.expect('(')
        point = tuple(self.coordinate(last, axis) for axis in (0, 1))
        text.expect(')')
        return point

    def array_of(self, via, point, at):
        """Takes how a via is repeated from a point on, and returns each; the name of the via is the word number `at`."""
        text = self.text
        text.expect('DO')
        counts_at = text.at
        columns = self.count_of_array()
        text.expect('BY')
        rows = self.count_of_array()
        if columns * rows > MOST_VIAS:
            text.refuse(f'an array has more than {MOST_VIAS:,} vias', counts_at, 'TooMany')
        text.expect('STEP')
        across, up = text.whole(), text.whole()
        far = point[0] + (columns - 1) * across, point[1] + (rows - 1) * up
        if max(map(abs, far)) > GREATEST_NUMBER:
            text.refuse(f'a via of an array is beyond {GREATEST_NUMBER}', at, 'TooLarge')
        return [ViaAt(via, point[0] + column * across, point[1] + row * up) for row in range(rows) for column in range(columns)]

    def count_of_array(self):
        """Takes a number of columns or rows, at least 1."""
        if (count := self.text.whole()) < 1:
            self.text.refuse('an array has no via', kind='TooLarge')
        return count
