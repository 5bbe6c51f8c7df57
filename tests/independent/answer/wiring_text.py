"""Reads the wiring of a net."""
from typing import Dict, List, NamedTuple, Optional

from . import geometry
from .metal import segment_rect
from .model import Layer, Patch, PlacedVia, Segment, Via
from .profile import Profile
from .turned_vias import TurnedVias
from .words import NotRead


class Stop:
    """A point of a path where it turns or takes a via, and the extension that is written there, if any."""

    def __init__(self, point):
        self.point = point
        self.extension = None


class Scope(NamedTuple):
    """What wiring names: the layers, with their numbers by their names, all vias and nondefault rules by theirs, and vias that are turned; the
    profile; and the widths of the rule of the net, or None."""
    layers: List[Layer]
    numbers: Dict[str, int]
    vias: Dict[str, Via]
    profile: Profile
    rules: Dict[str, Dict[int, int]]
    rule: Optional[Dict[int, int]]
    turned: TurnedVias


def read_wiring(text, scope, special):
    """Reads paths joined by NEW, and returns their wires."""
    wires = []
    while True:
        wires += Path(text, scope, special).read()
        if not text.takes('NEW'):
            return wires


def read_placed_via(text, scope):
    """Reads the name of a via and the orientation behind it, if there is one, and returns the via."""
    name = text.next()
    if name not in scope.vias:
        raise NotRead(f'there is no via {name}')
    if text.takes('N') or not scope.profile.wide or text.peek() not in geometry.ORIENTATIONS:
        return scope.vias[name]
    via = scope.turned.via(name, text.keyword())
    if not via:
        raise NotRead(f'{name} is turned')
    return via


class Path:
    """One path of a wiring."""

    def __init__(self, text, scope, special):
        self.text = text
        self.scope, self.layers, self.profile = scope, scope.layers, scope.profile
        self.special = special
        self.rule = scope.rule
        self.layer = self.width = self.stop = None
        # wires, but a segment as a list of its layer and its two stops, until all extensions are known
        self.wires = []

    def read(self):
        """Reads the path and returns its wires."""
        self.read_head()
        while self.text.peek() not in ('NEW', '+', ';'):
            self.read_item()
        return [self.segment(*wire) if isinstance(wire, list) else wire for wire in self.wires]

    def read_item(self):
        """Reads an item, with its mask if masks are dropped."""
        if self.profile.drops_masks and self.text.takes('MASK'):
            self.text.whole_number()
        if self.text.peek() == '(':
            self.read_point()
        elif self.text.peek() == 'RECT' and not self.special:
            self.read_patch()
        elif self.text.peek() == 'VIRTUAL' and self.profile.wide and not self.special:
            self.read_virtual()
        else:
            self.read_via()

    def read_head(self):
        """Reads the path up to its first point."""
        name = self.text.next()
        if name not in self.scope.numbers:
            raise NotRead(f'there is no layer {name}')
        self.layer = self.scope.numbers[name]
        if self.special:
            self.width = self.text.whole_number()
            while self.text.takes('+'):
                self.text.expect('SHAPE')
                self.text.next()
        elif self.text.takes('TAPER'):
            self.rule = None
        elif self.profile.wide and self.text.takes('TAPERRULE'):
            name = self.text.next()
            if name not in self.scope.rules:
                raise NotRead(f'there is no rule {name}')
            self.rule = self.scope.rules[name]
        self.read_point()

    def coordinate(self, last):
        """Reads a coordinate, where `*` is the last one's."""
        return last if self.text.takes('*') else self.text.whole_number()

    def read_point(self):
        """Reads a point, and adds a segment if it is another than the last one."""
        self.text.expect('(')
        last = self.stop.point if self.stop else (None, None)
        point = self.coordinate(last[0]), self.coordinate(last[1])
        before = self.stop
        if not before or point != before.point:
            self.stop = Stop(point)
        if not self.text.takes(')'):
            self.stop.extension = self.text.whole_number()
            self.text.expect(')')
        if before and before is not self.stop:
            if point[0] != last[0] and point[1] != last[1]:
                raise NotRead('a wire is diagonal')
            self.wires.append([self.layer, before, self.stop])

    def read_virtual(self):
        """Reads VIRTUAL and a point, from which the path goes on as from its first one."""
        self.text.expect('VIRTUAL', '(')
        self.stop = Stop((self.coordinate(self.stop.point[0]), self.coordinate(self.stop.point[1])))
        self.text.expect(')')

    def read_patch(self):
        """Reads a rectangle relative to the last point."""
        self.text.expect('RECT', '(')
        numbers = [self.text.whole_number() for _ in range(4)]
        self.text.expect(')')
        self.wires.append(Patch(self.layer, self.stop.point, geometry.between(numbers[:2], numbers[2:])))

    def read_via(self):
        """Reads a via, behind which the path goes on in its other routing layer."""
        via = read_placed_via(self.text, self.scope)
        if not via.joins or self.layer not in via.joins:
            raise NotRead(f'{via.name} is not a via of this layer')
        self.layer = via.joins[0] + via.joins[1] - self.layer
        x, y = self.stop.point
        self.wires += [PlacedVia(via, (x + across, y + up)) for across, up in self.read_steps()]

    def read_steps(self):
        """Reads the array of a via, if there is one, and returns where its vias are from the last point."""
        if not self.profile.wide or not self.special or not self.text.takes('DO'):
            return [(0, 0)]
        columns = self.text.whole_number()
        self.text.expect('BY')
        rows = self.text.whole_number()
        self.text.expect('STEP')
        across, up = self.text.whole_number(), self.text.whole_number()
        return [(column * across, row * up) for row in range(rows) for column in range(columns)]

    def segment(self, layer, start, end):
        """Returns the segment between two stops, or all its metal as a patch if its width is by a rule and not that of its layer."""
        width = self.width if self.special else (self.rule or {}).get(layer, self.layers[layer].width)
        if width % 2:
            raise NotRead('a wire has an odd width')
        default = 0 if self.special else width // 2
        ends = [default if stop.extension is None else stop.extension for stop in (start, end)]
        segment = Segment(layer, width, start.point, end.point, *ends)
        if self.special or width == self.layers[layer].width:
            return segment
        x, y = start.point
        return Patch(layer, start.point, geometry.moved(segment_rect(segment), (-x, -y)))
