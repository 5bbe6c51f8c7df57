"""How long the wires of a design are, by layer, and how many vias they have."""
from collections import Counter
from typing import NamedTuple

from .design import Segment, ViaAt


class Wiring(NamedTuple):
    """Wires counted: the length of the segments on each layer, from their first points to their last in database units; how many segments
    there are on each; and how many vias of each name."""
    lengths: Counter
    segments: Counter
    vias: Counter

    def length(self):
        return sum(self.lengths.values())

    def via_count(self):
        return sum(self.vias.values())


def wiring_of(nets):
    """Returns the wiring of nets, such as `design.nets.values()`."""
    found = Wiring(Counter(), Counter(), Counter())
    for net in nets:
        for wire in net.wires:
            if isinstance(wire, Segment):
                found.lengths[wire.layer] += abs(wire.x2 - wire.x1) + abs(wire.y2 - wire.y1)
                found.segments[wire.layer] += 1
            elif isinstance(wire, ViaAt):
                found.vias[wire.via.name] += 1
    return found
