"""The metal of a design: its nets with their pieces, and its shapes with their owners."""
from typing import NamedTuple, Optional, Tuple

from . import geometry
from .model import Patch, PlacedVia, Rect, Segment, numbers_of


class MetalShape(NamedTuple):
    """A rectangle of metal; owner is a tuple as owner_words has it, component that of a pin of a macro or an obstruction."""
    layer: int
    rect: Rect
    owner: Tuple
    component: Optional[int]


class WholeNet(NamedTuple):
    """A net with what its entries of both sections list: all its terminals, and all its wires, those of NETS first."""
    name: str
    terminals: Tuple
    wires: Tuple


def whole_nets(design):
    """Returns the nets: those of NETS in order, and then for each place of SPECIALNETS the net, or None if NETS has it."""
    special = {net.name: net for net in design.special_nets}
    names = numbers_of(design.nets)
    nets = []
    for net in design.nets:
        other = special.get(net.name)
        more = tuple(it for it in other.terminals if it not in net.terminals) if other else ()
        nets.append(WholeNet(net.name, net.terminals + more, net.wires + (other.wires if other else ())))
    alone = [None if net.name in names else WholeNet(net.name, net.terminals, net.wires) for net in design.special_nets]
    return nets + alone


def net_number(design, names, name, place):
    """Returns the number of the net of an entry of SPECIALNETS at this place; names has those of NETS."""
    return names.get(name, len(design.nets) + place)


def component_shapes(design, number, shapes):
    """Returns shapes of the macro of a component at the component's place; none if it has no place."""
    component = design.components[number]
    if component.place is None:
        return []
    macro = design.macro_of(number)
    turned = ((layer, geometry.oriented(rect, macro.width, macro.height, component.orientation)) for layer, rect in shapes)
    return [(layer, geometry.moved(rect, component.place)) for layer, rect in turned]


def port_shapes(port):
    """Returns the shapes of a port of the design at its place; none if it has no place."""
    if port.place is None:
        return []
    turned = ((layer, geometry.oriented(rect, 0, 0, port.orientation)) for layer, rect in port.shapes)
    return [(layer, geometry.moved(rect, port.place)) for layer, rect in turned]


def terminal_shapes(design, terminal):
    """Returns the shapes of a terminal."""
    component, pin = terminal
    if component is None:
        return [shape for port in design.pins[pin].ports for shape in port_shapes(port)]
    return component_shapes(design, component, design.macro_of(component).pins[pin].shapes)


def segment_rect(wire):
    """Returns the rectangle of a segment."""
    half = wire.width // 2
    (x1, y1), (x2, y2) = wire.start, wire.end
    ends = sorted([(wire.start, wire.start_extension), (wire.end, wire.end_extension)])
    (low, before), (high, after) = ends
    if y1 == y2:
        return low[0] - before, y1 - half, high[0] + after, y1 + half
    return x1 - half, low[1] - before, x2 + half, high[1] + after


def wire_shapes(wire):
    """Returns the shapes of a wire."""
    if isinstance(wire, Segment):
        return [(wire.layer, segment_rect(wire))]
    if isinstance(wire, PlacedVia):
        return [(layer, geometry.moved(rect, wire.point)) for layer, rect in wire.via.shapes]
    assert isinstance(wire, Patch)
    return [(wire.layer, geometry.moved(wire.rect, wire.point))]


def pieces(design, net):
    """Returns the shapes of each piece of a net: its terminals, and then its wires."""
    return [terminal_shapes(design, it) for it in net.terminals] + [wire_shapes(it) for it in net.wires]


def owners(design):
    """Returns the owner of each terminal that a net lists."""
    names = numbers_of(design.nets)
    found = {}
    for number, net in enumerate(design.nets):
        found.update(dict.fromkeys(net.terminals, ('NET', number)))
    for place, net in enumerate(design.special_nets):
        found.update(dict.fromkeys(net.terminals, ('NET', net_number(design, names, net.name, place))))
    return found


def metal(design):
    """Returns all shapes of the design in order."""
    listed = owners(design)
    shapes = []
    for number, component in enumerate(design.components):
        macro = design.macro_of(number)
        if component.place is None:
            continue
        for place, pin in enumerate(macro.pins):
            owner = listed.get((number, place)) or ((pin.use,) if pin.use else ('TERM', number, place))
            shapes += [MetalShape(*it, owner, number) for it in component_shapes(design, number, pin.shapes)]
        shapes += [MetalShape(*it, ('OBS', number), number) for it in component_shapes(design, number, macro.obstructions)]
    for number in range(len(design.pins)):
        owner = listed.get((None, number)) or ('TERM', None, number)
        shapes += [MetalShape(*it, owner, None) for it in terminal_shapes(design, (None, number))]
    for number, blockage in enumerate(design.blockages):
        if blockage.layer is not None:
            shapes += [MetalShape(blockage.layer, rect, ('BLOCKAGE', number), None) for rect in blockage.rects]
    names = numbers_of(design.nets)
    for number, net in enumerate(design.nets):
        shapes += [MetalShape(*it, ('NET', number), None) for wire in net.wires for it in wire_shapes(wire)]
    for place, net in enumerate(design.special_nets):
        owner = ('NET', net_number(design, names, net.name, place))
        shapes += [MetalShape(*it, owner, None) for wire in net.wires for it in wire_shapes(wire)]
    return shapes


def owner_words(design, owner):
    """Returns the words of an owner as a line has them."""
    kind = owner[0]
    if kind == 'NET':
        number = owner[1]
        nets = len(design.nets)
        return f'NET {(design.nets[number] if number < nets else design.special_nets[number - nets]).name}'
    if kind == 'TERM':
        return f'TERM {terminal_name(design, owner[1:])}'
    if kind == 'OBS':
        return f'OBS {design.components[owner[1]].name}'
    if kind == 'BLOCKAGE':
        return f'BLOCKAGE {owner[1] + 1}'
    return kind


def terminal_name(design, terminal):
    """Returns the words of a terminal as a line has them."""
    component, pin = terminal
    if component is None:
        return f'PIN {design.pins[pin].name}'
    return f'{design.components[component].name} {design.macro_of(component).pins[pin].name}'
