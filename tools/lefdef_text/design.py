"""Designs as records, in their database units, and where their metal lies (docs/RULES.md, "Metal")."""
from typing import Dict, List, NamedTuple, Optional, Tuple

from .library import LayerRect, Macro, Rule, Via
from .rects import Rect, least_box, meets, moved, turned


class Row(NamedTuple):
    name: str
    site: str
    x: int
    y: int
    orientation: str
    count: int


class Tracks(NamedTuple):
    """Lines at `start`, `start + step` and so on; those without layers hold for every routing layer."""
    axis: str
    start: int
    count: int
    step: int
    layers: List[str]


class Place(NamedTuple):
    x: int
    y: int
    orientation: str


class Component(NamedTuple):
    """A component: its status is PLACED, FIXED, COVER or UNPLACED, and its place None where it is unplaced."""
    name: str
    macro: Macro
    status: str
    place: Optional[Place]


class Port(NamedTuple):
    shapes: List[LayerRect]
    status: Optional[str]
    place: Optional[Place]


class Pin(NamedTuple):
    """A pin of the design; net, direction and use are as they are written, or None."""
    name: str
    net: Optional[str]
    direction: Optional[str]
    use: Optional[str]
    ports: List[Port]


class Blockage(NamedTuple):
    """An entry of BLOCKAGES on a layer with metal; the layer is None where it keeps components out, and no metal."""
    layer: Optional[str]
    rects: List[Rect]


class Segment(NamedTuple):
    """A straight wire between two points, with its width and how far it reaches past each of them."""
    layer: str
    x1: int
    y1: int
    x2: int
    y2: int
    width: int
    before: int
    after: int


class ViaAt(NamedTuple):
    via: Via
    x: int
    y: int


class Patch(NamedTuple):
    """A rectangle given from a point."""
    layer: str
    x: int
    y: int
    rect: Rect


class Net:
    """An entry of NETS or SPECIALNETS: its terminals, each a component and its pin or 'PIN' and a pin of the design."""

    def __init__(self, name):
        self.name = name
        self.use = None
        self.terminals = {}
        self.wires = []


class Shape(NamedTuple):
    """A rectangle of metal. Its owner is written as lefdef prints it. Its role is PIN (of the component `of`, or of the design where
    that is ''), OBS, BLOCKAGE or WIRE, and its name the pin's, or the number of the wire in its net or of the blockage."""
    layer: str
    rect: Rect
    owner: str
    role: str
    of: str
    name: str


class Design:
    """What a DEF text denotes, in its database units."""

    def __init__(self, library, units):
        self.library, self.units = library, units
        self.name = self.die = None
        self.rows, self.tracks = [], []
        self.vias: Dict[str, Via] = dict(library.vias)
        self.turned_vias: Dict[Tuple[str, str], Via] = {}
        self.rules: Dict[str, Rule] = dict(library.rules)
        self.why_not_good: Dict[str, str] = dict(library.why_not_good)
        self.components: Dict[str, Component] = {}
        self.pins: Dict[str, Pin] = {}
        self.blockages: List[Blockage] = []
        self.nets: Dict[str, Net] = {}
        self.special: Dict[str, Net] = {}
        self.net_of: Dict[Tuple[str, str], str] = {}
        self.turned_macros = {}

    def box(self, component):
        """Returns the box of a placed component."""
        x, y, orientation = component.place
        macro = component.macro
        across, along = (macro.height, macro.width) if orientation in ('W', 'E', 'FW', 'FE') else (macro.width, macro.height)
        return Rect(x, y, x + across, y + along)

    def is_movable(self, component):
        """Returns whether a component is one that `legalise` may move."""
        return component.status in ('PLACED', 'UNPLACED') and component.macro.site is not None

    def placement_rects(self):
        """Returns the rectangles of placement blockages, each with the number of its blockage."""
        return [(number, rect) for number, blockage in enumerate(self.blockages, 1) if blockage.layer is None for rect in blockage.rects]

    def turned_macro(self, macro, orientation):
        """Returns the shapes of a macro in an orientation, each with its pin (or '' for obstructions), and their least box."""
        key = macro.name, orientation
        if key not in self.turned_macros:
            shapes = [(pin.name, shape) for pin in macro.pins.values() for shape in pin.shapes] + [('', shape) for shape in macro.obstructions]
            shapes = [(pin, layer, turned(rect, macro.width, macro.height, orientation)) for pin, (layer, rect) in shapes]
            self.turned_macros[key] = shapes, least_box(rect for _, _, rect in shapes)
        return self.turned_macros[key]

    def owner_of(self, component, pin):
        """Returns whose metal a pin of a component is."""
        net = self.net_of.get((component.name, pin.name))
        if net is not None:
            return f'NET {net}'
        return pin.use if pin.use in ('POWER', 'GROUND') else f'TERM {component.name} {pin.name}'

    def component_shapes(self, component, window=None):
        """Yields the metal of a component, pins first; with a window, only what shares a point with it."""
        if component.place is None:
            return
        x, y, orientation = component.place
        shapes, reach = self.turned_macro(component.macro, orientation)
        if window and (not reach or not meets(moved(reach, x, y), window)):
            return
        pins = component.macro.pins
        for pin, layer, rect in shapes:
            rect = moved(rect, x, y)
            if window is None or meets(rect, window):
                owner = self.owner_of(component, pins[pin]) if pin else f'OBS {component.name}'
                yield Shape(layer, rect, owner, 'PIN' if pin else 'OBS', component.name, pin)

    def pin_shapes(self, pin):
        """Yields the metal of a pin of the design."""
        net = self.net_of.get(('PIN', pin.name))
        owner = f'TERM PIN {pin.name}' if net is None else f'NET {net}'
        for port in pin.ports:
            for layer, rect in port.shapes if port.place else ():
                rect = moved(turned(rect, 0, 0, port.place.orientation), port.place.x, port.place.y)
                yield Shape(layer, rect, owner, 'PIN', '', pin.name)

    def blockage_shapes(self):
        """Yields the rectangles of the blockages of layers."""
        for number, blockage in enumerate(self.blockages, 1):
            for rect in blockage.rects if blockage.layer is not None else ():
                yield Shape(blockage.layer, rect, f'BLOCKAGE {number}', 'BLOCKAGE', '', str(number))

    def wire_rects(self, wire):
        """Returns the layers and rectangles of a wire."""
        if isinstance(wire, ViaAt):
            return [(layer, moved(rect, wire.x, wire.y)) for layer, rect in wire.via.shapes]
        if isinstance(wire, Patch):
            return [(wire.layer, moved(wire.rect, wire.x, wire.y))]
        layer, x1, y1, x2, y2, width, before, after = wire
        half = width // 2
        if y1 == y2:
            if x1 > x2:
                x1, x2, before, after = x2, x1, after, before
            return [(layer, Rect(x1 - before, y1 - half, x2 + after, y1 + half))]
        if y1 > y2:
            y1, y2, before, after = y2, y1, after, before
        return [(layer, Rect(x1 - half, y1 - before, x1 + half, y2 + after))]

    def wires(self, net):
        """Returns the wires of a net of this name, those of NETS first."""
        return [wire for entries in (self.nets, self.special) if net in entries for wire in entries[net].wires]

    def shapes(self, window=None):
        """Yields all metal, in the order of docs/RULES.md; with a window, only what shares a point with it."""
        for component in self.components.values():
            yield from self.component_shapes(component, window)
        for pin in self.pins.values():
            for shape in self.pin_shapes(pin):
                if window is None or meets(shape.rect, window):
                    yield shape
        for shape in self.blockage_shapes():
            if window is None or meets(shape.rect, window):
                yield shape
        for entries in (self.nets, self.special):
            for net in entries.values():
                owner = f'NET {net.name}'
                before = len(self.nets[net.name].wires) if entries is self.special and net.name in self.nets else 0
                for number, wire in enumerate(net.wires, before + 1):
                    for layer, rect in self.wire_rects(wire):
                        if window is None or meets(rect, window):
                            yield Shape(layer, rect, owner, 'WIRE', net.name, str(number))

    def terminal_shapes(self, terminal):
        """Returns the metal of a terminal: a component and its pin, or 'PIN' and a pin of the design."""
        component, pin = terminal
        if component == 'PIN':
            return list(self.pin_shapes(self.pins[pin]))
        return [shape for shape in self.component_shapes(self.components[component]) if shape.name == pin and shape.role == 'PIN']
