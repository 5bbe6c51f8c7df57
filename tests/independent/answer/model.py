"""The plain data of a library and a design.

All lengths are whole numbers of database units. A rectangle is (x1, y1, x2, y2) with the lower left corner first, a shape
(layer, rectangle), where a layer is its number from 0, bottom up, and a terminal (component, pin), both by their numbers, with
None as the component for a pin of the design.
"""
from typing import Dict, List, NamedTuple, Optional, Tuple

Point = Tuple[int, int]
Rect = Tuple[int, int, int, int]
Shape = Tuple[int, Rect]
Terminal = Tuple[Optional[int], int]


class Layer(NamedTuple):
    """A layer: its type in capitals, its direction HORIZONTAL, VERTICAL or None, its width (None if there is none) and spacing."""
    name: str
    kind: str
    direction: Optional[str]
    width: Optional[int]
    spacing: int

    def has_metal(self):
        return self.kind in ('ROUTING', 'CUT')

    def routes(self):
        return self.kind == 'ROUTING'


class Via(NamedTuple):
    """A via; joins has its lower and its upper routing layer, or is None if the via is not good."""
    name: str
    shapes: Tuple[Shape, ...]
    default: bool
    joins: Optional[Tuple[int, int]]


class Site(NamedTuple):
    """A site with its size."""
    name: str
    width: int
    height: int


class MacroPin(NamedTuple):
    """A pin of a macro; use is POWER, GROUND or None for all other uses."""
    name: str
    use: Optional[str]
    shapes: Tuple[Shape, ...]


class Macro(NamedTuple):
    """A macro; mirrors says whether its SYMMETRY has Y, and ORIGIN is added to all shapes."""
    name: str
    width: int
    height: int
    mirrors: bool
    site: Optional[int]
    pins: Tuple[MacroPin, ...]
    obstructions: Tuple[Shape, ...]


class Library(NamedTuple):
    """What the LEF texts define, each list in the order of the texts; rules has the widths of nondefault rules by their names, each by the number of
    its layer."""
    layers: List[Layer]
    vias: List[Via]
    sites: List[Site]
    macros: List[Macro]
    rules: Dict[str, Dict[int, int]]

    def routing_layers(self):
        """Returns the numbers of the routing layers, bottom up."""
        return [number for number, layer in enumerate(self.layers) if layer.routes()]


class Row(NamedTuple):
    """A row of count sites of one kind, from its lower left corner to the right."""
    name: str
    site: int
    x: int
    y: int
    orientation: str
    count: int


class Tracks(NamedTuple):
    """A statement TRACKS: count lines across the axis X or Y; no layers stands for every routing layer."""
    axis: str
    start: int
    count: int
    step: int
    layers: Tuple[int, ...]


class Component(NamedTuple):
    """A component; status is PLACED, FIXED, COVER or UNPLACED, and the latter has no place and no orientation."""
    name: str
    macro: int
    status: str
    place: Optional[Point]
    orientation: Optional[str]


class Port(NamedTuple):
    """A port of a pin of the design; its shapes are relative to its place, and status is None if it has none."""
    shapes: Tuple[Shape, ...]
    status: Optional[str]
    place: Optional[Point]
    orientation: Optional[str]


class DesignPin(NamedTuple):
    """A pin of the design, with the words of its clauses as they were written, or None."""
    name: str
    net: Optional[str]
    direction: Optional[str]
    use: Optional[str]
    ports: Tuple[Port, ...]


class Blockage(NamedTuple):
    """An entry of BLOCKAGES: the layer is None for a placement blockage."""
    layer: Optional[int]
    rects: Tuple[Rect, ...]


class Segment(NamedTuple):
    """A segment of a wire, with its extension past each end."""
    layer: int
    width: int
    start: Point
    end: Point
    start_extension: int
    end_extension: int


class PlacedVia(NamedTuple):
    """A via of a wire at its point."""
    via: Via
    point: Point


class Patch(NamedTuple):
    """A rectangle of a wire, relative to its point."""
    layer: int
    point: Point
    rect: Rect


class Net(NamedTuple):
    """An entry of NETS or SPECIALNETS."""
    name: str
    terminals: Tuple[Terminal, ...]
    use: Optional[str]
    wires: Tuple


class Design(NamedTuple):
    """A design over a library."""
    library: Library
    name: str
    divider: Optional[str]
    bus_bits: Optional[str]
    units: int
    die: Rect
    rows: List[Row]
    tracks: List[Tracks]
    vias: List[Via]
    components: List[Component]
    pins: List[DesignPin]
    blockages: List[Blockage]
    special_nets: List[Net]
    nets: List[Net]

    def macro_of(self, component):
        """Returns the macro of the component with this number."""
        return self.library.macros[self.components[component].macro]

    def is_movable(self, component):
        """Whether the component with this number is placed anew where the design is not legally placed."""
        return self.components[component].status in ('PLACED', 'UNPLACED') and self.macro_of(component).site is not None

    def placement_rects(self):
        """Returns the rectangles of all placement blockages."""
        return [rect for blockage in self.blockages if blockage.layer is None for rect in blockage.rects]


def numbers_of(items):
    """Returns the number of each item by its name."""
    return {item.name: number for number, item in enumerate(items)}  # type: Dict[str, int]
