"""Libraries as records: layers, sites, vias, macros and nondefault rules, in millionths of a micron or in database units."""
from typing import Dict, List, NamedTuple, Optional, Tuple

from .rects import ORIENTATIONS, Rect, moved
from .words import GREATEST_NUMBER, Refused

WIRING_WORDS = frozenset(('NEW', 'RECT', 'TAPER', 'TAPERRULE', 'STYLE', 'MASK', 'VIRTUAL', 'DO') + ORIENTATIONS)
LayerRect = Tuple[str, Rect]


class Layer(NamedTuple):
    """A layer. Its kind is the word after TYPE in capitals; a routing layer has a direction and a width."""
    name: str
    kind: str
    direction: Optional[str]
    width: Optional[int]
    spacing: int

    def is_routing(self):
        return self.kind == 'ROUTING'

    def has_metal(self):
        return self.kind in ('ROUTING', 'CUT')


class Site(NamedTuple):
    name: str
    width: int
    height: int


class Via(NamedTuple):
    """A via. One that isn't good can't be used by a wire; a good one has a lower and an upper routing layer."""
    name: str
    is_default: bool
    lower: Optional[str]
    upper: Optional[str]
    shapes: List[LayerRect]

    def is_good(self):
        return self.lower is not None


class Rule(NamedTuple):
    """A nondefault rule: the widths of its wires by the names of layers."""
    name: str
    widths: Dict[str, int]


class MacroPin(NamedTuple):
    """A pin of a macro. Its use is the word after USE in capitals, or ''."""
    name: str
    use: str
    shapes: List[LayerRect]


class Macro(NamedTuple):
    name: str
    width: int
    height: int
    origin: Tuple[int, int]
    has_y_symmetry: bool
    site: Optional[str]
    pins: Dict[str, MacroPin]
    obstructions: List[LayerRect]


class Library:
    """Layers (bottom up), sites, vias, macros and nondefault rules by their names, in the order in which they were defined; why the vias that are
    not good are not; and for what the macros that the wide profile has dropped are none."""

    def __init__(self):
        self.layers: Dict[str, Layer] = {}
        self.sites: Dict[str, Site] = {}
        self.vias: Dict[str, Via] = {}
        self.macros: Dict[str, Macro] = {}
        self.rules: Dict[str, Rule] = {}
        self.places = {}
        self.why_not_good: Dict[str, str] = {}
        self.dropped: Dict[str, Refused] = {}

    def routing(self):
        return [layer for layer in self.layers.values() if layer.is_routing()]

    def at(self, units, scale=None):
        """Returns the library in database units, of which `units` are a micron, with each macro's origin added to its shapes. The lengths
        are those of `scale`, or exact."""
        library = Library()
        library.why_not_good, library.dropped = self.why_not_good, self.dropped
        scale = scale or Scale(self, units)
        for layer in self.layers.values():
            width = scale.of(layer.width, layer) if layer.is_routing() else None
            if width is not None and width % 2:
                scale.fault(layer, layer.width, f'the width of {layer.name} is odd: {width} database units', 'OddWidth')
            library.layers[layer.name] = layer._replace(width=width, spacing=scale.of(layer.spacing, layer))
        for site in self.sites.values():
            library.sites[site.name] = Site(site.name, scale.of(site.width, site), scale.of(site.height, site))
        for macro in self.macros.values():
            library.macros[macro.name] = scale.macro(macro)
        for via in self.vias.values():
            library.vias[via.name] = via._replace(shapes=scale.shapes(via.shapes, via, (0, 0)))
        for rule in self.rules.values():
            library.rules[rule.name] = rule._replace(widths={layer: scale.of(width, rule) for layer, width in rule.widths.items()})
        return library


class Scale:
    """Lengths of a library, exactly, in database units."""

    def __init__(self, library, units):
        self.library, self.units = library, units

    def fault(self, record, millionths, why, kind):
        """Refuses a length of a record, in the text that defines the record."""
        text, at = self.library.places[type(record), record.name]
        text.fault(why, at, kind)

    def of(self, millionths, record):
        units, rest = divmod(millionths * self.units, 10 ** 6)
        if rest:
            self.fault(record, millionths, f'a length of {record.name} is no whole number of database units: '
                       f'{millionths / 10 ** 6:g} microns at {self.units} units a micron', 'NotOnUnit')
        elif abs(units) > GREATEST_NUMBER:
            self.fault(record, millionths, f'a length of {record.name} is beyond {GREATEST_NUMBER} database units', 'TooLarge')
        return units

    def shapes(self, shapes, record, origin):
        return [(layer, moved(Rect(*(self.of(side, record) for side in rect)), *origin)) for layer, rect in shapes]

    def macro(self, macro):
        origin = tuple(self.of(length, macro) for length in macro.origin)
        pins = {pin.name: pin._replace(shapes=self.shapes(pin.shapes, macro, origin)) for pin in macro.pins.values()}
        return macro._replace(
            width=self.of(macro.width, macro), height=self.of(macro.height, macro), origin=origin, pins=pins,
            obstructions=self.shapes(macro.obstructions, macro, origin))


def why_not_joined(layers, name, shapes):
    """Returns why a via of these shapes is not good, or None where it is."""
    order = list(layers)
    used = sorted({order.index(layer) for layer, _ in shapes})
    routing = [order.index(layer.name) for layer in layers.values() if layer.is_routing()]
    if name.upper() in WIRING_WORDS:
        return 'its name is a word of wiring'
    if len(used) != 3 or [at in routing for at in used] != [True, False, True]:
        return 'its rectangles are not on two routing layers and one cut layer between them'
    low, cut, high = used
    if routing.index(high) != routing.index(low) + 1:
        return f'another routing layer is between {order[low]} and {order[high]}'
    for layer, rect in shapes:
        if layer != order[cut] and not (rect.x1 < 0 < rect.x2 and rect.y1 < 0 < rect.y2):
            return f'a rectangle of it on {layer} does not have the point 0 0 inside'
    return None


def joined_layers(layers, shapes):
    """Returns the lower and the upper routing layer of a good via of these shapes."""
    order = list(layers)
    used = sorted({order.index(layer) for layer, _ in shapes})
    return order[used[0]], order[used[2]]
