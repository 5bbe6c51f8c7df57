"""Pins of the design, and nets with their terminals."""
from answer import geometry
from answer.geometry import ORIENTATIONS
from answer.model import DesignPin, Net, Port
from .cells import any_rect, any_square
from .odd_words import odd_name

USES = (None, None, 'SIGNAL', 'CLOCK', 'POWER', 'GROUND')


def design_pins(dice, plan, library, floorplan):
    """Returns the pins of the design, still without nets."""
    free = dice.shuffled(edge_points(plan, floorplan))
    if plan.corners:
        free = [(floorplan.x, floorplan.y)] * (2 * plan.design_pins)
    return [design_pin(dice, plan, library, free, number) for number in range(plan.design_pins)]


def edge_points(plan, floorplan):
    """Returns the crossings of tracks along the edges of the die, within its margin."""
    half = plan.pitch // 2
    left, lower, right, upper = floorplan.die
    columns = range(left + (floorplan.x + half - left) % plan.pitch, right, plan.pitch)
    lines = range(lower + (floorplan.y + half - lower) % plan.pitch, upper, plan.pitch)
    if not columns or not lines:
        return []
    return [(x, y) for x in columns[::2] for y in sorted({lines[0], lines[-1]})] + [(x, y) for x in sorted({columns[0], columns[-1]}) for y in lines[2:-2:2]]


def design_pin(dice, plan, library, free, number):
    """Returns a pin of the design with its ports: one in most cases."""
    count = 1 if dice.chance(0.8) else dice.below(3)
    levels = library.routing_layers()
    ports = [port(dice, plan, library, levels, free) for _ in range(count)]
    direction = dice.one_of((None, 'INPUT', 'OUTPUT', 'INOUT'))
    name = odd_name(dice, number) if plan.odd_names else f'p{number}'
    return DesignPin(name, None, direction, dice.one_of(USES), tuple(ports))


def port(dice, plan, library, levels, free):
    """Returns a port at a free place at the edge, or anywhere, or without a place."""
    status = dice.one_of(('PLACED', 'FIXED', 'COVER'))
    orientation = dice.one_of(ORIENTATIONS)
    if not levels or dice.chance(0.03):
        return Port((), None, None, None)
    layer = dice.one_of(levels)
    if plan.corners:
        shapes = [(levels[place % len(levels)], any_square(dice, plan)) for place in range(dice.between(1, 4))]
        return Port(tuple(shapes), status, free.pop(), orientation)
    if plan.tidy and free:
        shapes = [(layer, geometry.around((0, 0), library.layers[layer].width // 2))]
        return Port(tuple(shapes), status, free.pop(), orientation)
    if plan.tidy or dice.chance(0.1):
        return Port(((layer, any_rect(dice, plan)),), None, None, None)
    shapes = [(dice.one_of(levels), any_rect(dice, plan)) for _ in range(dice.below(3))]
    return Port(tuple(shapes), status, (dice.between(-99, 999), dice.between(-99, 999)), orientation)


class Netlist:
    """Nets, special nets and the pins of the design with the nets that they name."""

    def __init__(self, dice, plan, library, components, pins):
        self.dice = dice
        self.plan = plan
        self.library = library
        self.components = components
        self.special_nets = [self.special_net(number) for number in range(plan.special_nets)]
        taken = {terminal for net in self.special_nets for terminal in net.terminals}
        inner = [(number, place) for number, component in enumerate(components)
                 for place, pin in enumerate(library.macros[component.macro].pins) if not pin.use]
        self.free = dice.shuffled([it for it in inner + [(None, number) for number in range(len(pins))] if it not in taken])
        self.nets = [self.net(number) for number in range(plan.nets)]
        self.pins = [self.with_net(number, pin) for number, pin in enumerate(pins)]

    def terminal_count(self):
        """Returns how many terminals a net has."""
        if self.plan.terminals is not None:
            return self.plan.terminals
        return self.dice.one_of((0, 1, 2, 2, 2, 2, 3, 3, 4, 5))

    def net(self, number):
        """Returns a net without wires; some have the name of a special net."""
        names = [net.name for net in self.special_nets]
        own = odd_name(self.dice, number) if self.plan.odd_names and self.dice.chance(0.5) else f'n{number}'
        name = names[number] if number < len(names) and self.dice.chance(0.3) else own
        count = self.terminal_count()
        terminals, self.free = self.free[:count], self.free[count:]
        if name in names and self.dice.chance(0.5):
            terminals += self.dice.some_of(self.special_nets[names.index(name)].terminals, 2)
        return Net(name, tuple(self.in_order(terminals)), self.dice.one_of(USES), ())

    def in_order(self, terminals):
        """Returns terminals with the pins of the design last in many cases, so that these can be appended."""
        return sorted(terminals, key=lambda it: (it[0] is None, it[1] if it[0] is None else 0)) if self.dice.chance(0.7) else terminals

    def special_net(self, number):
        """Returns a special net without wires: of the power or the ground of all components, or of nothing."""
        name = ('VDD', 'VSS')[number] if number < 2 else f's{number}'
        terminals = [(place, it) for place, component in enumerate(self.components)
                     for it, pin in enumerate(self.library.macros[component.macro].pins) if pin.name == name]
        return Net(name, tuple(terminals), self.dice.one_of((None, 'POWER', 'GROUND')), ())

    def with_net(self, number, pin):
        """Returns a pin of the design with the net that lists it, in some cases with another one's name, an unknown one or none."""
        listing = [net.name for net in self.nets + self.special_nets if (None, number) in net.terminals]
        if not listing:
            return pin._replace(net='nowhere' if self.dice.chance(0.2) else None)
        if self.dice.chance(0.9):
            return pin._replace(net=listing[0])
        return pin._replace(net=self.dice.one_of([None, 'nowhere', *(net.name for net in self.nets)]))
