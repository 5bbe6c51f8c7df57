"""Blocks whose nets get in each other's way: `route` stops, and they can be finished all the same."""
from answer import connection, metal
from answer.grid import FINISH_LIMIT
from answer.router import NetRouter, NotRouted, ground, routed
from .wires import cut

# How often a design is routed at the most, so that it is finished, and how often so that route stops.
TRIES = 5
FEW = 2
# What a design is worth: it has violations other than open nets, or none, or route stops in it though it can be finished.
NOT_CLEAN, CLEAN, CONTESTED = range(3)


def design_to_finish(dice, plan, make):
    """Returns one of the designs that are made in turn: the first that is worth most."""
    best, most = None, NOT_CLEAN - 1
    for _ in range(plan.attempts):
        design, worth = tried(dice, plan, make()) if plan.reached else (make(), CLEAN)
        best, most = (design, worth) if worth > most else (best, most)
        if worth == CONTESTED or worth == CLEAN and not plan.contested:
            break
    return best


def tried(dice, plan, design):
    """Returns a design without terminals that cannot be reached, and what it is worth; if it can be finished it may get some wires."""
    try:
        design = within_reach(design, *ground(design, FINISH_LIMIT))
    except NotRouted:
        return design, NOT_CLEAN
    order, finished = contest(dice, design) if plan.contested else (None, None)
    if finished:
        design = with_wires(dice, plan, design, finished, order or range(len(design.nets)))
    return design, CONTESTED if finished and order else CLEAN


def contest(dice, design):
    """Returns an order of the nets in which route stops, and the design with wires with which it is legal; either can be None."""
    own = list(range(len(design.nets)))
    found = routed_in(design, own)
    if isinstance(found, str):
        return own, finished_design(design, found)
    return stopping_order(dice, design), found


def within_reach(design, grid, obstacles):
    """Returns a design without the terminals from which no open walk leads to others of their net."""
    left_out = set()
    for number, net in enumerate(metal.whole_nets(design)[:len(design.nets)]):
        router = NetRouter(design, grid, obstacles, number, net)
        alone = [group for group in connection.groups(router.parts) if router.shortest_walk(group) is None]
        left_out |= {net.terminals[piece] for group in alone for piece in group if piece < len(net.terminals)}
    nets = [net._replace(terminals=tuple(it for it in net.terminals if it not in left_out)) for net in design.nets]
    # (a pin of the design that names its net and that no entry lists would be appended)
    pins = [pin._replace(net=None) if (None, number) in left_out else pin for number, pin in enumerate(design.pins)]
    return design._replace(nets=nets, pins=pins)


def routed_in(design, order):
    """Returns the design with its nets, still in their own order, routed in another one, or the name of the net at which that stops."""
    try:
        nets = routed(design._replace(nets=[design.nets[number] for number in order])).nets
    except NotRouted as refusal:
        return refusal.lines[-1].split(' ')[-1]
    return design._replace(nets=[net for _, net in sorted(zip(order, nets))])


def finished_design(design, stopped):
    """Returns a design with wires with which it is legal, or None if none are found: the net at which it stopped goes first each time."""
    names = [net.name for net in design.nets]
    order = list(range(len(names)))
    for _ in range(TRIES):
        if stopped not in names or names.index(stopped) == order[0]:
            return None
        order.remove(names.index(stopped))
        order.insert(0, names.index(stopped))
        found = routed_in(design, order)
        if not isinstance(found, str):
            return found
        stopped = found
    return None


def stopping_order(dice, design):
    """Returns an order of the nets in which route stops, or None if none is found."""
    for _ in range(FEW):
        order = dice.shuffled(range(len(design.nets)))
        if isinstance(routed_in(design, order), str):
            return order
    return None


def with_wires(dice, plan, design, finished, order):
    """Returns a design with its nets in another order, and with some of the wires with which it is finished."""
    nets = [with_some_wires(dice, plan, *pair) for pair in zip(design.nets, finished.nets)] if plan.kept else design.nets
    return design._replace(nets=[nets[number] for number in order])


def with_some_wires(dice, plan, net, finished):
    """Returns a net with some of the wires with which it is finished: all, none, or some pieces."""
    if not dice.chance(plan.kept):
        return net
    more = finished.wires[len(net.wires):]
    if dice.chance(0.5):
        more = dice.kept([piece for wire in more for piece in cut(dice, wire)], 0.6)
    return net._replace(wires=net.wires + tuple(more))
