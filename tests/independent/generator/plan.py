"""What a block is to have, by its number: a family, a count that the family goes through, small or large, and the other sizes."""
from answer.profile import NARROW, Profile
from .dice import Dice

FAMILIES = ('components', 'rows', 'wires', 'nets', 'terminals', 'routed nets', 'walks', 'pins of the design', 'rectangles',
            'tracks', 'layers', 'special nets', 'macros', 'legal', 'thinned wires', 'corners', 'all')
COMMANDS = ('check', 'place-check', 'measure', 'print', 'legalise', 'route', 'flow', 'finish')
# Of four counts of a family three are small, from 0 to 12 in turn, and one is large, of these in turn, but not above the family's most.
SMALL_COUNTS = 13
LARGE_COUNTS = (140, 17, 1200, 33, 280, 70, 600)
MOST = {'wires': 600, 'nets': 280, 'terminals': 600, 'routed nets': 33, 'walks': 33, 'pins of the design': 280, 'rectangles': 33,
        'tracks': 33, 'layers': 33, 'special nets': 140, 'macros': 280, 'legal': 140, 'thinned wires': 33, 'corners': 33}
# Where the count is above this one, no wires are asked for, which takes long here.
MOST_ROUTED = 100
NOT_ROUTED = COMMANDS[:5]
# One block of so many is one of these in turn, and is asked these commands.
LARGE_EVERY = 50
LARGE = ('components', 'metal', 'routes')
# Blocks from this number on have blockages; the block of this number and n has the family and the count of block n.
WITH_BLOCKAGES = 1000000
# Blocks from this number on have blockages too, and are in the wide profile.
IS_WIDE = 2000000
LARGE_COMMANDS = {'components': NOT_ROUTED, 'metal': NOT_ROUTED, 'routes': ('check', 'measure', 'route', 'flow', 'finish')}


class Plan:
    """The sizes of a block.

    tidy: pins lie on the tracks, and wires fit between them. legal: components are legally placed. thin: the block is routed, and
    some wires are taken away again. sound: directions alternate, vias join all routing layers, and all macros fit their sites.
    corners: pins of the design and wires are squares that share corners. far: the block lies far from the origin. too_many: there
    are more tracks than the grid may have. layer_blockages: how many of the blockages are of a layer, in so many cases of 1.

    Those for finish. dense: cells are narrow and have many pins. uneven: the tracks of a layer are of two statements that do not go
    together. pads: how the rectangles of vias are larger than wires: 'wide', 'lopsided', or None. far_cuts: cuts of vias at
    neighbouring tracks are too near to one another. walls: macros have obstructions across several tracks. reached: terminals from
    which no walk leads are left out of nets. contested: nets are in an order in which route stops though the block can be finished, if
    there is one. attempts: how many designs are made at the most until one is so. kept: how much of the wires with which it is finished
    the block has, in so many cases of 1. limits: the grid has about as many 'slots' as it may have, or 'tracks', or None.
    """

    def __init__(self, dice):
        self.family, self.count, self.commands = 'all', 0, COMMANDS
        self.units = dice.one_of((1000, 1000, 2000, 100, 10000, 20000, 500, 4000))
        self.pitch = dice.one_of((20, 40, 100, 200, 360))
        self.routing_layers = dice.between(1, 4)
        self.sites = dice.between(1, 3)
        self.macros = dice.between(1, 5)
        self.blocks = dice.below(3)
        self.pins = dice.between(1, 4)
        self.rectangles = dice.between(1, 2)
        self.obstructions = dice.below(3)
        self.rows = dice.between(1, 4)
        self.room = dice.one_of((1.0, 1.2, 1.5, 2.5))
        self.components = dice.between(1, 8)
        self.design_pins = dice.below(4)
        self.nets = dice.below(5)
        self.terminals = None
        self.special_nets = dice.below(2)
        self.wires = dice.one_of((0, 0, 2, 5))
        self.tracks = None
        self.too_many = False
        self.margin = 2
        self.tidy = dice.chance(0.7)
        self.legal = dice.chance(0.5)
        self.thin = self.corners = False
        self.has_blockages, self.blockages, self.layer_blockages = False, 0, 0.0
        self.profile = NARROW
        self.rails = dice.chance(0.4)
        self.sound = dice.chance(0.5)
        self.odd_names = dice.chance(0.15)
        self.far = dice.chance(0.1)
        self.dense, self.uneven, self.pads, self.far_cuts, self.walls = False, False, None, False, False
        self.reached, self.contested, self.attempts, self.kept, self.limits = False, False, 1, 0.0, None

    def route(self, dice):
        """Makes it a block that can be routed: tidy and legal, without wild wires."""
        self.tidy = self.legal = True
        self.sound = dice.chance(0.8)
        self.wires = 0
        self.special_nets = dice.below(2)
        self.routing_layers = dice.between(2, 4)
        self.room = 1.5
        self.margin = dice.between(1, 4)
        self.sites = dice.between(1, 2)
        self.obstructions = dice.below(2)

    def widen(self, dice):
        """Puts it into the wide profile, with options or without; so it is in a technology in which wide forms have a place."""
        self.profile = Profile(True, dice.chance(0.6), dice.one_of((None, 'drop', 'hard')))
        self.routing_layers = max(2, self.routing_layers)

    def block(self, dice):
        """Gives it blockages, and room for components beside them."""
        self.has_blockages = True
        self.layer_blockages = dice.one_of((0.0, 0.5, 0.5, 0.8, 1.0))
        self.blockages = 150 if self.family.startswith('large') else 40 if dice.chance(0.05) else dice.one_of((0, 1, 1, 2, 3, 5, 12))
        self.room += dice.one_of((0, 0.5, 1.0))


def plan_of(number):
    """Returns the plan of the block with this number, and the dice for the rest of it."""
    dice = Dice(number)
    plan = plan_by_turn(number % WITH_BLOCKAGES, dice)
    if number >= WITH_BLOCKAGES:
        plan.block(dice)
    if number >= IS_WIDE:
        plan.widen(dice)
    return plan, dice


def plan_by_turn(number, dice):
    """Returns the plan of this number but for blockages."""
    if number % LARGE_EVERY == 0:
        return large_plan(LARGE[number // LARGE_EVERY % len(LARGE)], dice)
    plan = Plan(dice)
    plan.family = FAMILIES[number % len(FAMILIES)]
    plan.count = count = count_of(plan.family, number // len(FAMILIES))
    if plan.family in ('routed nets', 'walks', 'thinned wires', 'tracks'):
        plan.route(dice)
    SIZED[plan.family](plan, count, dice)
    if count > MOST_ROUTED:
        plan.commands = NOT_ROUTED
    elif plan.too_many:
        # (a grid that is not too large for finish would have millions of slots)
        plan.commands = COMMANDS[:-1]
    return plan


def count_of(family, turn):
    """Returns the count of a family in this turn."""
    large, small = divmod(turn, 4)
    if small < 3:
        return (3 * large + small) % SMALL_COUNTS
    return min(LARGE_COUNTS[large % len(LARGE_COUNTS)], MOST.get(family, LARGE_COUNTS[-1]))


def size_components(plan, count, dice):
    plan.components, plan.legal, plan.blocks = count, dice.chance(0.2), dice.below(2)
    plan.rows, plan.nets = max(plan.rows, count // 40), dice.below(3)
    plan.sites = dice.one_of((1, plan.sites))


def size_rows(plan, count, dice):
    plan.rows, plan.legal, plan.components = count, dice.chance(0.3), dice.between(1, 20)


def size_wires(plan, count, dice):
    plan.wires, plan.nets, plan.special_nets = count, dice.between(1, 2), dice.below(3)
    if count > 100:
        plan.nets, plan.special_nets = 1, 0


def size_nets(plan, count, dice):
    plan.nets, plan.components, plan.wires = count, dice.between(4, 12), dice.below(3)


def size_terminals(plan, count, dice):
    plan.terminals, plan.nets, plan.components, plan.wires = count, dice.between(1, 2), max(dice.between(6, 14), count // 2), dice.below(4)


def size_routed_nets(plan, count, dice):
    plan.nets, plan.components = count, dice.between(2, 4 + count)


def size_walks(plan, count, dice):
    plan.nets, plan.terminals, plan.components = 1 if count else 0, count + 1, count + 2
    plan.special_nets, plan.room, plan.obstructions = 0, 2.5, 0


def size_design_pins(plan, count, dice):
    plan.design_pins, plan.nets = count, dice.between(1, 6)


def size_rectangles(plan, count, dice):
    plan.rectangles = plan.obstructions = count


def size_tracks(plan, count, dice):
    plan.tracks, plan.nets = count, dice.between(1, 4)
    plan.too_many = dice.chance(0.15)


def size_layers(plan, count, dice):
    plan.routing_layers, plan.tidy, plan.legal = count, True, True
    plan.wires = dice.below(3)


def size_special_nets(plan, count, dice):
    plan.special_nets, plan.wires = count, dice.below(4)


def size_macros(plan, count, dice):
    plan.macros, plan.pins, plan.legal = count, dice.below(SMALL_COUNTS), dice.chance(0.3)


def size_legal(plan, count, dice):
    plan.legal, plan.components, plan.blocks = True, 2 * count, 0
    plan.wires, plan.nets = 0, dice.below(4)


def size_thinned_wires(plan, count, dice):
    plan.thin, plan.nets, plan.components = True, dice.between(1, max(5, count // 3)), dice.between(2, max(8, count))
    plan.terminals = dice.between(2, 5)


def size_corners(plan, count, dice):
    plan.corners, plan.design_pins, plan.nets, plan.terminals = True, 3 * count, count, dice.between(2, 4)
    plan.wires, plan.special_nets, plan.routing_layers, plan.sound, plan.legal = dice.below(3), 0, 2, True, True
    plan.components, plan.pins, plan.blocks = 1, 0, 0


def size_all(plan, count, dice):
    plan.components, plan.nets, plan.rows = dice.below(20), dice.below(8), dice.between(1, 6)
    plan.wires, plan.design_pins, plan.macros = dice.below(8), dice.below(8), dice.between(1, 12)


SIZED = {'components': size_components, 'rows': size_rows, 'wires': size_wires, 'nets': size_nets, 'terminals': size_terminals,
         'routed nets': size_routed_nets, 'walks': size_walks, 'pins of the design': size_design_pins, 'rectangles': size_rectangles,
         'tracks': size_tracks, 'layers': size_layers, 'special nets': size_special_nets, 'macros': size_macros, 'legal': size_legal,
         'thinned wires': size_thinned_wires, 'corners': size_corners, 'all': size_all}


def large_plan(kind, dice):
    """Returns the plan of a large block: of components to be legalised, of metal to be checked, or of nets to be routed."""
    plan = Plan(dice)
    plan.family, plan.commands, plan.pitch, plan.tidy = f'large, {kind}', LARGE_COMMANDS[kind], 200, True
    plan.macros, plan.blocks, plan.margin, plan.sound = 8, 2, 2, True
    if kind == 'components':
        plan.components, plan.rows, plan.room, plan.legal = 2000, 40, dice.one_of((1.3, 1.6, 2.0)), False
        plan.nets, plan.wires, plan.sites, plan.special_nets = 100, 0, 2, 0
    elif kind == 'metal':
        plan.components, plan.rows, plan.room, plan.legal = 1500, 30, 1.4, True
        plan.nets, plan.wires, plan.design_pins, plan.special_nets = 400, 6, 100, 2
    else:
        plan.route(dice)
        plan.components, plan.rows, plan.nets, plan.design_pins, plan.room = 40, 4, 25, 10, 1.6
        plan.routing_layers, plan.special_nets, plan.obstructions, plan.sound = 3, 0, 0, True
    return plan
