"""What a block for `finish` is to have, by its number."""
from .dice import Dice
from .plan import Plan

# Blocks from this number on are for finish.
TO_FINISH = 1000000000
COMMANDS = ('check', 'route', 'finish')
FAMILIES = ('contests', 'uneven tracks', 'wide pads', 'lopsided pads', 'cuts', 'walls', 'earlier wires', 'blockages', 'terminals', 'all')
# How many nets there are, in turn. Where there are more than MOST_ROUTED nothing is routed here, which takes long.
NETS = (3, 5, 4, 7, 2, 6, 10, 4, 20, 5, 8, 3, 32)
MOST_ROUTED = 10
# One block of so many is about how large the grid may be.
LIMITS_EVERY = 41
PADS = {'wide pads': 'wide', 'lopsided pads': 'lopsided'}


def plan_to_finish(number):
    """Returns the plan of the block with this number, and the dice for the rest of it."""
    dice = Dice(number)
    plan = Plan(dice)
    plan.route(dice)
    plan.far, plan.odd_names = False, dice.chance(0.1)
    turn = number - TO_FINISH
    if turn % LIMITS_EVERY == 0:
        be_about_limits(plan, dice)
    else:
        family, count = FAMILIES[turn % len(FAMILIES)], NETS[turn // len(FAMILIES) % len(NETS)]
        be_for(plan, family, count, dice)
    plan.family = f'to finish, {plan.family}'
    return plan, dice


def be_about_limits(plan, dice):
    """Makes the grid one of about as many slots as may be, with no open nets, or about as many tracks."""
    plan.family, plan.commands = 'limits', COMMANDS
    plan.limits, plan.sound, plan.nets = dice.one_of(('slots', 'tracks')), True, dice.below(4)
    plan.terminals = 1 if plan.limits == 'slots' else 2


def be_for(plan, family, count, dice):
    """Makes it a small block with so many nets, which has what its family is about, and in some cases what others are about."""
    plan.family, plan.count, plan.nets = family, count, count
    plan.terminals = dice.between(3, 6) if family == 'terminals' else dice.one_of((None, 2, 2, 3))
    plan.dense, plan.sound, plan.pins, plan.blocks, plan.special_nets = True, True, dice.between(2, 5), dice.below(2), dice.below(2)
    plan.components, plan.rows, plan.room = dice.between(2, 2 + count), dice.between(1, 2 + count // 10), dice.one_of((1.0, 1.2, 1.5))
    plan.design_pins, plan.margin = dice.between(count // 2, 2 * count), dice.between(1, 2)
    plan.routing_layers = dice.one_of((2, 2, 2, 3, 3, 4))

    def has(name, part):
        return family == name or dice.chance(part)
    plan.uneven = has('uneven tracks', 0.2)
    plan.pads = PADS.get(family) or dice.one_of((None, None, None, *PADS.values()))
    plan.far_cuts = has('cuts', 0.2)
    plan.walls = has('walls', 0.2)
    plan.kept = dice.one_of((0.3, 0.6, 0.9)) if has('earlier wires', 0.2) else 0.0
    if has('blockages', 0.2):
        plan.has_blockages, plan.blockages, plan.layer_blockages = True, dice.between(1, 8), dice.one_of((0.7, 1.0))
    plan.reached = dice.chance(0.9)
    plan.attempts = 3 if plan.reached else 1
    plan.contested = count <= MOST_ROUTED
    plan.commands = COMMANDS if plan.contested else ('check', 'finish')
