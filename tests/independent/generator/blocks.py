"""The block of a number: LEF texts and a DEF text."""
from typing import List, NamedTuple, Tuple

from answer.model import Design
from answer.profile import Profile
from . import floorplan as plans
from .blockages import blockages
from .cells import cells
from .contests import design_to_finish
from .def_writer import DefWriter
from .finish_plan import TO_FINISH, plan_to_finish
from .lef_writer import LefWriter
from .netlist import Netlist, design_pins
from .placing import Placing, chosen_macros, widths_of_sites
from .plan import plan_of
from .technology import technology
from .wide_def_writer import WideDefWriter
from .wide_lef_writer import WideLefWriter
from .wires import WireMaker, own_vias, thinned


class Block(NamedTuple):
    """A block, with the number that decides it, what it is for, the commands that are asked of it, and the profile and its options."""
    number: int
    family: str
    commands: Tuple[str, ...]
    lefs: List[str]
    text: str
    profile: Profile
    options: Tuple[str, ...]


def block_of(number):
    """Returns the block with this number."""
    plan, dice = plan_to_finish(number) if number >= TO_FINISH else plan_of(number)
    found = technology(dice, plan)
    found.library.macros.extend(cells(dice, plan, found.library))
    design = design_to_finish(dice, plan, lambda: design_of(dice, plan, found.library))
    if plan.thin:
        design = thinned(dice, design)
    writers = (WideLefWriter, WideDefWriter) if plan.profile.wide else (LefWriter, DefWriter)
    lefs, text = writers[0](dice, plan, found).texts(), writers[1](dice, plan, design).text()
    family = f'wide, {plan.family}' if plan.profile.wide else plan.family
    return Block(number, f'{family} {plan.count}', plan.commands, lefs, text, plan.profile, options_of(dice, plan.profile))


def options_of(dice, profile):
    """Returns the options of a profile, in any order."""
    options = [['--wide']] if profile.wide else []
    options += [['--masks', 'drop']] if profile.drops_masks else []
    options += [['--soft', profile.soft]] if profile.soft else []
    return tuple(word for option in (dice.shuffled(options) if profile.wide else []) for word in option)


def design_of(dice, plan, library):
    """Returns the design of a plan."""
    macros = chosen_macros(dice, plan, library)
    area = plans.Floorplan(dice, plan, library, widths_of_sites(library, macros))
    components = Placing(dice, plan, library, area).components(macros)
    pins = design_pins(dice, plan, library, area)
    netlist = Netlist(dice, plan, library, components, pins)
    vias = own_vias(dice, plan, library)
    maker = WireMaker(dice, plan, library, vias, points(dice, plan, area, components))
    nets = [net._replace(wires=maker.wires(False, share(dice, plan, number))) for number, net in enumerate(netlist.nets)]
    special = [net._replace(wires=maker.wires(True, share(dice, plan, number))) for number, net in enumerate(netlist.special_nets)]
    words = [dice.one_of((None, '"/"', '"|"')), dice.one_of((None, '"[]"', '"<>"'))]
    design = Design(library, dice.one_of(('top', 'block', 'a-b_c[1]', 'a;')), *words, plan.units, area.die, area.rows, area.tracks, vias,
                  components, netlist.pins, [], special, nets)
    return design._replace(blockages=blockages(dice, plan, design))


def share(dice, plan, number):
    """Returns how many wires a net gets: the first ones what the plan says."""
    return plan.wires if number < 2 else dice.below(plan.wires + 1)


def points(dice, plan, area, components):
    """Returns points for wires to begin at: on the lattice of the pitch near components."""
    if plan.corners:
        return [(area.x, area.y)]
    half = max(1, plan.pitch // 2)
    places = [it.place for it in dice.some_of(components, 20) if it.place] + [(area.x, area.y)]
    if not plan.tidy:
        return [(x + dice.between(-2, 4) * half, y + dice.between(-2, 4) * half) for x, y in places]
    near = [(x - area.x) // plan.pitch + dice.between(0, 3) for x, _ in places], [(y - area.y) // plan.pitch + dice.between(0, 5) for _, y in places]
    return [(area.x + half + x * plan.pitch, area.y + half + y * plan.pitch) for x, y in zip(*near)]
