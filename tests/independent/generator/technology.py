"""Layers, vias and sites."""
from typing import List, NamedTuple

from answer import geometry
from answer.model import Layer, Library, Site, Via
from .pads import cut_spacing, pad


class Technology(NamedTuple):
    """A library without macros, and the texts of vias that are not good."""
    library: Library
    odd_vias: List[str]


OTHER_KINDS = ('MASTERSLICE', 'OVERLAP', 'IMPLANT')


def technology(dice, plan):
    """Returns layers, vias and sites."""
    library = Library(layers(dice, plan), [], [], [], {})
    levels = library.routing_layers()
    for lower, upper in zip(levels, levels[1:]):
        cuts = [number for number in range(lower + 1, upper) if library.layers[number].kind == 'CUT']
        if cuts:
            library.vias.extend(vias(dice, plan, library.layers, (lower, dice.one_of(cuts), upper)))
    library.sites.extend(sites(dice, plan))
    return Technology(library, [odd_via(dice, library.layers, number) for number in range(dice.below(3))] if library.layers else [])


def layers(dice, plan):
    """Returns the layers, bottom up."""
    found = []
    if dice.chance(0.3):
        found.append(Layer('poly', dice.one_of(OTHER_KINDS), None, None, 0))
    first = dice.chance(0.7)
    for level in range(plan.routing_layers):
        if level:
            found += cut_layers(dice, plan, level)
        horizontal = (level % 2 == 0) == first if plan.sound or dice.chance(0.8) else dice.chance(0.5)
        width = 2 * dice.between(1, plan.pitch // 4)
        found.append(Layer(f'm{level + 1}', 'ROUTING', 'HORIZONTAL' if horizontal else 'VERTICAL', width, spacing(dice, plan, width)))
    return found


def spacing(dice, plan, width):
    """Returns the spacing of a layer with wires of this width; in a tidy plan wires on neighbouring tracks keep it."""
    most = plan.pitch - width
    return dice.one_of((most, dice.between(0, most), most // 2, 0 if plan.tidy else 2 * plan.pitch))


def cut_layers(dice, plan, level):
    """Returns what stands between two routing layers: mostly one layer of cuts."""
    names = [f'v{level}']
    if not plan.sound and dice.chance(0.08):
        names = dice.one_of(([], [f'v{level}', f'w{level}']))
    space = cut_spacing if plan.far_cuts else lambda dice, plan: dice.between(0, plan.pitch // 2)
    between = [Layer(name, 'CUT', None, None, space(dice, plan)) for name in names]
    return between + ([Layer(f'x{level}', dice.one_of(OTHER_KINDS), None, None, 0)] if dice.chance(0.1) else [])


def vias(dice, plan, levels, join):
    """Returns the vias that join two routing layers by a layer of cuts."""
    lower, cut, upper = join
    found = []
    for number in range(dice.one_of((0, 1, 2, 3) if not plan.sound else (1, 1, 2))):
        shapes = [(layer, via_rect(dice, plan, levels, layer)) for layer in (lower, upper)]
        half = max(1, min(levels[lower].width, levels[upper].width) // 2 - dice.below(3))
        cuts = [(cut, geometry.around((0, 0), half))]
        if dice.chance(0.1):
            cuts = [(cut, (-half, -half, 0, half)), (cut, (dice.between(0, half - 1), -half, half, half))]
        found.append(Via(f'V{lower}_{upper}_{number}', tuple(dice.shuffled(shapes + cuts)), dice.chance(0.5), (lower, upper)))
    return found


def via_rect(dice, plan, levels, layer):
    """Returns a rectangle of a via around its point, on a routing layer of these layers."""
    half = levels[layer].width // 2
    if plan.pads:
        return pad(dice, plan, levels, layer)
    if plan.tidy or dice.chance(0.6):
        return geometry.around((0, 0), half if dice.chance(0.8) else dice.between(1, half))
    most = max(2, plan.pitch // 3)
    return -dice.between(1, most), -dice.between(1, most), dice.between(1, most), dice.between(1, most)


def odd_via(dice, layers_, number):
    """Returns the text of a via that is not good."""
    name = dice.one_of((f'odd{number}', ('N', 'taper', 'New')[number]))
    layer = dice.one_of(layers_).name
    body = dice.one_of((f'LAYER {layer} ; RECT -1 -1 1 1 ;', f'VIARULE any ; LAYER {layer} ;', 'RESISTANCE 2 ;',
                        f'LAYER {layer} ; POLYGON 0 0 1 0 1 1 ;', f'LAYER {layer} ; RECT -0.000001 -1 1 0.000001 ;',
                        f'LAYER {layer} ; RECT MASK 1 -1 -1 1 1 ;'))
    if dice.chance(0.5):
        # (one that would be good but for its name, or but for 0 0, which is on an edge)
        edge = name.startswith('odd')
        rect = dice.one_of(('0 -1 1 1', '-1 -1 1 0') if edge else ('-1 -1 1 1', '-0.001 -0.001 0.001 0.001'))
        body = ' '.join(f'LAYER {it.name} ; RECT {rect} ;' for it in [it for it in layers_ if it.has_metal()][:3])
    return f'VIA {name} {dice.one_of(("", "DEFAULT", "GENERATED DEFAULT"))} {body} END {name}\n'


def sites(dice, plan):
    """Returns the sites, of which some have the same height."""
    found = []
    for number in range(plan.sites):
        if plan.dense:
            width, height = plan.pitch, plan.pitch * dice.between(4, 6)
        elif plan.tidy:
            width, height = plan.pitch * dice.between(1, 3), plan.pitch * dice.between(4, 9)
        else:
            width, height = dice.between(1, 3 * plan.pitch), dice.between(1, 9 * plan.pitch)
        if found and dice.chance(0.6):
            height = found[0].height
        found.append(Site(('core', 'wide', 'tall')[number], width, height))
    return found
