"""Macros: cells on sites, and blocks without one."""
from answer import geometry
from answer.model import Macro, MacroPin
from .walls import with_walls


def cells(dice, plan, library):
    """Returns the macros: first those with a site."""
    found = [cell(dice, plan, library, number) for number in range(plan.macros if library.sites else 0)]
    found += [block(dice, plan, library, number) for number in range(plan.blocks)]
    return [with_walls(dice, plan, library, macro) for macro in found] if plan.walls else found


def cell(dice, plan, library, number):
    """Returns a macro with a site, of a whole number of sites, but of another size in rare cases."""
    place = dice.below(len(library.sites))
    site = library.sites[place]
    least, most = (2, 4) if plan.dense else (1, 6 if number else 2)
    width, height = site.width * dice.between(least, most), site.height
    if not plan.sound and dice.chance(0.15):
        width, height = dice.one_of(((width + 1, height), (width, height * 2), (width, height + plan.pitch)))
    return Macro(f'C{number}', width, height, dice.chance(0.6), place, pins(dice, plan, library, width, height),
                 obstructions(dice, plan, library, width, height))


def block(dice, plan, library, number):
    """Returns a macro without a site."""
    side = plan.pitch if plan.tidy else 1
    width, height = (side * dice.between(1, 1 + 8 * plan.pitch // side) for _ in range(2))
    most = (4 if plan.dense else 12) * plan.pitch
    width, height = min(width, most), min(height, most)
    return Macro(f'B{number}', width, height, dice.chance(0.5), None, pins(dice, plan, library, width, height),
                 obstructions(dice, plan, library, width, height))


def lattice(plan, width, height):
    """Returns the points of a macro at the crossings of tracks, but not those at its lower and upper edge."""
    half = plan.pitch // 2
    rows = range(half, height, plan.pitch)
    rows = rows[1:-1] if len(rows) > 2 else rows
    return [(x, y) for x in range(half, width, plan.pitch) for y in rows]


def pins(dice, plan, library, width, height):
    """Returns the pins of a macro: those of signals, and power and ground in some."""
    levels = library.routing_layers()
    free = dice.shuffled(lattice(plan, width, height))
    found = []
    for number in range(plan.pins):
        if plan.tidy and not free:
            break
        count = plan.rectangles if not plan.tidy else min(plan.rectangles, 1 + len(free) // 3)
        shapes = [pin_shape(dice, plan, library, levels, free) for _ in range(count)] if levels else []
        use = None if dice.chance(0.95) else dice.one_of(('POWER', 'GROUND'))
        found.append(MacroPin('ABCDEFGHIJKLM'[number % 13] + 'x' * (number // 13), use, tuple(it for it in shapes if it)))
    if plan.rails and levels:
        found += rails(library, levels[0], plan, width, height)
    return tuple(dice.shuffled(found))


def pin_shape(dice, plan, library, levels, free):
    """Returns a shape of a pin: around a free crossing, which it takes, or anywhere if the plan is not tidy."""
    layer = levels[0] if dice.chance(0.8) else dice.one_of(levels)
    if not plan.tidy:
        return dice.one_of(levels + metal_layers(library)), any_rect(dice, plan)
    if not free:
        return None
    half = library.layers[layer].width // 2
    rect = geometry.around(free.pop(), half)
    if dice.chance(0.2):
        rect = rect[0], rect[1], rect[2], rect[3] + (plan.pitch if dice.chance(0.5) else dice.below(half + 1))
    return layer, rect


def metal_layers(library):
    """Returns the numbers of the layers with metal."""
    return [number for number, layer in enumerate(library.layers) if layer.has_metal()]


def any_rect(dice, plan):
    """Returns a rectangle near the origin, inside of a macro or not."""
    x, y = dice.between(-plan.pitch, 4 * plan.pitch), dice.between(-plan.pitch, 6 * plan.pitch)
    return x, y, x + dice.between(1, plan.pitch), y + dice.between(1, 2 * plan.pitch)


def any_square(dice, plan):
    """Returns one of the squares of a lattice around the origin, mostly one of those that share corners and no edges."""
    x, y = dice.between(-3, 2), dice.between(-3, 2)
    if (x + y) % 2 and dice.chance(0.9):
        y += 1
    return x * plan.pitch, y * plan.pitch, (x + 1) * plan.pitch, (y + 1) * plan.pitch


def rails(library, layer, plan, width, height):
    """Returns the pins of power and of ground, along the upper and the lower edge."""
    half = max(1, min(library.layers[layer].width // 2, plan.pitch // 4))
    return [MacroPin('VDD', 'POWER', ((layer, (0, height - half, width, height + half)),)),
            MacroPin('VSS', 'GROUND', ((layer, (0, -half, width, half)),))]


def obstructions(dice, plan, library, width, height):
    """Returns the obstructions of a macro."""
    layers = metal_layers(library)
    found = []
    for _ in range(plan.obstructions if layers else 0):
        layer = dice.one_of(layers)
        if plan.tidy:
            half = (library.layers[layer].width or plan.pitch // 2) // 2
            points = lattice(plan, width, height)
            found += [(layer, geometry.around(dice.one_of(points), max(1, half)))] if points else []
        else:
            found.append((layer, any_rect(dice, plan)))
    return tuple(found)
