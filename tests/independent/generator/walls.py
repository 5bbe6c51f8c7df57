"""Obstructions of macros that lie across several tracks."""
from answer import geometry


def with_walls(dice, plan, library, macro):
    """Returns a macro with more obstructions, most of which leave its pins free."""
    found = [wall(dice, plan, library, macro) for _ in range(dice.between(1, 3))]
    found = [it for it in found if dice.chance(0.1) or leaves_pins(plan, library, macro, it)]
    return macro._replace(obstructions=macro.obstructions + tuple(found))


def wall(dice, plan, library, macro):
    """Returns an obstruction that covers some crossings of tracks in a line."""
    layer = dice.one_of([number for number, layer in enumerate(library.layers) if layer.has_metal()])
    pitch = plan.pitch
    half = max(1, (library.layers[layer].width or pitch // 2) // 2)
    x = pitch // 2 + dice.below(max(1, macro.width // pitch)) * pitch
    y = pitch // 2 + dice.below(max(1, macro.height // pitch)) * pitch
    far = dice.between(1, 4) * pitch
    across = dice.chance(0.5)
    return layer, (x - half, y - half, x + (far if across else half), y + (half if across else far))


def leaves_pins(plan, library, macro, shape):
    """Whether an obstruction leaves room for wires and vias on the pins of its macro."""
    layer, rect = shape
    near = library.layers[layer].spacing + plan.pitch // 2
    pins = [it for pin in macro.pins for number, it in pin.shapes if number == layer or not library.layers[layer].routes()]
    return not any(geometry.squared_distance(rect, it) < near ** 2 for it in pins)
