"""Vias that are larger than wires, so that one is too near to what lies on the next track, and not the same to both sides."""


def cut_spacing(dice, plan):
    """Returns a spacing of cuts that those of neighbouring tracks do not keep."""
    return dice.between(plan.pitch, 5 * plan.pitch // 2)


def pad(dice, plan, layers, number):
    """Returns the rectangle of a via on the routing layer of this number."""
    is_lowest = not any(layer.routes() for layer in layers[:number])
    left, lower, right, upper = (reach(dice, plan, layers[number], is_lowest) for _ in range(4))
    return (-left, -lower, right, upper) if plan.pads == 'lopsided' else (-left, -lower, left, lower)


def reach(dice, plan, layer, is_lowest):
    """Returns how far a via reaches: as far as a wire, or so that a wire on the next track keeps the spacing, or one does not."""
    half = layer.width // 2
    free = plan.pitch - half - layer.spacing
    # (pins are on the lowest layer, beside one another, and most of them are to be within reach)
    beyond = free if is_lowest and dice.chance(0.8) else dice.between(free, plan.pitch - 1)
    return dice.one_of((half, half, dice.between(half, free), free, beyond))
