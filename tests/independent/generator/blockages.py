"""Blockages of both kinds: most of them lie where a design that is to be legal stays legal."""
from answer import geometry, metal, placement
from answer.model import Blockage


def blockages(dice, plan, design):
    """Returns the blockages of a design that has none yet."""
    if not plan.blockages:
        return []
    maker = BlockageMaker(dice, plan, design)
    return [it for it in (maker.blockage() for _ in range(plan.blockages)) if it]


class BlockageMaker:
    """Makes blockages near the components and the tracks of a design."""

    def __init__(self, dice, plan, design):
        self.dice = dice
        self.plan = plan
        self.design = design
        self.layers = [number for number, layer in enumerate(design.library.layers) if layer.has_metal()]
        self.metal = metal.metal(design)
        boxes = placement.boxes(design)
        self.standing = [box for number, box in enumerate(boxes) if box and design.is_movable(number)]

    def blockage(self):
        """Returns a blockage, or None if none of its rectangles may stay."""
        dice = self.dice
        layer = dice.one_of(self.layers) if self.layers and dice.chance(self.plan.layer_blockages) else None
        rects = [self.rect(layer) for _ in range(dice.one_of((1, 1, 1, 2, 3)))]
        is_any = not self.plan.legal or self.plan.blockages < 20 and dice.chance(0.05)
        rects = [rect for rect in rects if is_any or self.may_stay(layer, rect)]
        return Blockage(layer, tuple(rects)) if rects else None

    def may_stay(self, layer, rect):
        """Whether a rectangle of a layer, or of a placement blockage, leaves what is there legal."""
        if layer is None:
            return not any(geometry.overlap(rect, box) for box in self.standing)
        spacing = self.design.library.layers[layer].spacing
        shapes = [shape for shape in self.metal if shape.layer == layer and shape.owner[0] != 'OBS']
        return not any(geometry.common(rect, it.rect) or geometry.squared_distance(rect, it.rect) < spacing ** 2 for it in shapes)

    def rect(self, layer):
        """Returns a rectangle: over sites, beside a component, around a crossing of tracks, or anywhere, also outside the die."""
        dice, pitch = self.dice, self.plan.pitch
        if layer is None and self.design.rows and dice.chance(0.5):
            return self.rect_of_sites()
        if self.standing and dice.chance(0.3):
            return self.rect_beside(dice.one_of(self.standing))
        x, y = self.point()
        if layer is not None and self.plan.tidy:
            half = max(1, (self.design.library.layers[layer].width or pitch // 2) // 2)
            reach = dice.one_of((half, half, pitch, dice.between(1, pitch)))
            across = dice.chance(0.5)
            return x - (reach if across else half), y - (half if across else reach), x + reach, y + half
        return x, y, x + dice.between(1, 4 * pitch), y + dice.between(1, 6 * pitch)

    def point(self):
        """Returns a point of the die, on the lattice of its tracks or not, or one near the die."""
        dice, plan = self.dice, self.plan
        left, lower, right, upper = self.design.die
        if not plan.tidy or dice.chance(0.2):
            return dice.between(left - 9, right + 9), dice.between(lower - 9, upper + 9)
        x = [tracks.start for tracks in self.design.tracks if tracks.axis == 'X'] or [left]
        y = [tracks.start for tracks in self.design.tracks if tracks.axis == 'Y'] or [lower]
        return x[0] + dice.below((right - left) // plan.pitch + 1) * plan.pitch, y[0] + dice.below((upper - lower) // plan.pitch + 1) * plan.pitch

    def rect_of_sites(self):
        """Returns a rectangle over some sites of a row, a whole number of them or not."""
        dice = self.dice
        row = dice.one_of(self.design.rows)
        site = self.design.library.sites[row.site]
        first = dice.below(row.count)
        left, right = row.x + first * site.width, row.x + min(row.count, first + dice.between(1, 3)) * site.width
        if dice.chance(0.3):
            left, right = left + dice.between(-1, 1), right + dice.between(0, 1)
        lower, upper = dice.one_of(((row.y, row.y + site.height), (row.y - 1, row.y + 1), (row.y + site.height - 1, row.y + 2 * site.height)))
        return left, lower, max(right, left + 1), upper

    def rect_beside(self, box):
        """Returns a rectangle that abuts a box, or that shares a unit square with it."""
        dice, reach = self.dice, self.plan.pitch
        left, lower, right, upper = box
        share = 1 if dice.chance(0.2) else 0
        side = dice.below(4)
        if side == 0:
            return left - reach, lower, left + share, upper
        if side == 1:
            return right - share, lower, right + reach, upper
        if side == 2:
            return left, lower - reach, right, lower + share
        return left, upper - share, right, upper + reach
