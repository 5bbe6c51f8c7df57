"""The die, the rows and the tracks."""
from math import isqrt

from answer.grid import FINISH_LIMIT
from answer.model import Row, Tracks

# Nearly as far from the origin as numbers may be.
FAR = 1990000000

class Floorplan:
    """The lower left corner of the rows, the rows, the die around them, and the tracks."""

    def __init__(self, dice, plan, library, widths):
        pitch = plan.pitch
        corner = dice.between(-30, 30) * pitch, dice.between(-30, 30) * pitch
        if dice.chance(0.5):
            corner = corner[0] + dice.below(pitch), corner[1] + dice.below(pitch)
        if plan.far:
            corner = corner[0] + dice.one_of((-FAR, 0, FAR)), corner[1] + dice.one_of((-FAR, FAR))
        self.x, self.y = corner
        self.rows = rows(dice, plan, library, corner, widths)
        self.die = die(dice, plan, library, corner, self.rows)
        self.tracks = tracks(dice, plan, library, self.die, corner)


def rows(dice, plan, library, corner, widths):
    """Returns the rows; widths has the width of the components of each site together."""
    if not library.sites:
        return []
    found = []
    y = corner[1]
    for number in range(plan.rows):
        site = number % len(library.sites) if number < len(library.sites) else dice.below(len(library.sites))
        width, height = library.sites[site].width, library.sites[site].height
        shares = max(1, len(range(site, plan.rows, len(library.sites))))
        count = max(1, int(widths.get(site, width) * plan.room) // width // shares + dice.between(1, 3))
        x = corner[0] + (0 if dice.chance(0.7) else dice.below(4) * (plan.pitch if plan.tidy else 7))
        orientation = ('N', 'FS')[number % 2] if plan.tidy or dice.chance(0.5) else dice.one_of(('N', 'S', 'FN', 'FS'))
        found.append(Row(f'r{number}', site, x, y, orientation, count))
        y += height
        if dice.chance(0.1):
            y += dice.one_of((plan.pitch, plan.pitch if plan.legal or plan.rows > 12 else -height, 2 * plan.pitch))
    return dice.shuffled(found) if dice.chance(0.1) else found


def die(dice, plan, library, corner, found):
    """Returns the die: around the rows, or cutting some of them."""
    sites = library.sites
    right = max([row.x + row.count * sites[row.site].width for row in found] + [corner[0] + 4 * plan.pitch])
    upper = max([row.y + sites[row.site].height for row in found] + [corner[1] + 4 * plan.pitch])
    margin = plan.margin * plan.pitch
    sides = [corner[0] - margin, corner[1] - margin, right + margin, upper + margin]
    if not plan.legal and dice.chance(0.3):
        side = dice.below(4)
        sides[side] += (1 if side < 2 else -1) * dice.below(3 * plan.pitch)
        sides[2], sides[3] = max(sides[2], sides[0] + 1), max(sides[3], sides[1] + 1)
    return tuple(sides)


def tracks(dice, plan, library, area, corner):
    """Returns the statements TRACKS: those along the wires of each routing layer, and others."""
    levels = library.routing_layers()
    found = []
    for number in levels:
        axis = 'X' if library.layers[number].direction == 'VERTICAL' else 'Y'
        found += (uneven_tracks if plan.uneven else tracks_of)(dice, plan, area, corner, axis, (number,))
    if plan.limits:
        return tracks_about_the_limits(dice, plan, library, area, found)
    if plan.uneven:
        return dice.shuffled(found)
    if plan.too_many:
        count = dice.one_of((2100, 2 ** 22 + 1))
        return found + [Tracks(axis, area[side], count, 1, ()) for side, axis in enumerate('XY')]
    if plan.tracks is not None:
        more = [any_tracks(dice, plan, library, area) for _ in range(plan.tracks)]
        return dice.shuffled(dice.kept(found, 0.7) + more)[:plan.tracks]
    if not plan.tidy:
        found = dice.kept(found, 0.7) + [any_tracks(dice, plan, library, area) for _ in range(dice.below(3))]
    if levels and dice.chance(0.15):
        found = [it for axis in 'XY' for it in tracks_of(dice, plan, area, corner, axis, ())]
    return found


def tracks_of(dice, plan, area, corner, axis, layers):
    """Returns tracks at the middle of each pitch from one side of the die to the other, as one statement or as two."""
    side = 'XY'.index(axis)
    first = corner[side] + plan.pitch // 2
    first -= (first - area[side]) // plan.pitch * plan.pitch
    count = (area[side + 2] - first) // plan.pitch + 1
    if count < 1:
        return []
    if count > 2 and dice.chance(0.1):
        return [Tracks(axis, first, (count + 1) // 2, 2 * plan.pitch, layers),
                Tracks(axis, first + plan.pitch, count // 2, 2 * plan.pitch, layers)]
    return [Tracks(axis, first, count, plan.pitch, layers)]


def uneven_tracks(dice, plan, area, corner, axis, layers):
    """Returns the tracks of a layer as two statements: at the middle of pitches, and with another offset and another step."""
    even = tracks_of(dice, plan, area, corner, axis, layers)
    side = 'XY'.index(axis)
    start = area[side] + dice.between(1, 2 * plan.pitch)
    step = dice.one_of((plan.pitch, 2 * plan.pitch, 3 * plan.pitch, dice.between(plan.pitch // 2, 3 * plan.pitch)))
    count = max(1, (area[side + 2] - start) // step + dice.below(2))
    return [dice.one_of(even), Tracks(axis, start, count, step, layers)] if even else []


def tracks_about_the_limits(dice, plan, library, area, found):
    """Returns tracks of which there are just as many as may be, or one more, or whose grid has about as many slots as may be."""
    if plan.limits == 'tracks':
        # (X tracks of a layer whose wires do not run along y give no values)
        idle = [number for number, layer in enumerate(library.layers) if layer.direction != 'VERTICAL']
        count = FINISH_LIMIT - sum(tracks.count for tracks in found) + dice.below(2)
        return found + [Tracks('X', area[0], count, 1, (dice.one_of(idle),))]
    slots = FINISH_LIMIT // len(library.routing_layers())
    columns = dice.one_of((2048, 4096, isqrt(slots) + dice.between(-9, 9)))
    counts = columns, slots // columns + dice.below(2)
    return [Tracks(axis, area[side], counts[side], dice.between(1, 3), ()) for side, axis in enumerate('XY')]


def any_tracks(dice, plan, library, area):
    """Returns tracks anywhere, of any layers."""
    axis = dice.one_of('XY')
    side = 'XY'.index(axis)
    start = area[side] + dice.below(3 * plan.pitch) - plan.pitch
    step = dice.one_of((plan.pitch, plan.pitch // 2, 2 * plan.pitch, dice.between(1 + plan.pitch // 3, 2 * plan.pitch)))
    count = min(60, dice.between(1, 1 + max(1, (area[side + 2] - area[side]) // step)))
    layers = dice.some_of(range(len(library.layers)), dice.below(4))
    return Tracks(axis, start, count, step, tuple(layers))
