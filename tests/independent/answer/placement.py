"""The violations of placement: Unplaced, Outside, OffSite, Overlap and Blocked."""
from . import geometry
from .geometry import MIRRORED


def box_of(design, number):
    """Returns the box of a component, or None if it has no place."""
    component = design.components[number]
    if component.place is None:
        return None
    macro = design.macro_of(number)
    x, y = component.place
    width, height = geometry.oriented_size(macro.width, macro.height, component.orientation)
    return x, y, x + width, y + height


def boxes(design):
    """Returns the box of each component, with None for those without a place."""
    return [box_of(design, number) for number in range(len(design.components))]


def fits(macro, orientation, row):
    """Whether an orientation of a macro fits a row."""
    return orientation == row.orientation or macro.mirrors and MIRRORED[orientation] == row.orientation


def is_on_sites(macro, orientation, box, row, site):
    """Whether a row has consecutive sites that cover exactly this box, in this orientation of the macro."""
    first, off = divmod(box[0] - row.x, site.width)
    count, rest = divmod(box[2] - box[0], site.width)
    level = box[1] == row.y and box[3] == row.y + site.height
    return fits(macro, orientation, row) and level and not off and not rest and 0 <= first and first + count <= row.count


def is_off_sites(design, rows_at, number, box):
    """Whether a placed component violates OffSite; rows_at has the rows by their sites and heights."""
    macro = design.macro_of(number)
    if macro.site is None:
        return False
    orientation, site = design.components[number].orientation, design.library.sites[macro.site]
    return not any(is_on_sites(macro, orientation, box, row, site) for row in rows_at.get((macro.site, box[1]), ()))


def is_blocked(design, rects, number, box):
    """Whether a placed component violates Blocked; rects has those of placement blockages."""
    return design.is_movable(number) and any(geometry.overlap(box, rect) for rect in rects)


def faults(design):
    """Returns the violations of placement in order, each its kind and the numbers of its components."""
    rows_at = {}
    for row in design.rows:
        rows_at.setdefault((row.site, row.y), []).append(row)
    places = boxes(design)
    placed = [(number, box) for number, box in enumerate(places) if box]
    unplaced = [('UNPLACED', number) for number, box in enumerate(places) if not box]
    outside = [('OUTSIDE', number) for number, box in placed if not geometry.holds(design.die, box)]
    off = [('OFFSITE', number) for number, box in placed if is_off_sites(design, rows_at, number, box)]
    near = geometry.near_pairs([box for _, box in placed], 0)
    pairs = [(a, b) for a, b in near if geometry.overlap(placed[a][1], placed[b][1])]
    overlaps = [('OVERLAP', placed[a][0], placed[b][0]) for a, b in sorted(pairs)]
    rects = design.placement_rects()
    blocked = [('BLOCKED', number) for number, box in placed if is_blocked(design, rects, number, box)]
    return unplaced + outside + off + overlaps + blocked


def fault_lines(design, found):
    """Returns the lines of violations of placement."""
    return [' '.join([kind, *(design.components[number].name for number in numbers)]) for kind, *numbers in found]
