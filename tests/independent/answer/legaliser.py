"""Legalises a design."""
from typing import List, NamedTuple, Optional, Tuple

from . import geometry, placement
from .model import Design


class Legalised(NamedTuple):
    """A legalised design and how far each component is from its start."""
    design: Design
    distances: List[int]


class NotLegalised(Exception):
    """A design is not legalised; lines is what is printed."""

    def __init__(self, lines):
        super().__init__(lines)
        self.lines = lines


def start_of(design, number):
    """Returns the point from which the move of a component is measured."""
    return design.components[number].place or design.die[:2]


def legalised(design):
    """Returns the legalised design, or raises NotLegalised."""
    if not placement.faults(design):
        return Legalised(design, [0] * len(design.components))
    movable = [number for number in range(len(design.components)) if design.is_movable(number)]
    refuse_staying_faults(design, set(movable))
    refuse_without_site(design, movable)
    sites = FreeSites(design)
    for number, box in enumerate(placement.boxes(design)):
        if box and not design.is_movable(number):
            sites.take(box)
    for rect in design.placement_rects():
        sites.take(rect)
    components = list(design.components)
    distances = [0] * len(components)
    order = sorted(movable, key=lambda it: (-design.macro_of(it).width, start_of(design, it)[0], it))
    for number in order:
        best = sites.best_position(number)
        if best is None:
            raise NotLegalised([f'NOROOM {components[number].name}'])
        distances[number], place, orientation = best
        components[number] = components[number]._replace(status='PLACED', place=place, orientation=orientation)
        macro = design.macro_of(number)
        sites.take((place[0], place[1], place[0] + macro.width, place[1] + macro.height))
    return Legalised(design._replace(components=components), distances)


def refuse_staying_faults(design, movable):
    """Raises NotLegalised if components that stay violate a rule of placement among themselves."""
    found = [fault for fault in placement.faults(design) if not movable.intersection(fault[1:])]
    if found:
        raise NotLegalised(placement.fault_lines(design, found) + [f'FIXEDILLEGAL {len(found)}'])


def refuse_without_site(design, movable):
    """Raises NotLegalised if a movable component fits no row."""
    with_rows = {row.site for row in design.rows}
    for number in movable:
        macro = design.macro_of(number)
        site = design.library.sites[macro.site]
        if macro.height != site.height or macro.width % site.width or macro.site not in with_rows:
            raise NotLegalised([f'NOSITE {design.components[number].name}'])


class FreeSites:
    """The sites of each row that nothing blocks: a byte a site, 0 where it is free."""

    def __init__(self, design):
        self.design = design
        self.rows = [(row, design.library.sites[row.site], bytearray(row.count)) for row in design.rows]
        for row, site, blocked in self.rows:
            for number in range(row.count):
                x = row.x + number * site.width
                blocked[number] = not geometry.holds(design.die, (x, row.y, x + site.width, row.y + site.height))

    def take(self, box):
        """Blocks all sites that share a unit square with a box."""
        for row, site, blocked in self.rows:
            if row.y < box[3] and box[1] < row.y + site.height:
                first = max((box[0] - row.x) // site.width, 0)
                last = min((box[2] - 1 - row.x) // site.width, row.count - 1)
                for number in range(first, last + 1):
                    blocked[number] = 1

    def best_position(self, number):
        """Returns the distance, the place and the orientation of the best free position of a component, or None."""
        component, macro = self.design.components[number], self.design.macro_of(number)
        start = start_of(self.design, number)
        best = None  # type: Optional[Tuple]
        for place, (row, site, blocked) in enumerate(self.rows):
            up = abs(row.y - start[1])
            if row.site != macro.site or best and up > best[0]:
                continue
            turned, orientation = 0, row.orientation
            if component.place is not None:
                keeps = placement.fits(macro, component.orientation, row)
                turned, orientation = (0, component.orientation) if keeps else (1, row.orientation)
            for first in nearest_sites(blocked, macro.width // site.width, (start[0] - row.x) // site.width):
                x = row.x + first * site.width
                key = (abs(x - start[0]) + up, turned, place, first, (x, row.y), orientation)
                best = min(best, key) if best else key
        return best and (best[0], *best[4:])


def nearest_sites(blocked, count, start):
    """Returns the first sites of so many free ones in turn: the last one up to site start, and the first one behind it."""
    free = bytes(count)
    left = blocked.rfind(free, 0, max(start + count, 0)) if start >= 0 else -1
    right = blocked.find(free, max(start + 1, 0))
    return [first for first in (left, right) if first >= 0]
