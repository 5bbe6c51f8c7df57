"""Components at legal places, near them, or anywhere."""
from answer import geometry
from answer.geometry import MIRRORED, ORIENTATIONS
from answer.model import Component
from .odd_words import odd_name


def chosen_macros(dice, plan, library):
    """Returns the number of the macro of each component: most have a site."""
    on_sites = [number for number, macro in enumerate(library.macros) if macro.site is not None]
    others = [number for number, macro in enumerate(library.macros) if macro.site is None]
    if not library.macros:
        return []
    few = 0.02 if plan.components > 100 else 0.1
    return [dice.one_of(others if others and (not on_sites or dice.chance(few)) else on_sites) for _ in range(plan.components)]


def widths_of_sites(library, macros):
    """Returns the width of the components of each site together."""
    widths = {}
    for number in macros:
        macro = library.macros[number]
        if macro.site is not None:
            widths[macro.site] = widths.get(macro.site, 0) + macro.width
    return widths


class Placing:
    """Places components one after another into rows, and blocks between them."""

    def __init__(self, dice, plan, library, floorplan):
        self.dice = dice
        self.plan = plan
        self.library = library
        self.floorplan = floorplan
        self.ends = [row.x for row in floorplan.rows]
        self.blocks = []
        self.cells = []

    def components(self, macros):
        """Returns the components of these macros, in an order that is not that of their places."""
        order = self.dice.shuffled(range(len(macros)))
        order.sort(key=lambda it: self.library.macros[macros[it]].site is not None)
        places = {number: self.legal_place(self.library.macros[macros[number]]) for number in order}
        found = [self.component(self.name(number), macro, places[number]) for number, macro in enumerate(macros)]
        return [it for it in found if it]

    def name(self, number):
        """Returns the name of the component with this number."""
        return odd_name(self.dice, number) if self.plan.odd_names and self.dice.chance(0.5) else f'u{number}'

    def legal_place(self, macro):
        """Returns a legal place and orientation, or None."""
        on_sites = macro.site is not None
        found = self.place_in_rows(macro) if on_sites else self.place_of_block(macro)
        if found:
            (self.cells if on_sites else self.blocks).append(self.box(macro, *found))
        return found

    @staticmethod
    def box(macro, place, orientation):
        width, height = geometry.oriented_size(macro.width, macro.height, orientation)
        return place[0], place[1], place[0] + width, place[1] + height

    def place_in_rows(self, macro):
        """Returns the next place in a row, behind a gap or not."""
        site = self.library.sites[macro.site]
        rows = [number for number, row in enumerate(self.floorplan.rows) if row.site == macro.site]
        for number in self.dice.shuffled(rows):
            row = self.floorplan.rows[number]
            x = self.ends[number] + (site.width * self.dice.below(3) if self.dice.chance(0.3) and self.plan.room > 1.2 else 0)
            orientation = MIRRORED[row.orientation] if macro.mirrors and self.dice.chance(0.4) else row.orientation
            box = self.box(macro, (x, row.y), orientation)
            if box[2] <= row.x + row.count * site.width and self.is_free(box):
                self.ends[number] = box[2]
                return (x, row.y), orientation
        return None

    def place_of_block(self, macro):
        """Returns a free place in the die, on the lattice of the pitch, or None if none of some places is free."""
        pitch = self.plan.pitch
        left, lower, right, upper = self.floorplan.die
        for _ in range(10):
            x = self.floorplan.x + self.dice.between((left - self.floorplan.x) // pitch, (right - self.floorplan.x) // pitch) * pitch
            y = self.floorplan.y + self.dice.between((lower - self.floorplan.y) // pitch, (upper - self.floorplan.y) // pitch) * pitch
            orientation = self.dice.one_of(ORIENTATIONS)
            if self.is_free(self.box(macro, (x, y), orientation)):
                return (x, y), orientation
        return None

    def other_site(self, macro, place):
        """Returns a place at the end of the row, or one as far from a site as from the next, from a row as from the next, or both."""
        dice, site = self.dice, self.library.sites[macro.site]
        if dice.chance(0.4):
            row = next(row for row in self.floorplan.rows if (row.site, row.y) == (macro.site, place[1]))
            return row.x + (row.count - dice.between(1, 3)) * site.width, row.y
        return place[0] + dice.one_of((0, site.width // 2)), place[1] + dice.one_of((0, site.height // 2))

    def is_free(self, box):
        """Whether a box is in the die and overlaps no block and none of the last cells; in a large plan rows do not overlap."""
        others = self.blocks + self.cells[-60:]
        return geometry.holds(self.floorplan.die, box) and not any(geometry.overlap(box, other) for other in others)

    def component(self, name, macro, found):
        """Returns the component at its legal place or at another one, or None."""
        dice, plan = self.dice, self.plan
        if self.library.macros[macro].site is None and not plan.legal and plan.components < 100 and dice.chance(0.05):
            return Component(name, macro, 'UNPLACED', None, None)
        if not found and (plan.legal or self.library.macros[macro].site is None):
            return None
        if found and (plan.legal or self.library.macros[macro].site is None or dice.chance(0.2)):
            status = dice.one_of(('FIXED', 'COVER')) if dice.chance(0.2) else 'PLACED'
            place, orientation = found
            if not plan.legal and plan.components < 100 and dice.chance(0.04):
                place = place[0] + dice.between(-1, 1), place[1] + dice.one_of((0, 1, plan.pitch))
            return Component(name, macro, status, place, orientation)
        if dice.chance(0.15):
            return Component(name, macro, 'UNPLACED', None, None)
        if not found or dice.chance(0.2):
            left, lower, right, upper = self.floorplan.die
            place, orientation = (dice.between(left - 9, right + 9), dice.between(lower - 9, upper + 9)), dice.one_of(ORIENTATIONS)
        else:
            place, orientation = found
            reach = dice.one_of((0, 1, plan.pitch, 4 * plan.pitch))
            place = place[0] + dice.between(-reach, reach), place[1] + dice.between(-reach, reach)
            if dice.chance(0.4):
                place = self.other_site(self.library.macros[macro], found[0])
            orientation = dice.one_of((orientation, orientation, MIRRORED[orientation], dice.one_of(ORIENTATIONS)))
        return Component(name, macro, 'PLACED', place, orientation)
