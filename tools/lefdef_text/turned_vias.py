"""Vias that wires name with an orientation (docs/FORMATS.md, "Wiring")."""
from .generated_via import MOST_SHAPES
from .library import Via
from .rects import ORIENTATIONS, turned


class TurnedVias:
    """What a reader of nets has for vias that are turned. `section_at` is where the section of nets begins, until it was gone through."""
    section_at = None

    def turned_via(self, via, orientation):
        """Returns a via in an orientation, which was taken last. The first time in a section, all vias that its words name with one are made."""
        if self.section_at is not None:
            text, begin, self.section_at = self.text, self.section_at, None
            words = text.words
            for at in range(begin, text.count):
                if words[at].upper() == 'END':
                    break
                if words[at] in self.design.vias and words[at + 1].upper() in ORIENTATIONS:
                    self.make_turned(self.design.vias[words[at]], words[at + 1].upper(), at)
        return self.design.turned_vias.get((via.name, orientation), via)

    def make_turned(self, via, orientation, at):
        """Keeps which via stands for a via in an orientation: itself where it is the same, or else a new one; the via's name is the word number `at`."""
        design, pair = self.design, (via.name, orientation)
        shapes = [(layer, turned(rect, 0, 0, orientation)) for layer, rect in via.shapes]
        if pair in design.turned_vias or shapes == via.shapes:
            design.turned_vias.setdefault(pair, via)
            return
        if sum(len(it.shapes) for name, it in design.vias.items() if name not in self.library.vias) + len(shapes) > MOST_SHAPES:
            self.text.refuse(f'there are more than {MOST_SHAPES:,} rectangles of vias', at, 'TooMany')
        name, number = '_'.join(pair), 0
        while name in design.vias:
            number += 1
            name = f'{"_".join(pair)}_{number}'
        design.vias[name] = design.turned_vias[pair] = Via(name, False, via.lower, via.upper, shapes)
