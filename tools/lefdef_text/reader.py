"""What the readers of LEF and of DEF texts have: records that are named, polygons, and a profile."""
from .polygon import MOST_SLABS, has_slanted_side, slabs_of
from .profile import NARROW


class Reader:
    """Reads a text, of which `text` has the words."""
    profile = NARROW

    def __init__(self, text):
        self.text = text

    def within(self, profile):
        """Returns the reader, which reads in a profile from now on."""
        self.profile = profile
        return self

    def skip_mask(self):
        """Takes a mask where masks have no effect, and returns whether there was one."""
        text = self.text
        if not self.profile.drops_masks or text.peek() != 'MASK':
            return False
        begin = text.at
        text.take()
        text.whole()
        text.past('MASK', begin)
        return True

    def slabs(self, points, begin):
        """Returns the slabs of the polygon through points, whose word is the word number `begin`."""
        text = self.text
        if has_slanted_side(points):
            text.fault('POLYGON with a slanted side is not supported', begin, 'Unsupported')
            return []
        slabs = slabs_of(points)
        if not slabs:
            text.fault('a polygon has no area', begin, 'EmptyRect')
        if len(slabs) > MOST_SLABS:
            text.fault(f'a polygon has more than {MOST_SLABS:,} slabs', begin, 'TooLarge')
            return []
        return slabs

    def known(self, kind, records):
        """Takes the name of a record of this kind that was defined before, and returns the record."""
        name = self.text.name(f'the name of a {kind}')
        return records[name] if name in records else self.unknown(kind, name)

    def unknown(self, kind, name):
        """Refuses the word that was taken last, a name that no record of this kind has."""
        self.text.fault(f'there is no {kind} {name}', kind='UnknownName', form=f'there is no {kind}')
