"""The forms of the wide profile, and which of them blocks have: one that a program does not read yet is left out by a False."""

FORMS = {
    'generated via': True,
    'pattern': True,
    'mask in wiring': True,
    'virtual step': True,
    'figure': True,
    'array of vias': True,
    'clause of a blockage': True,
    'mask of a DEF': True,
    'via of a pin': True,
    'dropped row': True,
    'mask of a LEF': True,
    'obstruction but for power': True,
    'polygon': True,
    'array of shapes': True,
    'via of a geometry': True,
    'dropped macro': True,
    'generated via of a LEF': True,
    'polygon of a via': True,
    'nondefault rule': True,
    'polygon of a DEF': True,
    'turned via': True,
    'path of a LEF': True,
}
# A site that no macro has, for rows that are dropped.
SITE_OF_PADS = 'site_of_pads'


def has(dice, form, part):
    """Whether there is to be a form, in so many cases of 1."""
    return FORMS[form] and dice.chance(part)
