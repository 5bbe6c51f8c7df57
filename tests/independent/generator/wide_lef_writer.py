"""Writes a library as LEF texts with forms of the wide profile."""
from answer.polygon import slabs_of
from answer.words import NotRead
from .lef_writer import TEXT_FORMS, LefWriter
from .polygons import polygon_and_rest, wild_walk
from .wide_forms import SITE_OF_PADS, has
from .wide_lef_paths import FAULTS_OF_CUTS, FAULTS_OF_PATHS, WidePaths
from .wide_lef_vias import WideVias

# Parts of macros for which they are dropped: each one behind the name of a layer with metal.
FAULTS = (*FAULTS_OF_PATHS, 'PIN A PORT LAYER {} ; POLYGON 0 0 1 1 2 0 ; END END A', 'SITE core ; SITE core ;',
          'SITE {} {} ;', 'OBS LAYER no_layer ; RECT 0 0 1 1 ; END',
          'OBS LAYER {} ; RECT ITERATE 0 0 1 1 DO 2001 BY 2000 STEP 1 1 ; END', 'OBS VIA 0 0 no_via ; END', 'OBS LAYER {} ; RECT 0 0 1 ; END',
          'SITE core core core ;', 'OBS LAYER {} ; RECT ITERATE 0 0 1 1 DO 0 BY 1 STEP 1 1 ; END', 'OBS LAYER {} ; ANY ; END',
          'OBS POLYGON 0 0 1 0 1 1 0 1 ; END', 'OBS LAYER {} ; POLYGON 0 0 1 0 1 1 1 0 ; END', 'PIN A PORT LAYER {} ; POLYGON ; END END A',
          'OBS LAYER {} ; POLYGON ITERATE 0 0 1 0 1 1 0 1 DO 1 BY 0 STEP 1 1 ; END', 'OBS LAYER {} ; POLYGON 0 0 1 0 1 1 0 ; END',
          f'OBS LAYER {{}} ; POLYGON {"0 0 1 0 1 1 0 1 " * 250} 0 0 ; END')


class WideLefWriter(LefWriter):
    """Writes the LEF texts of a block in the wide profile; wild is whether macros get more shapes."""
    # (a rule names layers that are defined before it)
    text_forms = tuple(form for form in TEXT_FORMS if 'NONDEFAULTRULE' not in form)

    def __init__(self, dice, plan, technology):
        super().__init__(dice, plan, technology)
        self.plan = plan
        self.wild = dice.chance(0.3)
        self.is_in_geometry = self.is_in_obstructions = self.is_in_via = False
        self.wide_vias = WideVias(self)
        self.paths = WidePaths(self)

    def via(self, via):
        """Returns a via, which is written in a rule or here, with polygons in it in some cases."""
        if self.wide_vias.is_in_rule(via):
            return ''
        if via.name in self.wide_vias.texts:
            return self.wide_vias.texts[via.name]
        self.is_in_via = True
        text = super().via(via)
        self.is_in_via = False
        return text

    def rules(self):
        return self.wide_vias.rules

    def texts(self):
        texts = super().texts()
        return [f'SITE {SITE_OF_PADS} SIZE 1 BY 1 ; END {SITE_OF_PADS}\n{texts[0]}', *texts[1:]]

    def mask(self):
        """Returns the words of a mask in some cases, where masks have no effect."""
        if not self.plan.profile.drops_masks or not has(self.dice, 'mask of a LEF', 0.2):
            return []
        return [self.key('MASK'), str(self.dice.between(0, 3))]

    def rect_statement(self, *points):
        """Returns a rectangle's statement, as an array of one in some cases."""
        return ' '.join([self.key('RECT'), *self.mask(), *self.array_of_one(points), ';'])

    def array_of_one(self, words):
        """Returns the words of a shape, as an array of one in some cases."""
        if not self.is_in_geometry or not has(self.dice, 'array of shapes', 0.2):
            return words
        return [self.key('ITERATE'), *words, *self.steps(1, 1)]

    def steps(self, columns, rows):
        """Returns the words of so many columns and rows of copies."""
        steps = [self.length(self.dice.between(-self.plan.pitch, 2 * self.plan.pitch)) for _ in range(2)]
        return [f'DO {columns} BY {rows} STEP', *steps]

    def rect(self, rect, layer=None):
        """Returns a rectangle's statement, or in some cases those of a path, or of a polygon and of rectangles, that are together the same."""
        if self.is_in_geometry and self.paths.can_be_one(rect) and has(self.dice, 'path of a LEF', 0.2):
            return self.paths.rect(layer, rect)
        if self.is_in_via and has(self.dice, 'polygon of a via', 0.2):
            points, rest = self.wide_vias.rect(layer, rect)
        elif self.is_in_geometry and has(self.dice, 'polygon', 0.2):
            points, rest = polygon_and_rest(self.dice, rect)
        else:
            return super().rect(rect, layer)
        return ' '.join([self.polygon(points), *map(super().rect, rest)])

    def polygon(self, points):
        """Returns a polygon's statement."""
        return ' '.join([self.key('POLYGON'), *self.mask(), *self.array_of_one([*map(self.point, points)]), ';'])

    def wild_polygon(self):
        """Returns the statement of a polygon that goes anywhere, and has slabs."""
        while True:
            points = wild_walk(self.dice, 4 * self.plan.pitch)
            try:
                slabs_of(points)
            except NotRead:
                continue
            return f'LAYER {self.dice.one_of(self.library.layers).name} ; {self.polygon(points)}'

    def geometry(self, shapes):
        """Returns a geometry of these shapes, and in some cases of more."""
        self.is_in_geometry = True
        text = super().geometry(shapes)
        self.is_in_geometry = False
        more = [self.more() for _ in range(self.dice.below(3))] if self.wild and self.dice.chance(0.2) else []
        return ' '.join([text, *filter(None, more)])

    def layer_of_shapes(self, layer, more=('',)):
        self.paths.width = None
        return super().layer_of_shapes(layer, more)

    def wild_path(self):
        """Returns the statements of one or two paths on a layer with metal."""
        layer = self.dice.one_of([number for number, layer in enumerate(self.library.layers) if layer.has_metal()])
        return ' '.join([self.layer_of_shapes(layer), *(self.paths.wild(layer, self.place()) for _ in range(self.dice.between(1, 2)))])

    def more(self):
        """Returns the statements of a path, of a polygon, of a via, or of a shape in columns and rows."""
        if has(self.dice, 'path of a LEF', 0.3):
            return self.wild_path()
        if has(self.dice, 'polygon', 0.4):
            return self.wild_polygon()
        vias = [via for via in self.library.vias if via.joins]
        is_repeated = has(self.dice, 'array of shapes', 0.5)
        steps = self.steps(self.dice.between(1, 4), self.dice.between(1, 3)) if is_repeated else []
        if vias and has(self.dice, 'via of a geometry', 0.6):
            # (a layer of metal comes before it, since on another one a via is read past)
            metal = self.dice.one_of([layer.name for layer in self.library.layers if layer.routes()])
            return ' '.join([f'LAYER {metal} ; {self.key("VIA")}', *(['ITERATE'] if is_repeated else []), *self.mask(), self.point(self.place()),
                             self.dice.one_of(vias).name, *steps, ';'])
        if not is_repeated:
            return ''
        x, y = self.place()
        rect = x, y, x + self.dice.between(1, self.plan.pitch), y + self.dice.between(1, self.plan.pitch)
        points, _ = polygon_and_rest(self.dice, rect)
        word, points = self.dice.one_of((('RECT', [rect[:2], rect[2:]]), ('POLYGON', points)))
        return ' '.join([f'LAYER {self.dice.one_of(self.library.layers).name} ; {word}', *self.mask(), 'ITERATE', *map(self.point, points), *steps, ';'])

    def place(self):
        """Returns a point near a macro."""
        return self.dice.below(4 * self.plan.pitch), self.dice.below(4 * self.plan.pitch)

    def words_behind_layers(self):
        more = (' EXCEPTPGNET', ' EXCEPTPGNET SPACING 0.1') if self.is_in_obstructions and has(self.dice, 'obstruction but for power', 0.3) else ()
        return (*super().words_behind_layers(), *more)

    def obstruction(self, macro, origin):
        self.is_in_obstructions = True
        text = super().obstruction(macro, origin)
        self.is_in_obstructions = False
        return text

    def fault(self, metal):
        """Returns a part of a macro for which it is dropped, on one of these layers with metal or on a layer of cuts."""
        cuts = [layer.name for layer in self.library.layers if layer.kind == 'CUT']
        faults, layers = (FAULTS_OF_CUTS, cuts) if cuts and self.dice.chance(0.1) else (FAULTS, metal)
        return self.dice.one_of(faults).replace('{}', self.dice.one_of(layers))

    def macros(self):
        """Returns the macros, and some that are dropped."""
        macros = super().macros()
        metal = [layer.name for layer in self.library.layers if layer.has_metal()]
        for number in range(self.dice.below(4) if metal and has(self.dice, 'dropped macro', 0.5) else 0):
            parts = ' '.join(self.dice.shuffled(['SIZE 1 BY 2 ;', 'SYMMETRY X ;', 'PIN B USE SIGNAL ; END B', self.fault(metal)]))
            macros.insert(self.dice.below(len(macros) + 1), f'MACRO pad{number} {parts} END pad{number}\n')
        return macros
