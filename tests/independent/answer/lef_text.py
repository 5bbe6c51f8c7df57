"""Reads LEF texts as a library in database units."""
from . import geometry
from .generated_via import generated_shapes
from .lef_geometry import GeometryReader, NotOnUnit, number_of
from .model import Layer, Macro, MacroPin, Site, Via, numbers_of
from .polygon import slabs_of
from .profile import NARROW
from .words import Cursor, NotRead, millionths, words_of

READ_PAST_BY_NAME = ('VIARULE', 'NONDEFAULTRULE')  # (a rule is read past in the narrow profile alone)
READ_PAST_BY_WORD = ('UNITS', 'PROPERTYDEFINITIONS', 'SPACING')
# A via with one of these names is not good.
RESERVED = ('NEW', 'RECT', 'TAPER', 'TAPERRULE', 'STYLE', 'MASK', 'VIRTUAL', 'DO') + geometry.ORIENTATIONS


class NotGood(NotRead):
    """A via is kept by its name alone."""


def read_library(texts, units, profile=NARROW):
    """Returns the library of these LEF texts at so many database units a micron."""
    reader = LefReader(units, profile)
    for text in texts:
        reader.read(Cursor(words_of(text)))
    return reader.library


def joined_layers(layers, name, shapes):
    """Returns the lower and the upper routing layer of a via with this name and these shapes, or None if it is not good."""
    used = sorted({layer for layer, _ in shapes})
    if name.upper() in RESERVED or len(used) != 3:
        return None
    if [layers[number].kind for number in used] != ['ROUTING', 'CUT', 'ROUTING']:
        return None
    if any(layers[number].routes() for number in range(used[0] + 1, used[2])):
        return None
    around = (x1 < 0 < x2 and y1 < 0 < y2 for layer, (x1, y1, x2, y2) in shapes if layer != used[1])
    return (used[0], used[2]) if all(around) else None


class LefReader(GeometryReader):
    """Reads one text after another into one library."""

    def read(self, text):
        """Reads a whole text."""
        forms = {'LAYER': self.read_layer, 'VIA': self.read_via, 'SITE': self.read_site, 'MACRO': self.read_macro_or_drop}
        if self.profile.wide:
            forms['NONDEFAULTRULE'] = self.read_rule
        while not text.is_at_end():
            word = text.keyword()
            if word == 'END':
                text.expect('LIBRARY')
                if not text.is_at_end():
                    raise NotRead('there is text after END LIBRARY')
            elif word in forms:
                forms[word](text)
            elif word in READ_PAST_BY_NAME:
                text.skip_past('END', text.next())
            elif word in READ_PAST_BY_WORD:
                text.skip_past('END', word)
            elif word == 'BEGINEXT':
                text.skip_past('ENDEXT')
            elif word != ';':
                text.statement()

    def size(self, text):
        """Reads `SIZE len BY len ;` behind its first word."""
        width = self.length(text.next())
        text.expect('BY')
        height = self.length(text.next())
        text.expect(';')
        return width, height

    def read_layer(self, text):
        """Reads a layer behind its first word."""
        name = text.next()
        kind = direction = width = spacing = table = None
        while not text.takes('END'):
            words = text.statement()
            key = words[0].upper() if words else ''
            if key == 'TYPE':
                kind = words[1].upper()
            elif key == 'DIRECTION':
                direction = words[1].upper()
            elif key == 'WIDTH' and len(words) == 2 and width is None:
                width = self.length(words[1])
            elif key == 'SPACING' and len(words) == 2 and spacing is None:
                spacing = self.length(words[1])
            elif key == 'SPACINGTABLE' and words[1].upper() == 'PARALLELRUNLENGTH' and table is None:
                table = words
        text.expect(name)
        if spacing is None:
            spacing = self.table_spacing(table or [])
        self.library.layers.append(Layer(name, kind, direction, width, spacing))

    def table_spacing(self, words):
        """Returns the second length behind the first WIDTH of a table, and 0 where there is none."""
        capitals = [word.upper() for word in words]
        if 'WIDTH' not in capitals:
            return 0
        row = words[capitals.index('WIDTH') + 1:]
        ends = [place for place, word in enumerate(row) if word.upper() == 'WIDTH']
        row = row[:ends[0]] if ends else row
        return self.length(row[1]) if len(row) > 1 else 0

    def read_via(self, text):
        """Reads a via behind its first word."""
        name = text.next()
        marks = set()
        while text.peek() in {'DEFAULT', 'TOPOFSTACKONLY', 'GENERATED'} - marks:
            marks.add(text.keyword())
        statements = []
        while not text.takes('END'):
            statements.append(text.statement())
        text.expect(name)
        try:
            shapes = self.exact_shapes([words for words in statements if words])
        except NotGood:
            shapes = []
        joins = joined_layers(self.library.layers, name, shapes)
        # (the lengths of a via that is not good need not be whole numbers of units)
        found = [(number, tuple(self.in_units(side) for side in rect)) for number, rect in shapes] if joins else []
        self.library.vias.append(Via(name, tuple(found), 'DEFAULT' in marks, joins))

    def exact_shapes(self, statements):
        """Returns the shapes of a via of these statements, in millionths of a micron."""
        if self.profile.wide and any(words[0].upper() == 'VIARULE' for words in statements):
            try:
                return generated_shapes(statements, numbers_of(self.library.layers), millionths)
            except NotRead as why:
                raise NotGood(str(why)) from None
        shapes, layer = [], None
        for key, *words in statements:
            key = key.upper()
            if key == 'LAYER':
                layer = self.layer_number(words[0])
            elif key == 'VIARULE':
                raise NotGood('a via of a rule')
            elif key in ('RECT', 'POLYGON'):
                shapes += [(layer, rect) for rect in self.rects_of_via(key, words, layer)]
        return shapes

    def rects_of_via(self, key, words, layer):
        """Returns the rectangles of a RECT or a POLYGON of a via with these words behind it, on a layer."""
        text = Cursor([*words, ';'])
        is_masked = not self.skip_mask(text) and text.peek() == 'MASK'
        if layer is None or (is_masked if key == 'RECT' else not self.profile.wide):
            raise NotGood(f'a via has a {key} that it may not have')
        if not self.library.layers[layer].has_metal():
            return []
        if is_masked:
            raise NotGood('a via has a mask')
        if key == 'RECT':
            return [geometry.between(self.point(text, millionths), self.point(text, millionths))]
        try:
            return slabs_of(self.points(text))
        except NotRead as why:
            raise NotGood(str(why)) from None

    def read_rule(self, text):
        """Reads a nondefault rule behind its first word."""
        name, widths = text.next(), {}
        while not text.takes('END'):
            word = text.keyword()
            if word == 'LAYER':
                number, width = self.width_of_rule(text)
                if number in widths:
                    raise NotRead('a rule has a layer twice')
                widths[number] = width
            elif word == 'VIA':
                self.read_via(text)
            elif word == 'SPACING':
                text.skip_past('END', 'SPACING')
            elif word != ';':
                text.statement()
        text.expect(name)
        if name in self.library.rules:
            raise NotRead(f'a second rule is named {name}')
        self.library.rules[name] = widths

    def width_of_rule(self, text):
        """Reads a LAYER of a rule behind its first word, and returns the number of the layer and the width of the rule's wires there."""
        name, widths = text.next(), []
        while not text.takes('END'):
            if text.takes('WIDTH'):
                widths.append(self.length(text.next()))
                text.expect(';')
            else:
                text.statement()
        text.expect(name)
        if len(widths) != 1 or widths[0] <= 0:
            raise NotRead('a rule does not tell the width of a layer once')
        return self.layer_number(name), widths[0]

    def read_site(self, text):
        """Reads a site behind its first word."""
        name = text.next()
        size = None
        while not text.takes('END'):
            if text.takes('SIZE'):
                size = self.size(text)
            else:
                text.statement()
        text.expect(name)
        site = Site(name, *size)
        if site not in self.library.sites:
            self.library.sites.append(site)

    def read_macro_or_drop(self, text):
        """Reads a macro behind its first word, or goes past one that is none if that is what the profile asks."""
        begin = text.at
        try:
            self.read_macro(text)
        except NotRead as fault:
            text.at = begin
            name = text.next()
            if not self.profile.wide or isinstance(fault, NotOnUnit) or name in numbers_of(self.library.macros):
                raise
            while text.next().upper() != 'END' or text.is_at_end() or text.words[text.at] != name:
                pass
            text.next()

    def read_macro(self, text):
        """Reads a macro behind its first word."""
        name = text.next()
        size, origin, mirrors, site, pins, obstructions = None, (0, 0), False, None, [], []
        while not text.takes('END'):
            word = text.keyword()
            if word == 'SIZE':
                size = self.size(text)
            elif word == 'ORIGIN':
                origin = self.point(text)
                text.expect(';')
            elif word == 'SYMMETRY':
                mirrors = 'Y' in [it.upper() for it in text.statement()]
            elif word == 'SITE':
                names = text.statement()
                if site is not None or len(names) != 1:
                    raise NotRead('a macro has two sites')
                site = number_of(self.library.sites, names[0])
            elif word == 'PIN':
                pins.append(self.read_pin(text))
            elif word == 'OBS':
                obstructions += self.read_geometry(text)
            elif word == 'DENSITY':
                text.skip_past('END')
            elif word == 'TIMING':
                text.skip_past('END', 'TIMING')
            elif word != ';':
                text.statement()
        text.expect(name)
        pins = tuple(MacroPin(pin.name, pin.use, moved(pin.shapes, origin)) for pin in pins)
        self.library.macros.append(Macro(name, *size, mirrors, site, pins, moved(obstructions, origin)))

    def read_pin(self, text):
        """Reads a pin of a macro behind its first word."""
        name = text.next()
        use, shapes = None, []
        while not text.takes('END'):
            word = text.keyword()
            if word == 'USE':
                use = text.statement()[0].upper()
            elif word == 'PORT':
                shapes += self.read_geometry(text)
            elif word != ';':
                text.statement()
        text.expect(name)
        return MacroPin(name, use if use in ('POWER', 'GROUND') else None, tuple(shapes))


def moved(shapes, by):
    """Returns shapes moved by a vector."""
    return tuple((layer, geometry.moved(rect, by)) for layer, rect in shapes)
