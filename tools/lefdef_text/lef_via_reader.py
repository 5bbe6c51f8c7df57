"""Reading the vias of LEF texts (docs/FORMATS.md, "Vias")."""
from .generated_via import MOST_CUTS, SIZES, UNREAD, GeneratedVia, is_cut_between, rows_of_pattern
from .geometry_reader import Drawing, GeometryReader
from .library import Via, joined_layers, why_not_joined
from .polygon import slabs_of, why_not_read
from .words import WHOLE, millionths_of, value_of


class NotRead(Exception):
    """Statements of a via do not say where its metal lies, for the reason in the message: it is kept by its name."""


class LefViaReader(GeometryReader):
    """Reads vias of a LEF text."""

    def via(self):
        text = self.text
        name = self.new_name(Via, self.library.vias)
        words = []
        while text.peek() in ('DEFAULT', 'TOPOFSTACKONLY', 'GENERATED') and text.peek() not in words:
            words.append(text.keyword())
        drawing = Drawing()
        if self.profile.is_wide and self.is_generated():
            self.generated_via(drawing)
        else:
            self.statements(lambda word: self.via_statement(word, drawing))
        self.end(name)
        why = drawing.why_not_good or why_not_joined(self.library.layers, name, drawing.shapes)
        if why is None:
            self.library.vias[name] = Via(name, 'DEFAULT' in words, *joined_layers(self.library.layers, drawing.shapes), drawing.shapes)
        else:
            self.library.vias[name] = Via(name, 'DEFAULT' in words, None, None, [])
            self.library.why_not_good[name] = why

    def via_statement(self, word, drawing):
        text, begin = self.text, self.text.at - 1
        form = 'RECT MASK' if word == 'RECT' and text.peek() == 'MASK' and not self.profile.drops_masks else word
        if form in ('VIARULE', 'RECT MASK') or form == 'POLYGON' and not self.profile.is_wide:
            drawing.why_not_good = drawing.why_not_good or f'it has the statement {form}'
            text.skip_statement()
        elif word == 'LAYER':
            drawing.layer = self.known('layer', self.library.layers)
            text.expect(';')
        elif word not in ('RECT', 'POLYGON'):
            self.skip('VIA', word)
        elif drawing.layer and not drawing.layer.has_metal():
            text.skip_statement()
            text.past(f'VIA {word} on a layer without metal', begin)
        elif word == 'POLYGON':
            self.polygon_of_via(drawing)
        elif not drawing.layer:
            text.refuse('RECT comes before any LAYER')
        else:
            self.skip_mask()
            drawing.shapes.append((drawing.layer.name, text.corners(self.point)))
            text.expect(';')

    def polygon_of_via(self, drawing):
        """Takes a polygon of a via; one that is not read makes the via not good."""
        words = self.text.statement()
        try:
            if not drawing.layer:
                raise NotRead('it has a POLYGON before any LAYER')
            drawing.shapes += [(drawing.layer.name, slab) for slab in slabs_of(self.points_of_via(words))]
        except NotRead as why:
            drawing.why_not_good = drawing.why_not_good or str(why)

    def points_of_via(self, words):
        """Returns the points of a polygon of a via, of which these are the words behind the first one."""
        if words and words[0].upper() == 'MASK':
            if not self.profile.drops_masks or not WHOLE.fullmatch(''.join(words[1:2])):
                raise NotRead('it has the statement POLYGON MASK')
            del words[:2]
        points = []
        while words:
            count = 4 if words[0] == '(' else 2
            numbers = [millionths_of(word) for word in words[count // 4:count - count // 4]]
            if len(numbers) != 2 or None in numbers or count == 4 and words[3:4] != [')']:
                raise NotRead('it has a POLYGON that is not of points')
            points.append(tuple(numbers))
            del words[:count]
        why = why_not_read(points)
        if why:
            raise NotRead(f'it has {why}')
        return points

    def is_generated(self):
        """Returns whether one of the statements of a via that come next begins with VIARULE."""
        text = self.text
        at, is_first = text.at, True
        while at < text.count and not (is_first and text.words[at].upper() in ('END', 'VIARULE')):
            is_first = text.words[at] == ';'
            at += 1
        return text.words[min(at, text.count)].upper() == 'VIARULE'

    def generated_via(self, drawing):
        """Takes the statements of a generated via; where they do not say one, it is not good."""
        statements = []
        self.statements(lambda word: statements.append(self.whole_statement(word)))
        try:
            drawing.shapes += GeneratedStatements(self.library, [it for it in statements if it]).shapes()
        except NotRead as why:
            drawing.why_not_good = str(why)

    def whole_statement(self, word):
        """Returns the words of a statement, the first of which was taken."""
        return [word, *self.text.statement()] if word != ';' else []


class GeneratedStatements(GeneratedVia):
    """A generated via by its statements, each a list of words of which the first is in capitals; lengths are in millionths of a micron, as numbers
    of units are in a DEF."""

    def __init__(self, library, statements):
        super().__init__()
        self.library, self.statements = library, statements

    def refuse(self, why, kind='Unexpected', form=None):
        raise NotRead(why)

    def shapes(self):
        for word, *rest in self.statements:
            if word in UNREAD:
                self.refuse(f'it has {word} beside VIARULE')
            if word in SIZES or word in ('VIARULE', 'LAYERS', 'PATTERN'):
                if word in self.found:
                    self.refuse(f'it has {word} twice')
                self.found[word] = self.value(word, rest)
        return super().shapes()

    def value(self, word, rest):
        """Returns what the words behind the first one of a statement say."""
        count = 3 if word == 'LAYERS' else SIZES[word][0] if word in SIZES else 1
        if len(rest) != count:
            self.refuse(f'its {word} has {len(rest)} words, and not {count}')
        if word == 'VIARULE':
            return rest[0]
        if word == 'PATTERN':
            return rows_of_pattern(rest[0]) or self.refuse(f'{rest[0]} is no pattern of cuts')
        if word == 'LAYERS':
            return self.layers(rest)
        numbers = tuple(self.number(it, word) for it in rest)
        if word == 'ROWCOL' and numbers[0] * numbers[1] > MOST_CUTS:
            self.refuse(f'it has more than {MOST_CUTS:,} cuts')
        return numbers

    def number(self, word, key):
        """Returns a number of the statement with this first word."""
        is_count, least = key == 'ROWCOL', SIZES[key][1]
        number = millionths_of(word) if not is_count else value_of(word) if WHOLE.fullmatch(word) else None
        if number is None or abs(number) > self.limit or least is not None and number < least:
            self.refuse(f'{word[:40]} cannot be in its {key}')
        return number

    def layers(self, names):
        """Returns the names of three layers, one for wires, one of cuts, and one for wires."""
        layers = [self.library.layers.get(name) or self.refuse(f'there is no layer {name}') for name in names]
        if not is_cut_between(layers):
            self.refuse('its layers are not one for wires, one of cuts, and one for wires')
        return names
