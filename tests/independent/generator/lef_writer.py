"""Writes a library as LEF texts, in one of the many ways that say the same."""
from answer.geometry import between
from .odd_words import respaced

LAYER_FORMS = ('PITCH 0.5 ;', 'OFFSET 0.1 ;', 'RESISTANCE RPERSQ 0.1 ;', 'CAPACITANCE CPERSQDIST 0.0001 ;', 'AREA 0.1 ;', ';',
               'SPACING 0.3 RANGE 1 2 ;', 'PROPERTY any "a word ; # with marks" ;')
MACRO_FORMS = ('CLASS CORE ;', 'FOREIGN other 0 0 ;', 'EEQ other ;', 'DENSITY LAYER m1 ; RECT 0 0 1 1 50 ; END',
               'TIMING any END words ; END TIMING', 'PROPERTY any 1 ;', ';')
SHAPE_FORMS = ('WIDTH 0.1 ;', 'CLASS any ;')
PIN_FORMS = ('DIRECTION INPUT ;', 'SHAPE ABUTMENT ;', 'ANTENNAGATEAREA 0.1 ;', ';')
TEXT_FORMS = ('VERSION 5.8 ;\n', ';\n', 'BUSBITCHARS "[]" ;\n', 'DIVIDERCHAR "/" ;\n', 'MANUFACTURINGGRID 0.005 ;\n',
              'UNITS DATABASE MICRONS 2000 ; END UNITS\n', '# a comment ; END LIBRARY\n', 'NONDEFAULTRULE any LAYER m1 WIDTH 3 ; END m1 END any\n',
              'PROPERTYDEFINITIONS MACRO any INTEGER ; END PROPERTYDEFINITIONS\n', 'BEGINEXT "any" some ; words ENDEXT\n')


def spelled(dice, word):
    """Returns a keyword in small letters, or with one small letter."""
    return word.lower() if dice.chance(0.5) else word[:1] + word[1:].lower()


class LefWriter:
    """Writes the LEF texts of a block."""
    text_forms = TEXT_FORMS

    def __init__(self, dice, plan, technology):
        self.dice = dice
        self.units = plan.units
        self.library = technology.library
        self.odd_vias = technology.odd_vias
        self.odd = dice.one_of((0.0, 0.05, 0.2))

    def texts(self):
        """Returns the LEF texts: one, or the macros in others."""
        parts = [self.layer(it) for it in self.library.layers]
        vias = [self.via(it) for it in self.library.vias]
        parts += vias + self.odd_vias if self.dice.chance(0.5) else self.odd_vias + vias
        parts += self.rules()
        parts += [self.site(it) for it in self.library.sites]
        parts += self.macros()
        cuts = sorted(self.dice.below(len(parts) + 1) for _ in range(self.dice.below(3) if self.odd else 0))
        groups = [parts[begin:end] for begin, end in zip([0] + cuts, cuts + [len(parts)])]
        return [self.text(group) for group in groups]

    def text(self, parts):
        """Returns one text of these parts."""
        begin = ''.join(form for form in self.text_forms if self.dice.chance(self.odd))
        return respaced(self.dice, self.odd, begin + ''.join(parts) + ('END LIBRARY\n' if self.dice.chance(0.8) else ''))

    def key(self, word):
        """Returns a keyword, in some cases in small letters."""
        return spelled(self.dice, word) if self.dice.chance(self.odd) else word

    def odd_forms(self, forms):
        """Returns some of these forms that are read past."""
        return [form for form in forms if self.dice.chance(self.odd / 2)]

    def length(self, value):
        """Returns a length in microns, exactly."""
        whole, millionths = divmod(abs(value) * 10 ** 6 // self.units, 10 ** 6)
        decimals = f'{millionths:06}'.rstrip('0')
        text = f'{whole}.{decimals}' if decimals else f'{whole}'
        if self.dice.chance(self.odd):
            text = self.dice.one_of((f'{whole}.{millionths:06}', f'0{text}', f'{whole}.{decimals}00', text.lstrip('0') if decimals else f'{text}.'))
        sign = '-' if value < 0 else '+' if self.dice.chance(self.odd / 4) else ''
        return sign + text

    def point(self, point):
        text = f'{self.length(point[0])} {self.length(point[1])}'
        return f'( {text} )' if self.dice.chance(self.odd) else text

    def rect(self, rect, _layer=None):
        """Returns the statement of a rectangle on a layer, by two opposite corners."""
        left, lower, right, upper = rect
        pair = self.dice.one_of((((left, lower), (right, upper)), ((right, upper), (left, lower)), ((left, upper), (right, lower)))) \
            if self.dice.chance(self.odd) else ((left, lower), (right, upper))
        assert between(*pair) == rect
        return self.rect_statement(*map(self.point, pair))

    def rect_statement(self, *points):
        """Returns a rectangle's statement with these words of its points."""
        return ' '.join([self.key('RECT'), *points, ';'])

    def shapes(self, shapes, more=('',)):
        """Returns the statements of shapes: a layer where it changes, or before each of them, with some more words behind its name."""
        words, last = [], None
        for layer, rect in shapes:
            if layer != last or self.dice.chance(self.odd):
                words.append(self.layer_of_shapes(layer, more))
            words.append(self.rect(rect, layer))
            last = layer
        return ' '.join(words)

    def layer_of_shapes(self, layer, more=('',)):
        """Returns the statement that names the layer of the shapes behind it, with some more words behind the name."""
        return f'{self.key("LAYER")} {self.library.layers[layer].name}{self.dice.one_of(more)} ;'

    def geometry(self, shapes):
        """Returns a geometry of these shapes, with forms in it that are read past."""
        more = self.words_behind_layers()
        return ' '.join([self.shapes(shapes, more), *self.odd_forms(SHAPE_FORMS)])

    def words_behind_layers(self):
        """Returns what may stand behind the name of a layer in a geometry, each behind a blank."""
        return ('', '', ' SPACING 0.2', ' DESIGNRULEWIDTH 1') if self.odd else ('',)

    def layer(self, layer):
        words = [f'TYPE {self.key(layer.kind)} ;', *self.odd_forms(LAYER_FORMS)]
        if layer.direction:
            words.append(f'DIRECTION {self.key(layer.direction)} ;')
        if layer.width is not None:
            words.append(f'WIDTH {self.length(layer.width)} ;')
        if layer.spacing or self.dice.chance(0.2):
            words.append(self.spacing(layer.spacing))
        return f'LAYER {layer.name} {" ".join(self.dice.shuffled(words))} END {layer.name}\n'

    def spacing(self, value):
        """Returns the spacing as a statement or as a table."""
        length = self.length(value)
        if self.dice.chance(self.odd):
            return f'SPACINGTABLE PARALLELRUNLENGTH 0 1 WIDTH 0 {length} 9 WIDTH 2 8 8 ;'
        return f'SPACING {length} ;'

    def via(self, via):
        marks = self.dice.shuffled((['DEFAULT'] if via.default else []) + self.odd_forms(('GENERATED', 'TOPOFSTACKONLY')))
        return ' '.join(['VIA', via.name, *marks, self.shapes(via.shapes), 'END', via.name]) + '\n'

    def size(self, width, height):
        return f'{self.key("SIZE")} {self.length(width)} {self.key("BY")} {self.length(height)} ;'

    def rules(self):
        """Returns the nondefault rules."""
        return []

    def site(self, site):
        words = [self.size(site.width, site.height), 'CLASS CORE ;']
        return f'SITE {site.name} {" ".join(self.dice.shuffled(words))} END {site.name}\n'

    def macros(self):
        """Returns the macros."""
        return [self.macro(it) for it in self.library.macros]

    def macro(self, macro):
        """Returns a macro; its shapes are written from its ORIGIN."""
        origin = (0, 0)
        words = [self.size(macro.width, macro.height), *self.odd_forms(MACRO_FORMS)]
        if self.dice.chance(self.odd):
            origin = self.dice.between(-99, 99), self.dice.between(-99, 99)
        if origin != (0, 0) or self.dice.chance(0.2):
            words.append(f'ORIGIN {self.point(origin)} ;')
        if macro.mirrors:
            words.append(f'SYMMETRY {self.dice.one_of(("Y", "X Y", "x y R90"))} ;')
        elif self.dice.chance(0.5):
            words.append('SYMMETRY X ;')
        if macro.site is not None:
            words.append(f'SITE {self.library.sites[macro.site].name} ;')
        words += [self.obstruction(macro, origin)] if macro.obstructions else []
        words = self.dice.shuffled(words)
        place = self.dice.below(len(words) + 1)
        words[place:place] = [self.pin(pin, origin) for pin in macro.pins]
        return f'MACRO {macro.name} ' + '\n'.join(words) + f' END {macro.name}\n'

    def obstruction(self, macro, origin):
        return f'OBS {self.geometry(self.moved(macro.obstructions, origin))} END'

    @staticmethod
    def moved(shapes, origin):
        """Returns shapes as they are written, before ORIGIN is added."""
        x, y = origin
        return [(layer, (left - x, lower - y, right - x, upper - y)) for layer, (left, lower, right, upper) in shapes]

    def pin(self, pin, origin):
        """Returns a pin, whose shapes are in one port or in two."""
        shapes = self.moved(pin.shapes, origin)
        part = self.dice.below(len(shapes) + 1) if self.dice.chance(self.odd) else len(shapes)
        ports = [f'PORT {self.geometry(some)} END' for some in (shapes[:part], shapes[part:]) if some]
        use = [f'USE {self.key(pin.use)} ;'] if pin.use else ['USE SIGNAL ;'] if self.dice.chance(0.3) else []
        words = self.odd_forms(PIN_FORMS) + use + ports
        return f'{self.key("PIN")} {pin.name} {" ".join(words)} END {pin.name}'
