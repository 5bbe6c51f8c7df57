"""Writes vias and nondefault rules of a LEF in forms of the wide profile."""
from answer.generated_via import generated_shapes
from answer.lef_text import joined_layers
from answer.model import Via, numbers_of
from answer.words import millionths
from .generated_vias import generated_clauses
from .polygons import corners, polygon_and_rest, written
from .wide_forms import has

# Statements that a generated via may not have, or not so; each takes the place of another one, or stands beside all.
FAULTS = ('RECT -1 -1 1 1 ;', 'POLYGON 0 0 1 0 1 1 0 1 ;', 'CUTSIZE 1 ;', 'ENCLOSURE 0 0 0 -1 ;', 'ROWCOL 0 1 ;', 'ROWCOL 101 100 ;', 'PATTERN 1_ ;',
          'LAYERS m1 m1 ;', 'OFFSET 1 2 3 ;', 'CUTSPACING -1 0 ;', 'ORIGIN 1 x ;')
RULE_FORMS = ('HARDSPACING ;', 'SPACING SAMENET m1 m1 0.1 ; END SPACING', 'USEVIA any ;', 'USEVIARULE any ;', 'MINCUTS v1 2 ;', 'PROPERTY any 1 ;')
LAYER_FORMS = ('SPACING 0.2 ;', 'WIREEXTENSION 0.5 ;', 'DIAGWIDTH 1 ;')


class WideVias:
    """Writes what a library gets besides its plan: generated vias, of which the library has the shapes, and rules, of which it has the widths."""

    def __init__(self, writer):
        self.writer, self.dice, self.library = writer, writer.dice, writer.library
        self.texts = {}
        for number in range(self.dice.below(4) if has(self.dice, 'generated via of a LEF', 0.7) else 0):
            self.add_generated(number)
        self.rules = [self.rule(number) for number in range(self.dice.below(4) if has(self.dice, 'nondefault rule', 0.7) else 0)]

    def add_generated(self, number):
        """Adds a generated via to the library, if a layer of cuts is between two routing layers."""
        layers, levels = self.library.layers, self.library.routing_layers()
        lower = self.dice.below(len(levels) - 1)
        bottom, top = levels[lower:lower + 2]
        cuts = [it for it in range(bottom + 1, top) if layers[it].kind == 'CUT']
        if not cuts:
            return
        names = [layers[it].name for it in (bottom, self.dice.one_of(cuts), top)]
        clauses = generated_clauses(self.dice, self.writer.plan, names, self.writer.length, str)
        statements = [clause[2:] for clause in clauses if not clause.startswith('+ ANY')]
        name = f'lef_generated{number}'
        if self.dice.chance(0.2):
            self.spoil(statements)
            shapes = []
        else:
            exact = generated_shapes([it.split() for it in statements], numbers_of(layers), millionths)
            shapes = [(layer, tuple(side * self.writer.units // 10 ** 6 for side in rect)) for layer, rect in exact]
        joins = joined_layers(layers, name, shapes)
        self.library.vias.append(Via(name, tuple(shapes) if joins else (), False, joins))
        self.texts[name] = f'VIA {name} {" ; ".join(statements)} ; END {name}\n'

    def spoil(self, statements):
        """Makes statements those of a via that is kept by its name alone."""
        kind = self.dice.below(3)
        if kind == 0:
            del statements[[it.split(' ')[0] for it in statements].index(self.dice.one_of(('CUTSIZE', 'LAYERS', 'ENCLOSURE', 'CUTSPACING')))]
        elif kind == 1:
            statements.append(self.dice.one_of(statements))
        else:
            fault = self.dice.one_of(FAULTS)[:-2]
            statements[:] = [it for it in statements if not it.startswith(fault.split(' ')[0])]
            statements.insert(self.dice.below(len(statements) + 1), fault)

    def rule(self, number):
        """Adds a rule to the library, and returns its text, with vias in it that are not written elsewhere."""
        name, layers = f'rule{number}', self.library.layers
        widths, words = {}, []
        for layer in self.dice.some_of([it for it, layer in enumerate(layers) if layer.has_metal()], self.dice.below(5)):
            widths[layer] = self.width(layers[layer])
            forms = self.dice.shuffled([f'WIDTH {self.writer.length(widths[layer])} ;', *self.writer.odd_forms(LAYER_FORMS)])
            words.append(f'LAYER {layers[layer].name} {" ".join(forms)} END {layers[layer].name}')
        inner = self.dice.some_of(list(self.texts), self.dice.below(2))
        words += [self.texts.pop(via) for via in inner]
        words += self.writer.odd_forms(RULE_FORMS)
        self.library.rules[name] = widths
        return f'NONDEFAULTRULE {name} {" ".join(self.dice.shuffled(words))} END {name}\n'

    def width(self, layer):
        """Returns the width of a rule on a layer, which is even on a routing layer."""
        if not layer.routes():
            return self.dice.between(1, self.writer.plan.pitch)
        return self.dice.one_of((layer.width, layer.width, 2 * layer.width, layer.width + 2, 2 * self.dice.between(1, self.writer.plan.pitch)))

    def is_in_rule(self, via):
        """Whether a via is written in a rule."""
        return via.name.startswith('lef_generated') and via.name not in self.texts

    def rect(self, layer, rect):
        """Returns the points of a polygon and the rectangles that are together a rectangle of a via: a polygon alone on a routing layer, so that the
        point 0 0 is in it."""
        if self.library.layers[layer].routes():
            return written(self.dice, corners(rect)), []
        return polygon_and_rest(self.dice, rect)
