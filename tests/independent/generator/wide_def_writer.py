"""Writes a design as a DEF text with forms of the wide profile. The text says what the design is: forms add metal, or take some away."""
from answer.generated_via import clauses_of, generated_shapes
from answer.geometry import ORIENTATIONS
from answer.lef_text import joined_layers
from answer.model import Via, numbers_of
from .def_writer import DefWriter
from .generated_vias import generated_clauses
from .polygons import polygon_and_rest
from .wide_forms import SITE_OF_PADS, has
from .wide_path_writer import WidePathWriter
from .wide_rules import WideRules
from .wild_wiring import WildWiring


class WideDefWriter(DefWriter):
    """Writes the DEF text of a block in the wide profile; wild is whether wiring and pins get more metal."""

    def __init__(self, dice, plan, design):
        super().__init__(dice, plan, design)
        self.plan = plan
        self.wild = not plan.far and dice.chance(0.5)
        self.generated = [self.generated_via(number) for number in range(dice.below(4) if has(dice, 'generated via', 0.8) else 0)]
        self.generated = [it for it in self.generated if it]
        known = design.library.vias + design.vias + [via for via, _ in self.generated]
        self.good_vias = [via for via in known if via.joins]
        self.rules = WideRules(self, plan)
        self.rule_of_net = None

    def generated_via(self, number):
        """Returns a generated via with its words, or None where no layer of cuts is between two routing layers."""
        levels = self.design.library.routing_layers()
        lower = self.dice.below(len(levels) - 1)
        bottom, top = levels[lower:lower + 2]
        cuts = [it for it in range(bottom + 1, top) if self.layers[it].kind == 'CUT']
        if not cuts:
            return None
        names = [self.layers[it].name for it in (bottom, self.dice.one_of(cuts), top)]
        clauses = generated_clauses(self.dice, self.plan, names, self.number)
        name = f'generated{number}'
        shapes = generated_shapes(clauses_of(' '.join(clauses).split()), numbers_of(self.layers))
        return Via(name, tuple(shapes), False, joined_layers(self.layers, name, shapes)), ' '.join(clauses)

    def mask(self, *more):
        if not self.plan.profile.drops_masks or not has(self.dice, 'mask of a DEF', 0.3):
            return ''
        return f' {self.key("MASK")} {self.dice.between(0, 3)}{self.dice.one_of(("", *more))}'

    def head(self):
        more = ['COMPONENTMASKSHIFT any words ( + - ;'] if self.plan.profile.drops_masks and has(self.dice, 'mask of a DEF', 0.2) else []
        return super().head() + self.rules.lines() + more

    def shuffled(self, parts):
        """Returns the sections in another order, but VIAS before PINS, which name vias."""
        parts = super().shuffled(parts)
        first = [part[0].split(' ')[0] if part else '' for part in parts]
        if 'VIAS' in first and 'PINS' in first:
            vias, pins = sorted((first.index('VIAS'), first.index('PINS')))
            if first[vias] != 'VIAS':
                parts[vias], parts[pins] = parts[pins], parts[vias]
        return parts

    def rows(self):
        """Returns the lines of rows, with some that are dropped."""
        lines = super().rows()
        for number in range(self.dice.below(4) if has(self.dice, 'dropped row', 0.4) else 0):
            words = self.dice.one_of(('W', 'E DO 3 BY 1 STEP 7 0', 'FW DO 2 BY 5 STEP 0 9', 'FE', 'N DO 4 BY 2 STEP 1 1', 'FS DO 1 BY 3'))
            line = f'ROW pads{number} {SITE_OF_PADS} {self.dice.between(-99, 99)} {self.dice.between(-99, 99)} {words} ;'
            lines.insert(self.dice.below(len(lines) + 1), line)
        return lines

    def vias(self):
        """Returns the entries of VIAS, generated ones at any place among the others."""
        entries = super().vias()
        for via, clauses in self.generated:
            entries.insert(self.dice.below(len(entries) + 1), f'- {via.name} {clauses} ;')
        return entries + self.names_of_turned_vias()

    def names_of_turned_vias(self):
        """Returns entries of VIAS that have names which turned vias would have."""
        if not self.good_vias or not has(self.dice, 'turned via', 0.2):
            return []
        via, word = self.dice.one_of(self.good_vias), self.dice.one_of(ORIENTATIONS)
        rect = f'+ RECT {self.layers[0].name} ( 0 0 ) ( 1 1 )'
        return [f'- {via.name}_{word}{more} {rect} ;' for more in self.dice.some_of(('', '_1', '_2'), self.dice.below(4))]

    def pin(self, pin):
        """Returns an entry of PINS, with a via in its last port in some cases."""
        words = super().pin(pin)
        if not (self.wild and self.good_vias and pin.ports and has(self.dice, 'via of a pin', 0.4)):
            return words
        point = self.dice.between(-self.plan.pitch, self.plan.pitch), self.dice.between(-self.plan.pitch, self.plan.pitch)
        via = self.dice.one_of(self.good_vias).name
        return f'{words[:-2]} + {self.key("VIA")} {via}{self.mask()} {self.point(point)} ;'

    def port_shape(self, layer, rect):
        """Returns the clause of a shape of a port, or in some cases those of a polygon and of rectangles that are together the same."""
        if not has(self.dice, 'polygon of a DEF', 0.2):
            return super().port_shape(layer, rect)
        points, rest = polygon_and_rest(self.dice, rect)
        polygon = f'+ {self.key("POLYGON")} {self.layers[layer].name}{self.mask()}{self.middle_of_shape()} {self.polygon(points)}'
        return ' '.join([polygon, *(super(WideDefWriter, self).port_shape(layer, it) for it in rest)])

    def polygon(self, points):
        """Returns the points of a polygon, with `*` in some cases for the coordinate of the point before."""
        words, last = [], None
        for point in points:
            both = ['*' if last and old == new and self.dice.chance(0.3) else self.number(new) for old, new in zip(last or point, point)]
            words.append(f'( {" ".join(both)} )')
            last = point
        return ' '.join(words)

    def blocked(self, rect):
        """Returns a rectangle of a blockage, or in some cases a polygon and rectangles that are together the same."""
        if not has(self.dice, 'polygon of a DEF', 0.2):
            return super().blocked(rect)
        points, rest = polygon_and_rest(self.dice, rect)
        return ' '.join([f'{self.key("POLYGON")} {self.polygon(points)}', *map(super().blocked, rest)])

    def with_other_clauses(self, clauses, blockage):
        """Returns the clauses of a blockage, with others that the wide profile takes in some cases."""
        more = ['COMPONENT any']
        if blockage.layer is not None:
            more += ['SLOTS', 'FILLS']
        elif self.plan.profile.soft:
            more += ['SOFT', 'PARTIAL 0.5', 'PARTIAL 30.']
        more = [f'+ {it}' for it in self.dice.some_of(more, self.dice.between(1, 2))] if has(self.dice, 'clause of a blockage', 0.3) else []
        mask = self.mask() if blockage.layer is not None else ''
        return self.dice.shuffled(clauses + more + ([f'+{mask}'] if mask else []))

    def path_writer(self, special):
        return WidePathWriter(self, special, self.rule_of_net if not special else None)

    def net(self, net, special):
        """Returns an entry of a net, with a rule and with more wiring in some cases; a rule of other widths has an effect on wild wiring alone."""
        is_wild = self.wild and self.dice.chance(0.5)
        self.rule_of_net = self.rules.name(False) if not special and has(self.dice, 'nondefault rule', 0.4) else None
        clauses = [super().net(net, special)[:-2]]
        if is_wild:
            wiring = WildWiring(self, special)
            clauses += [wiring.clause() for _ in range(self.dice.between(1, 3))]
        if self.rule_of_net:
            clauses.append(f'+ {self.key("NONDEFAULTRULE")} {self.rule_of_net}')
        return ' '.join([*clauses, ';'])
