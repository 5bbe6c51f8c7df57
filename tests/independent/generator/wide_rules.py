"""Writes the nondefault rules of a DEF, and chooses which rule a net has."""
from .wide_forms import has

CLAUSES = ('+ HARDSPACING', '+ VIA any', '+ VIARULE any', '+ MINCUTS v1 2', '+ PROPERTY any 1')
# Entries that are no rule.
NO_RULES = ('- none + LAYER no_layer WIDTH 4 ;', '- none + LAYER m1 WIDTH 0 ;', '- none + LAYER m1 ;', '- none + LAYER m1 WIDTH 4 + LAYER m1 WIDTH 4 ;',
            '- none any + LAYER m1 WIDTH 4 ;', 'none + LAYER m1 WIDTH 4 ;', ';', '- none + LAYER m1 WIDTH 4.0 ;')


class WideRules:
    """The rules of a block by their names: the widths of each, by the numbers of layers."""

    def __init__(self, writer, plan):
        self.writer, self.dice, self.plan, self.layers = writer, writer.dice, plan, writer.layers
        self.own = {}
        names = [f'own_rule{number}' for number in range(3)] + list(writer.design.library.rules)
        for name in self.dice.some_of(names, self.dice.below(4)) if has(self.dice, 'nondefault rule', 0.6) else []:
            self.own[name] = self.widths()
        self.all = {**writer.design.library.rules, **self.own}

    def widths(self):
        """Returns the widths of a rule: even ones on routing layers."""
        metal = [number for number, layer in enumerate(self.layers) if layer.has_metal()]
        return {number: 2 * self.dice.between(1, self.plan.pitch) if self.dice.chance(0.7) else self.layers[number].width or 3
                for number in self.dice.some_of(metal, self.dice.below(5))}

    def lines(self):
        """Returns the section NONDEFAULTRULES, with entries that are no rule, and with a second one of a name."""
        if not self.own and not self.dice.chance(0.1):
            return []
        entries = [self.entry(name, widths) for name, widths in self.own.items()]
        if entries and self.dice.chance(0.2):
            entries.append(self.entry(self.dice.one_of(list(self.own)), self.widths()))
        for entry in self.dice.some_of(NO_RULES, self.dice.below(3)):
            entries.insert(self.dice.below(len(entries) + 1), entry)
        return self.writer.section('NONDEFAULTRULES', entries) or ['NONDEFAULTRULES 0 ;', 'END NONDEFAULTRULES']

    def entry(self, name, widths):
        """Returns the entry of a rule."""
        clauses = [f'+ LAYER {self.layers[number].name} WIDTH {self.writer.number(width)}{self.behind()}' for number, width in widths.items()]
        return ' '.join(['-', name, *self.dice.shuffled(clauses + self.writer.odd_forms(CLAUSES)), ';'])

    def behind(self):
        """Returns what may stand behind a width."""
        return self.dice.one_of(('', ' SPACING 3', ' DIAGWIDTH 4 SPACING 5', ' SPACING 1 WIREEXT 90', ' any words')) if self.writer.odd else ''

    def keeps(self, name):
        """Whether the wires of a rule are as wide as those without."""
        return all(width == self.layers[number].width for number, width in self.all[name].items() if self.layers[number].routes())

    def name(self, keeps):
        """Returns the name of a rule, or None; of one that keeps the widths of wires, if that is asked."""
        names = [name for name in self.all if not keeps or self.keeps(name)]
        return self.dice.one_of(names) if names else None
