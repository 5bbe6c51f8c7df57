"""Reading nondefault rules of a DEF, and wires under rules (docs/FORMATS.md, "Nondefault rules" and "Wiring")."""
from .design import Patch, Segment
from .library import Rule
from .rects import moved
from .words import GREATEST_NUMBER, MARKS, WHOLE, value_of


def rules_of_section(words, layers):
    """Returns the rules of a section by their names; words are those between NONDEFAULTRULES and its END."""
    rules, entry = {}, []
    if not WHOLE.fullmatch(''.join(words[:1])) or words[1:2] != [';'] or words[-1] != ';':
        return rules
    for word in words[2:]:
        entry.append(word)
        if word == ';':
            rule = rule_of_entry(entry[:-1], layers)
            if rule:
                rules.setdefault(rule.name, rule)
            entry = []
    return rules


def rule_of_entry(words, layers):
    """Returns the rule of an entry of these words, or None of one that is none."""
    if words[:1] != ['-'] or words[1:2] in ([], ['+']) or words[1] in MARKS or words[1][0] == '"' or words[2:3] not in ([], ['+']):
        return None
    widths, starts = {}, [at for at, word in enumerate(words) if word == '+']
    for at in starts:
        if [it.upper() for it in words[at + 1:at + 2]] == ['LAYER']:
            layer, width = width_of_clause(words[at + 2:at + 5], layers)
            if layer is None or layer in widths:
                return None
            widths[layer] = width
    return Rule(words[1], widths)


def width_of_clause(words, layers):
    """Returns the layer and the width that a clause LAYER of a rule gives by the words behind that word, or None twice."""
    if len(words) < 3 or words[1].upper() != 'WIDTH' or not WHOLE.fullmatch(words[2]):
        return None, None
    layer, width = layers.get(words[0]), value_of(words[2])
    return (layer.name, width) if layer and layer.has_metal() and 1 <= width <= GREATEST_NUMBER else (None, None)


class RuleWiring:
    """What a reader of nets has for wires under rules. `net_rule` is the rule of the entry, and `rule` that of the path, each None where there is
    none; `ends_at` has the place of the second point of each segment of the path, by the number of the wire."""
    net_rule = rule = None

    def rule_of_entry(self, is_special):
        """Returns the rule that the entry whose words come next names, or None where it names none, or one that is not known."""
        words = self.text.words
        for at in range(self.text.at, self.text.count):
            if words[at] == ';' or is_special or not self.profile.is_wide:
                break
            if words[at] == '+' and words[at + 1].upper() == 'NONDEFAULTRULE':
                return self.design.rules.get(words[at + 2])
        return None

    def known_rule(self):
        """Takes the name of a rule that was defined before, and returns the rule, or None where it is refused."""
        name = self.text.name('the name of a nondefault rule')
        return self.design.rules[name] if name in self.design.rules else self.unknown('nondefault rule', name)

    def rule_of_path(self, is_special):
        """Takes TAPER, or TAPERRULE and its rule, if that comes next, and returns the rule of the path, whose layer was taken, or None."""
        text = self.text
        if is_special:
            return None
        if text.peek() == 'TAPER':
            text.take()
            text.past('NETS TAPER', text.at - 1)
            return None
        if text.peek() == 'TAPERRULE' and self.profile.is_wide:
            text.take()
            return self.known_rule()
        return self.net_rule

    def width_on(self, layer):
        """Returns the width of wires of the path on a layer."""
        return self.rule.widths.get(layer.name, layer.width) if self.rule else layer.width

    def keep_metal(self, wires, first):
        """Makes patches of the segments from the number `first` on whose width is not that of their layer."""
        for number in range(first, len(wires)):
            wire = wires[number]
            layer = self.library.layers.get(wire.layer) if isinstance(wire, Segment) else None
            if layer and wire.width != layer.width:
                wires[number] = self.patch_of(wire, self.ends_at[number])

    def patch_of(self, wire, at):
        """Returns the patch at the first point of a segment that is all its metal; its second point begins with the word number `at`."""
        if wire.width % 2:
            self.text.fault(f'the width {wire.width} of a rule is odd', at, 'OddWidth', 'the width of a rule is odd where a wire has it')
        (layer, rect), = self.design.wire_rects(wire)
        rect = moved(rect, -wire.x1, -wire.y1)
        if max(map(abs, rect)) > GREATEST_NUMBER:
            self.text.fault(f'a wire of a rule is longer than {GREATEST_NUMBER}', at, 'TooLarge')
        return Patch(layer, wire.x1, wire.y1, rect)
