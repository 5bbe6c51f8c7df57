"""Reading the nets of a DEF text and their wiring (docs/FORMATS.md, "Nets" and "Wiring")."""
from .design import Net, Patch, Segment, ViaAt
from .entries import EntryReader
from .figures import WideWiring
from .rects import ORIENTATIONS
from .rule_reader import RuleWiring
from .turned_vias import TurnedVias

UNREAD_NET_CLAUSES = ('NONDEFAULTRULE', 'SUBNET', 'VPIN', 'TAPERRULE', 'STYLE', 'MASK', 'VIRTUAL')
# Words of wiring that would change metal, and how many words each has after it (DO n BY m STEP x y).
UNREAD_IN_WIRING = {'TAPERRULE': 1, 'STYLE': 1, 'MASK': 1, 'VIRTUAL': 0, 'DO': 6}


class NetReader(WideWiring, RuleWiring, TurnedVias, EntryReader):
    """Reads entries of NETS and SPECIALNETS."""

    def net(self):
        self.net_entry(self.design.nets, is_special=False)

    def special_net(self):
        self.net_entry(self.design.special, is_special=True)

    def net_entry(self, entries, is_special):
        text = self.text
        if text.peek() == 'MUSTJOIN':
            text.refuse('MUSTJOIN is not supported', text.at, 'Unsupported')
        net = Net(self.new_name('net', entries))
        entries[net.name] = net
        self.net_rule, has_rule = self.rule_of_entry(is_special), []
        while text.words[text.at] == '(':
            self.terminal(net, is_special)

        def clause(word):
            if word in ('ROUTED', 'FIXED', 'COVER') or word == ('SHIELD' if is_special else 'NOSHIELD'):
                if word == 'SHIELD':
                    text.name('the name of a net')
                    text.past('SPECIALNETS + SHIELD, the name of its net', text.at - 1)
                if not (is_special and self.is_before_figure()):
                    self.wiring(net.wires, is_special)
            elif word == 'USE':
                self.twice(word, net.use)
                net.use = text.word('a use')
            elif word == 'NONDEFAULTRULE' and self.profile.is_wide and not is_special:
                self.twice(word, has_rule)
                has_rule.append(self.known_rule())
            elif is_special and self.is_figure(word):
                self.wide_figure(word, net.wires)
            elif word in UNREAD_NET_CLAUSES or is_special and word in ('RECT', 'POLYGON', 'VIA'):
                self.unread_clause(word, net, is_special)
            else:
                self.skip_clause(self.section_of(is_special))

        self.clauses(clause)

    def unread_clause(self, word, net, is_special):
        """Refuses a clause of a net whose word was taken: it would change metal or pins."""
        self.text.refuse(f'{word} of a net is not supported', kind='Unsupported')

    @staticmethod
    def section_of(is_special):
        return 'SPECIALNETS' if is_special else 'NETS'

    def terminal(self, net, is_special):
        text = self.text
        begin = text.at
        text.expect('(')
        if is_special and text.words[text.at] == '*':
            text.take()
            terminals = self.every_component(text.name('the name of a pin'))
        else:
            terminals = [self.one_terminal()]
        if text.peek() == '+':
            text.take()
            text.expect('SYNTHESIZED')
            text.past(f'{self.section_of(is_special)} + SYNTHESIZED', text.at - 2)
        text.expect(')')
        for terminal in terminals:
            if self.design.net_of.setdefault(terminal, net.name) != net.name:
                self.in_two_nets(terminal, net, begin)
            net.terminals[terminal] = None

    def in_two_nets(self, terminal, net, at):
        other = self.design.net_of[terminal]
        self.text.fault(f'{" ".join(terminal)} is in two nets, {other} and {net.name}', at, 'PinTwice', 'a terminal is in two nets')

    def every_component(self, pin):
        """Returns the terminals that `( * pin )` denotes."""
        return [(component.name, pin) for component in self.design.components.values() if pin in component.macro.pins]

    def one_terminal(self):
        text = self.text
        if text.peek() == 'PIN':
            text.take()
            return 'PIN', self.known('pin', self.design.pins).name
        component = self.known('component', self.design.components)
        pin = text.name('the name of a pin')
        if pin not in component.macro.pins:
            self.unknown_pin(component, pin)
        return component.name, pin

    def unknown_pin(self, component, pin):
        """Refuses the word that was taken last, a name that no pin of the component's macro has."""
        self.text.fault(f'macro {component.macro.name} has no pin {pin}', kind='UnknownName', form='a macro has no such pin')

    def wiring(self, wires, is_special):
        self.path(wires, is_special)
        while self.text.peek() == 'NEW':
            self.text.take()
            self.path(wires, is_special)

    def path(self, wires, is_special):
        """Takes one path, up to NEW, + or ;. An extension that is written at a point holds for both segments that meet there."""
        text, first = self.text, len(wires)
        layer = self.layer()
        if not layer.is_routing():
            layer = self.no_routing_layer(layer)
        self.rule, self.ends_at = self.rule_of_path(is_special), {}
        width = self.special_width() if is_special else self.width_on(layer)
        self.before_the_first_point(is_special)
        x, y, extension = self.path_point(None)
        ends_here = None
        while (word := text.words[text.at]) not in ('+', ';') and word.upper() != 'NEW':
            if self.skip_mask():
                word = text.words[text.at]
            if word == '(':
                begin = text.at
                to_x, to_y, given = self.path_point((x, y))
                if (to_x, to_y) == (x, y):
                    extension = extension if given is None else given
                    continue
                if to_x != x and to_y != y:
                    text.fault('a wire is neither horizontal nor vertical', begin, 'Diagonal')
                if width == 0:
                    self.no_width(layer, begin)
                self.settle(wires, ends_here, extension)
                half = 0 if is_special else width // 2
                ends_here = len(wires)
                self.ends_at[ends_here] = begin
                wires.append(Segment(layer.name, x, y, to_x, to_y, width, half if extension is None else extension, half))
                x, y, extension = to_x, to_y, given
            elif word.upper() == 'VIRTUAL' and self.profile.is_wide and not is_special:
                self.settle(wires, ends_here, extension)
                x, y = self.virtual_point((x, y))
                extension = ends_here = None
            elif word.upper() == 'RECT' and not is_special:
                wires.append(Patch(layer.name, x, y, self.patch()))
            else:
                layer = self.path_via(layer, wires, x, y, is_special)
                width = width if is_special else self.width_on(layer)
        self.settle(wires, ends_here, extension)
        if self.rule:
            self.keep_metal(wires, first)

    def no_width(self, layer, at):
        """Refuses a segment of the width 0 on a layer, whose second point begins with the word number `at`."""
        self.text.fault('a wire has the width 0', at, 'EmptyRect')

    def no_routing_layer(self, layer):
        """Refuses the word that was taken last, the name of a layer on which no wires run."""
        self.text.fault(f'{layer.name} is no routing layer', form='the layer of a path is no routing layer')

    def before_the_first_point(self, is_special):
        """Takes what comes before the first point of a path and has no effect: + SHAPE and its word."""
        text = self.text
        while text.words[text.at] != '(':
            begin = text.at
            at = begin + 1 if text.words[begin] == '+' else begin
            word = text.words[at].upper()
            if word in UNREAD_IN_WIRING:
                self.unread_in_wiring(word, begin)
            elif is_special and word == 'SHAPE' and at > begin:
                text.at = at + 1
                text.word('a shape')
                text.past('SPECIALNETS + SHAPE', begin)
            elif is_special and at > begin:
                text.refuse('only + SHAPE is allowed before the first point of a path', begin)
            else:
                break

    def unread_in_wiring(self, word, at):
        """Refuses a word of wiring that would change metal, which begins with the word number `at`."""
        form = 'the orientation of a via in wiring is not supported' if word in ORIENTATIONS else None
        self.text.fault(f'{word} in wiring is not supported', at, 'Unsupported', form)

    @staticmethod
    def settle(wires, at, extension):
        """Gives the segment that ends at a point the extension that was written there, if any was."""
        if at is not None and extension is not None:
            wires[at] = wires[at]._replace(after=extension)

    def path_point(self, last):
        """Takes a point of a path and its extension, None where none is written; `last` is the point before, if there is one."""
        text = self.text
        text.expect('(')
        numbers = [self.coordinate(last, axis) for axis in (0, 1)]
        extension = None
        if text.words[text.at] != ')':
            extension = text.whole()
            if extension < 0:
                text.fault('an extension is negative', kind='TooLarge')
        text.expect(')')
        return numbers[0], numbers[1], extension

    def special_width(self):
        text = self.text
        width = text.whole()
        if width < 0:
            text.fault('a width is negative', kind='TooLarge')
        elif width % 2:
            text.fault(f'the width {width} is odd', kind='OddWidth', form='the width of a wire is odd')
        return width

    def patch(self):
        text = self.text
        text.expect('RECT')
        at = text.at
        text.expect('(')
        sides = [text.whole() for _ in range(4)]
        text.expect(')')
        return text.with_area(sides, at)

    def path_via(self, layer, wires, x, y, is_special):
        """Takes the name of a via at a point, and returns the layer on which the path goes on."""
        text = self.text
        name = text.name('a via')
        word = name.upper()
        if word in UNREAD_IN_WIRING or word in ORIENTATIONS and word != 'N':
            self.unread_in_wiring(word, text.at - 1)
            return layer
        if word in ('RECT', 'TAPER', 'N'):
            text.unexpected('a via')
        via = self.design.vias[name] if name in self.design.vias else self.unknown('via', name)
        beyond, at = self.beyond(via, layer), text.at - 1
        via = self.in_orientation(via, is_special)
        if is_special and self.profile.is_wide and text.peek() == 'DO':
            wires += self.array_of(via, (x, y), at)
        else:
            wires.append(ViaAt(via, x, y))
        return beyond

    def in_orientation(self, via, is_special):
        """Takes the orientation behind a via, if one is read there, and returns the via in it."""
        text = self.text
        if text.peek() == 'N':
            text.take()
            text.past(f'{self.section_of(is_special)} N after a via', text.at - 1)
        elif text.peek() in ORIENTATIONS and self.profile.is_wide:
            return self.turned_via(via, text.take().upper())
        return via

    def beyond(self, via, layer):
        """Returns the layer on which a path goes on from this layer behind a via, whose name was taken last."""
        if not via.is_good() or layer.name not in (via.lower, via.upper):
            return self.no_way(via, layer)
        return self.library.layers[via.upper if layer.name == via.lower else via.lower]

    def no_way(self, via, layer):
        """Refuses the word that was taken last, the name of a via that does not lead on from this layer."""
        if via.is_good():
            self.text.fault(f'via {via.name} does not begin on {layer.name}', kind='ViaLayer', form='a via does not begin on the layer of its path')
        else:
            self.bad_via(via)
