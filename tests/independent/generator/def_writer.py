"""Writes a design as a DEF text, in one of the many ways that say the same."""
from .lef_writer import spelled
from .path_writer import PathWriter
from .odd_words import respaced

HEAD_FORMS = ('NAMESCASESENSITIVE ON ;', 'TECHNOLOGY any ;', 'HISTORY any words ( + - ;', 'GCELLGRID X 0 DO 3 STEP 100 ;',
              'PROPERTYDEFINITIONS DESIGN any INTEGER 3 ; END PROPERTYDEFINITIONS', 'BEGINEXT "any" - words ; ENDEXT',
              'REGIONS 1 ; - any ( 0 0 ) ( 9 9 ) ; END REGIONS', '# a comment with END DESIGN')
COMPONENT_CLAUSES = ('+ SOURCE DIST', '+ WEIGHT 3', '+ HALO 1 1 1 1', '+ PROPERTY any 1')
NET_CLAUSES = ('+ SOURCE TEST', '+ WEIGHT 2', '+ XTALK 1', '+ PATTERN STEINER')
PIN_CLAUSES = ('+ SPECIAL', '+ ANTENNAPINGATEAREA 10 LAYER m1')


class DefWriter:
    """Writes the DEF text of a block."""

    def __init__(self, dice, plan, design):
        self.dice = dice
        self.has_blockages = plan.has_blockages
        self.design = design
        self.layers = design.library.layers
        self.odd = dice.one_of((0.0, 0.05, 0.2))
        self.joins = dice.one_of((0.0, 0.5, 0.95))
        self.stars = dice.chance(0.7)

    def text(self):
        """Returns the whole text."""
        design, dice = self.design, self.dice
        floorplan = [self.rows(), [self.tracks(tracks) for tracks in design.tracks]]
        parts = [self.section('VIAS', self.vias()),
                 self.section('COMPONENTS', [self.component(it) for it in design.components]),
                 self.section('PINS', [self.pin(it) for it in design.pins])]
        parts += [self.blockages()] if self.has_blockages else []
        both = [self.section('SPECIALNETS', [self.net(it, True) for it in design.special_nets]),
                self.section('NETS', [self.net(it, False) for it in design.nets])]
        # (vias, components and pins stand before the nets, which name them)
        parts = (self.shuffled(parts) if dice.chance(self.odd) else parts) + (both[::-1] if dice.chance(self.odd) else both)
        for part in floorplan[::-1]:
            parts.insert(dice.below(len(parts) + 1) if dice.chance(self.odd) else 0, part)
        lines = [line for part in [self.head(), *parts, ['END DESIGN']] for line in part]
        return respaced(dice, self.odd, ''.join(line + '\n' for line in lines))

    def shuffled(self, parts):
        """Returns the sections before the nets in another order."""
        return self.dice.shuffled(parts)

    def head(self):
        """Returns the lines before the rows."""
        design = self.design
        # (a name that ends with a semicolon can stand only before one that directly follows it)
        blank = '' if design.name.endswith(';') else ' '
        lines = [f'DESIGN {design.name}{blank};', f'UNITS DISTANCE MICRONS {design.units} ;', f'DIEAREA {self.die(design.die)} ;']
        lines += [f'DIVIDERCHAR {design.divider} ;'] if design.divider else []
        lines += [f'BUSBITCHARS {design.bus_bits} ;'] if design.bus_bits else []
        lines = self.dice.shuffled(lines) if self.odd else lines
        return ['VERSION 5.7 ;', *self.odd_forms(HEAD_FORMS), *lines]

    def odd_forms(self, forms):
        """Returns some of these forms that are read past."""
        return [form for form in forms if self.dice.chance(self.odd / 2)]

    def key(self, word):
        """Returns a keyword, in some cases in small letters."""
        return spelled(self.dice, word) if self.dice.chance(self.odd) else word

    def number(self, value):
        """Returns a whole number, in some cases with a sign or zeros that it does not need."""
        if not self.dice.chance(self.odd / 4):
            return str(value)
        return f'-0{-value}' if value < 0 else self.dice.one_of((f'+{value}', f'00{value}'))

    def point(self, point):
        return f'( {self.number(point[0])} {self.number(point[1])} )'

    def corners(self, rect):
        """Returns two opposite corners of a rectangle."""
        left, lower, right, upper = rect
        if self.dice.chance(self.odd):
            return f'{self.point((right, lower))} {self.point((left, upper))}'
        return f'{self.point((left, lower))} {self.point((right, upper))}'

    def die(self, rect):
        """Returns the corners of the die, in some cases all four of them."""
        if not self.dice.chance(self.odd):
            return self.corners(rect)
        left, lower, right, upper = rect
        around = [(left, lower), (left, upper), (right, upper), (right, lower)]
        first = self.dice.below(4)
        around = around[first:] + around[:first]
        return ' '.join(self.point(it) for it in (around[::-1] if self.dice.chance(0.5) else around))

    @staticmethod
    def section(word, entries):
        """Returns the lines of a section; the number is not that of the entries, which nobody compares."""
        return [f'{word} {len(entries) or 7} ;', *entries, f'END {word}'] if entries else []

    def rows(self):
        """Returns the lines of rows."""
        return [self.row(row) for row in self.design.rows]

    def row(self, row):
        site = self.design.library.sites[row.site]
        words = f'ROW {row.name} {site.name} {self.number(row.x)} {self.number(row.y)} {self.key(row.orientation)}'
        if row.count == 1 and self.dice.chance(0.5):
            return f'{words} ;'
        step = f' STEP {site.width} {self.dice.below(9)}' if not self.dice.chance(self.odd) else ''
        return f'{words} DO {row.count} BY 1{step}{" + PROPERTY any 1" if self.dice.chance(self.odd) else ""} ;'

    def tracks(self, tracks):
        layers = ''.join(f' {self.layers[number].name}' for number in tracks.layers)
        layers = f' {self.key("LAYER")}{layers}' if layers else ''
        return f'TRACKS {tracks.axis} {self.number(tracks.start)} DO {tracks.count} STEP {tracks.step}{self.mask(" SAMEMASK")}{layers} ;'

    def mask(self, *more):
        """Returns a mask behind a blank, where one has no effect; more has what may stand behind it."""
        return ''

    def vias(self):
        """Returns the entries of VIAS."""
        return [self.via(via) for via in self.design.vias]

    def via(self, via):
        return f'- {via.name} ' + ' '.join(f'+ RECT {self.layers[layer].name} {self.corners(rect)}' for layer, rect in via.shapes) + ' ;'

    def component(self, component):
        """Returns an entry of COMPONENTS."""
        clauses = self.odd_forms(COMPONENT_CLAUSES)
        if component.place:
            clauses.append(self.place(component))
        elif self.dice.chance(0.7):
            clauses.append(f'+ {self.key("UNPLACED")}')
        macro = self.design.library.macros[component.macro].name
        return ' '.join(['-', component.name, macro, *self.dice.shuffled(clauses), ';'])

    def place(self, item):
        return f'+ {self.key(item.status)} {self.point(item.place)} {self.key(item.orientation)}'

    def pin(self, pin):
        """Returns an entry of PINS; a first port is not announced in some cases."""
        clauses = [f'+ {key} {word}' for key, word in (('NET', pin.net), ('DIRECTION', pin.direction), ('USE', pin.use)) if word]
        clauses = self.dice.shuffled(clauses + self.odd_forms(PIN_CLAUSES))
        for number, port in enumerate(pin.ports):
            if number or not (port.shapes or port.place) or self.dice.chance(0.5):
                clauses.append('+ PORT')
            shapes = [self.port_shape(*shape) for shape in port.shapes]
            place = [self.place(port)] if port.place else []
            clauses += place + shapes if self.dice.chance(self.odd) else shapes + place
        return ' '.join(['-', pin.name, *clauses, ';'])

    def port_shape(self, layer, rect):
        """Returns the clause of a shape of a port."""
        return f'+ {self.key("LAYER")} {self.layers[layer].name}{self.mask()}{self.middle_of_shape()} {self.corners(rect)}'

    def middle_of_shape(self):
        """Returns what may stand behind the layer of a shape of a port."""
        return self.dice.one_of((' SPACING 3', ' DESIGNRULEWIDTH 4')) if self.dice.chance(self.odd) else ''

    def blockages(self):
        """Returns the section BLOCKAGES, with entries on layers without metal in some cases."""
        entries = [self.blockage(it) for it in self.design.blockages]
        bare = [layer.name for layer in self.layers if not layer.has_metal()]
        for _ in range(self.dice.below(3) if bare and self.dice.chance(0.5) else 0):
            words = f'- {self.key("LAYER")} {self.dice.one_of(bare)} RECT ( 0 0 ) ( 9 9 ) ;'
            entries.insert(self.dice.below(len(entries) + 1), words)
        if not entries and self.dice.chance(0.5):
            return ['BLOCKAGES 0 ;', 'END BLOCKAGES']
        return self.section('BLOCKAGES', entries)

    def blockage(self, blockage):
        """Returns an entry of BLOCKAGES."""
        words = self.key('PLACEMENT') if blockage.layer is None else f'{self.key("LAYER")} {self.layers[blockage.layer].name}'
        pushed = [f'+ {self.key("PUSHDOWN")}' for _ in range(self.dice.between(1, 2) if self.dice.chance(0.2) else 0)]
        return ' '.join(['-', words, *self.with_other_clauses(pushed, blockage), *map(self.blocked, blockage.rects), ';'])

    def blocked(self, rect):
        """Returns a rectangle of a blockage."""
        return f'{self.key("RECT")} {self.corners(rect)}'

    def with_other_clauses(self, clauses, blockage):
        """Returns the clauses of a blockage, with others that it may have."""
        return clauses

    def path_writer(self, special):
        """Returns what writes wires."""
        return PathWriter(self.dice, self.layers, special, self.number, self.joins)

    def net(self, net, special):
        """Returns an entry of NETS or SPECIALNETS."""
        clauses = [f'+ USE {net.use}'] if net.use else []
        clauses = self.dice.shuffled(clauses + self.odd_forms(NET_CLAUSES))
        writer = self.path_writer(special)
        terminals = self.starred(net) if special and self.stars else self.terminals(net, special)
        wires = writer.text(net.wires)
        parts = [*clauses, wires] if self.dice.chance(0.8) else [wires, *clauses]
        return ' '.join(['-', net.name, *terminals, *parts, ';'])

    def terminals(self, net, special):
        """Returns the words of terminals; pins of the design at the end that name the net need not be listed in some cases."""
        kept = len(net.terminals)
        while kept and self.dice.chance(0.5) and self.is_appended(net, kept - 1, special):
            kept -= 1
        words = [self.terminal(it) for it in net.terminals[:kept]]
        return words + ([words[0]] if words and self.dice.chance(self.odd) else [])

    def is_appended(self, net, place, special):
        """Whether the terminal at this place is a pin that names the net, before the pins that follow it; an entry of NETS comes first."""
        component, pin = net.terminals[place]
        follows = place + 1 == len(net.terminals) or net.terminals[place + 1][0] is None and pin < net.terminals[place + 1][1]
        is_second = special and any(it.name == net.name for it in self.design.nets)
        return component is None and self.design.pins[pin].net == net.name and follows and not is_second

    def terminal(self, terminal):
        """Returns the words of a terminal."""
        component, pin = terminal
        more = ' + SYNTHESIZED' if self.dice.chance(self.odd) else ''
        if component is None:
            return f'( {self.key("PIN")} {self.design.pins[pin].name}{more} )'
        return f'( {self.design.components[component].name} {self.design.macro_of(component).pins[pin].name}{more} )'

    def starred(self, net):
        """Returns the words of the terminals of a special net by `*`, where they are all pins of one name."""
        names = {self.design.macro_of(component).pins[pin].name for component, pin in net.terminals if component is not None}
        whole = [(number, place) for number in range(len(self.design.components))
                 for place, pin in enumerate(self.design.macro_of(number).pins) if {pin.name} == names]
        return [f'( * {names.pop()} )'] if whole == list(net.terminals) and names else self.terminals(net, True)
