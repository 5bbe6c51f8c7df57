"""Reads a DEF text as a design over a library."""
from . import geometry
from .figures import rect_segments
from .generated_via import clauses_of, generated_shapes, is_generated
from .lef_text import joined_layers
from .model import Blockage, Component, Design, DesignPin, Net, PlacedVia, Port, Row, Tracks, Via, numbers_of
from .polygon import slabs_of
from .profile import NARROW
from .rules import rules_of_section
from .turned_vias import TurnedVias
from .wiring_text import Scope, read_placed_via, read_wiring
from .words import Cursor, NotRead, words_of

READ_PAST = ('VERSION', 'NAMESCASESENSITIVE', 'TECHNOLOGY', 'HISTORY', 'GCELLGRID')
READ_PAST_BY_WORD = ('PROPERTYDEFINITIONS', 'NONDEFAULTRULES', 'REGIONS', 'FILLS', 'SLOTS', 'STYLES', 'SCANCHAINS', 'GROUPS', 'PINPROPERTIES')
PLACES = ('PLACED', 'FIXED', 'COVER')


def units_of(words):
    """Returns the number of units behind the first UNITS DISTANCE MICRONS."""
    cursor = Cursor(words)
    cursor.skip_past('UNITS', 'DISTANCE', 'MICRONS')
    return cursor.whole_number()


def read_design(words, library, profile=NARROW):
    """Returns the design that these words of a DEF denote."""
    return DefReader(words, library, profile).read()


class DefReader:
    """Reads one text; the numbers of what was named stand beside the lists."""

    def __init__(self, words, library, profile):
        self.text = Cursor(words)
        self.library = library
        self.profile = profile
        self.layers = numbers_of(library.layers)
        self.sites = numbers_of(library.sites)
        self.macros = numbers_of(library.macros)
        self.macro_pins = [numbers_of(macro.pins) for macro in library.macros]
        self.vias = {via.name: via for via in library.vias}
        self.rules = dict(library.rules)
        self.found = {'name': None, 'divider': None, 'bus_bits': None, 'units': units_of(words), 'die': None}
        self.rows, self.tracks, self.own_vias = [], [], []
        self.turned = TurnedVias(library.layers)
        self.sites_of_dropped_rows = set()
        self.components, self.component_numbers = [], {}
        self.pins, self.pin_numbers = [], {}
        self.blockages = []
        self.nets = {'NETS': [], 'SPECIALNETS': []}

    def read(self):
        """Reads the whole text."""
        forms = {'ROW': self.read_row, 'TRACKS': self.read_tracks, 'DIEAREA': self.read_die, 'VIAS': self.read_section,
                 'COMPONENTS': self.read_section, 'PINS': self.read_section, 'BLOCKAGES': self.read_section,
                 'SPECIALNETS': self.read_section, 'NETS': self.read_section}
        words = {'DESIGN': 'name', 'DIVIDERCHAR': 'divider', 'BUSBITCHARS': 'bus_bits'}
        while not self.text.takes('END'):
            word = self.text.keyword()
            if word in forms:
                forms[word](word)
            elif word in words:
                self.found[words[word]] = self.text.statement()[0]
            elif word in READ_PAST or word == 'UNITS' or word == 'COMPONENTMASKSHIFT' and self.profile.drops_masks:
                self.text.statement()
            elif word in READ_PAST_BY_WORD:
                self.skip_block(word)
            elif word == 'BEGINEXT':
                self.text.skip_past('ENDEXT')
            else:
                raise NotRead(f'there is no form {word}')
        self.text.expect('DESIGN')
        if any(self.library.macros[it.macro].site in self.sites_of_dropped_rows for it in self.components):
            raise NotRead('a row that is dropped is of the site of a component')
        self.append_pins()
        return Design(self.library, rows=self.rows, tracks=self.tracks, vias=self.own_vias + self.turned.vias, components=self.components, pins=self.pins,
                      blockages=self.blockages, special_nets=self.nets['SPECIALNETS'], nets=self.nets['NETS'], **self.found)

    def skip_block(self, word):
        """Goes past a section behind its first word; in the wide profile the rules among the entries of NONDEFAULTRULES are kept."""
        begin = self.text.at
        self.text.skip_past('END', word)
        if word == 'NONDEFAULTRULES' and self.profile.wide:
            self.rules = {**self.library.rules, **rules_of_section(self.text.words[begin:self.text.at - 2], self.library.layers)}

    def point(self):
        """Reads `( int int )`."""
        self.text.expect('(')
        point = self.text.whole_number(), self.text.whole_number()
        self.text.expect(')')
        return point

    def rectangle(self):
        """Reads two corners."""
        return geometry.between(self.point(), self.point())

    def polygon(self):
        """Reads the points of a polygon, and returns its slabs."""
        points = [self.point()]
        while self.text.takes('('):
            point = [last if self.text.takes('*') else self.text.whole_number() for last in points[-1]]
            self.text.expect(')')
            points.append(tuple(point))
        return slabs_of(points)

    def orientation(self):
        """Reads an orientation."""
        word = self.text.keyword()
        if word not in geometry.ORIENTATIONS:
            raise NotRead(f'{word} is no orientation')
        return word

    def skip_mask(self):
        """Goes past a mask if masks are dropped, and returns whether there was one."""
        if not self.profile.drops_masks or not self.text.takes('MASK'):
            return False
        self.text.whole_number()
        return True

    def skip_clause(self):
        """Goes to the next `+` or semicolon."""
        while self.text.peek() not in ('+', ';'):
            self.text.next()

    def read_die(self, _):
        """Reads the area of the die behind its first word: two or four corners."""
        corners = [self.point()]
        while not self.text.takes(';'):
            corners.append(self.point())
        self.found['die'] = geometry.box_around([corner + corner for corner in corners])

    def read_row(self, _):
        """Reads a row behind its first word."""
        name, site = self.text.next(), self.sites[self.text.next()]
        x, y = self.text.whole_number(), self.text.whole_number()
        orientation = self.orientation()
        count = lines = 1
        if self.text.takes('DO'):
            count = self.text.whole_number()
            self.text.expect('BY')
            lines = self.text.whole_number()
        self.text.statement()
        if orientation in ('W', 'E', 'FW', 'FE') or lines != 1:
            if not self.profile.wide or lines < 1:
                raise NotRead('a row is turned or has several lines')
            self.sites_of_dropped_rows.add(site)
        else:
            self.rows.append(Row(name, site, x, y, orientation, count))

    def read_tracks(self, _):
        """Reads tracks behind their first word."""
        axis, start = self.text.keyword(), self.text.whole_number()
        self.text.expect('DO')
        count = self.text.whole_number()
        self.text.expect('STEP')
        step = self.text.whole_number()
        if self.skip_mask():
            self.text.takes('SAMEMASK')
        layers = [self.layers[name] for name in self.text.statement()[1:]]
        self.tracks.append(Tracks(axis, start, count, step, tuple(layers)))

    def read_section(self, section):
        """Reads a section behind its first word; one of nets that is not read without turned vias is read anew with those that it names."""
        begin = self.text.at
        try:
            self.read_entries(section)
        except NotRead:
            if not self.profile.wide or section not in self.nets:
                raise
            self.text.at, self.nets[section] = begin, []
            self.text.skip_past('END')
            self.turned.find(self.text.words[begin:self.text.at - 1], self.vias)
            self.text.at = begin
            self.read_entries(section)

    def read_entries(self, section):
        """Reads the entries of a section behind its first word."""
        entries = {'VIAS': self.read_via, 'COMPONENTS': self.read_component, 'PINS': self.read_pin,
                   'BLOCKAGES': self.read_blockage, 'SPECIALNETS': self.read_net, 'NETS': self.read_net}
        self.text.whole_number()
        self.text.expect(';')
        while self.text.takes('-'):
            entries[section](section)
        self.text.expect('END', section)

    def read_via(self, _):
        """Reads an entry of VIAS behind its mark."""
        name = self.text.next()
        if self.profile.wide and is_generated(self.text.words[self.text.at:self.text.words.index(';', self.text.at)]):
            shapes = generated_shapes(clauses_of(self.text.statement()), self.layers)
        else:
            shapes = self.via_rectangles()
        via = Via(name, tuple(shapes), False, joined_layers(self.library.layers, name, shapes))
        self.own_vias.append(via)
        self.vias[name] = via

    def via_rectangles(self):
        """Reads the clauses of a plain via, and returns its shapes."""
        shapes = []
        while not self.text.takes(';'):
            self.text.expect('+')
            if self.text.takes('RECT'):
                shapes += self.rectangle_on_layer()
            else:
                self.skip_clause()
        return shapes

    def rectangle_on_layer(self):
        """Reads a layer and a rectangle, and returns it in a list, which is empty if the layer has no metal."""
        layer = self.layers[self.text.next()]
        return self.on_metal(layer, [self.rectangle()])

    def shapes_of_port(self, word):
        """Reads a layer and a rectangle or a polygon of a port, and returns its shapes, none if the layer has no metal."""
        layer = self.layers[self.text.next()]
        self.skip_mask()
        while self.text.peek() in ('SPACING', 'DESIGNRULEWIDTH'):
            self.text.next()
            self.text.whole_number()
        return self.on_metal(layer, [self.rectangle()] if word == 'LAYER' else self.polygon())

    def on_metal(self, layer, rects):
        """Returns rectangles as shapes of a layer, and none if the layer has no metal."""
        return [(layer, rect) for rect in rects] if self.library.layers[layer].has_metal() else []

    def read_component(self, _):
        """Reads an entry of COMPONENTS behind its mark."""
        name, macro = self.text.next(), self.macros[self.text.next()]
        status, place, orientation = 'UNPLACED', None, None
        while not self.text.takes(';'):
            self.text.expect('+')
            if self.text.peek() in PLACES:
                status, place, orientation = self.text.keyword(), self.point(), self.orientation()
            else:
                self.skip_clause()
        self.component_numbers[name] = len(self.components)
        self.components.append(Component(name, macro, status, place, orientation))

    def read_pin(self, _):
        """Reads an entry of PINS behind its mark."""
        name = self.text.next()
        words = {'NET': None, 'DIRECTION': None, 'USE': None}
        ports = []
        while not self.text.takes(';'):
            self.text.expect('+')
            word = self.text.keyword()
            if word in words:
                words[word] = self.text.next()
            elif word == 'PORT':
                ports.append(Port((), None, None, None))
            elif word == 'LAYER' or word in PLACES or word in ('VIA', 'POLYGON') and self.profile.wide:
                last = ports.pop() if ports else Port((), None, None, None)
                ports.append(self.continued_port(last, word))
            else:
                self.skip_clause()
        self.pin_numbers[name] = len(self.pins)
        self.pins.append(DesignPin(name, words['NET'], words['DIRECTION'], words['USE'], tuple(ports)))

    def continued_port(self, port, word):
        """Returns the port with what the clause with this word adds."""
        if word in ('LAYER', 'POLYGON'):
            return port._replace(shapes=port.shapes + tuple(self.shapes_of_port(word)))
        if word == 'VIA':
            return port._replace(shapes=port.shapes + tuple(self.via_shapes()))
        return port._replace(status=word, place=self.point(), orientation=self.orientation())

    def via_shapes(self):
        """Reads a good via and a point, and returns its shapes there."""
        via = self.vias[self.text.next()]
        if not via.joins:
            raise NotRead(f'{via.name} is not good')
        self.skip_mask()
        by = self.point()
        return [(layer, geometry.moved(rect, by)) for layer, rect in via.shapes]

    def read_blockage(self, _):
        """Reads an entry of BLOCKAGES behind its mark, and leaves it out if its layer has no metal, or if it is dropped."""
        layer = None
        if not self.text.takes('PLACEMENT'):
            self.text.expect('LAYER')
            layer = self.layers[self.text.next()]
        kept = [self.keeps_blockage(layer) for _ in iter(lambda: self.text.takes('+'), False)]
        rects = []
        while not rects or not self.text.takes(';'):
            if self.profile.wide and self.text.takes('POLYGON'):
                rects += self.polygon()
            else:
                self.text.expect('RECT')
                rects.append(self.rectangle())
        if all(kept) and (layer is None or self.library.layers[layer].has_metal()):
            self.blockages.append(Blockage(layer, tuple(rects)))

    def keeps_blockage(self, layer):
        """Reads a clause of a blockage of this layer behind its mark, and returns whether the blockage is kept with it."""
        profile, word = self.profile, self.text.keyword()
        if word == 'COMPONENT' and profile.wide:
            self.text.next()
        elif word in ('SLOTS', 'FILLS') and profile.wide and layer is not None:
            return False
        elif word in ('SOFT', 'PARTIAL') and profile.soft and layer is None:
            if word == 'PARTIAL':
                self.text.next()
            return profile.soft == 'hard'
        elif word == 'MASK' and profile.drops_masks and layer is not None:
            self.text.whole_number()
        elif word != 'PUSHDOWN':
            raise NotRead(f'a blockage has {word}')
        return True

    def read_net(self, section):
        """Reads an entry of NETS or SPECIALNETS behind its mark."""
        name, terminals, use, wires = self.text.next(), {}, None, []
        scope = Scope(self.library.layers, self.layers, self.vias, self.profile, self.rules, self.rule_of_net(section), self.turned)
        is_wide = self.profile.wide and section == 'SPECIALNETS'
        while self.text.takes('('):
            terminals.update(dict.fromkeys(self.read_terminals()))
        while not self.text.takes(';'):
            self.text.expect('+')
            word = self.text.keyword()
            if word == 'USE':
                use = self.text.next()
            elif word in ('ROUTED', 'FIXED', 'COVER', 'NOSHIELD', 'SHIELD'):
                if word == 'SHIELD':
                    self.text.next()
                if not (is_wide and self.text.peek() == '+'):
                    wires += read_wiring(self.text, scope, section == 'SPECIALNETS')
            elif word in ('RECT', 'VIA', 'POLYGON') and is_wide:
                wires += self.read_figure(word, scope)
            else:
                self.skip_clause()
        self.nets[section].append(Net(name, tuple(terminals), use, tuple(wires)))

    def rule_of_net(self, section):
        """Returns the widths of the rule that the entry names, whose words come next, or None."""
        words = self.text.words[self.text.at:self.text.words.index(';', self.text.at)]
        names = [name for mark, word, name in zip(words, words[1:], words[2:]) if mark == '+' and word.upper() == 'NONDEFAULTRULE']
        if not names:
            return None
        if len(names) > 1 or section != 'NETS' or not self.profile.wide or names[0] not in self.rules:
            raise NotRead(f'an entry has the rule {names[0]}')
        return self.rules[names[0]]

    def read_figure(self, word, scope):
        """Reads a figure of a special net behind its word, RECT, POLYGON or VIA, and returns its wires."""
        if word != 'VIA':
            layer = self.layers[self.text.next()]
            rects = [self.rectangle()] if word == 'RECT' else self.polygon()
            return [segment for rect in rects for segment in rect_segments(layer, rect)]
        via = read_placed_via(self.text, scope)
        if not via.joins:
            raise NotRead(f'{via.name} is not good')
        points = [self.point()]
        while self.text.peek() == '(':
            points.append(self.point())
        return [PlacedVia(via, point) for point in points]

    def read_terminals(self):
        """Reads a terminal behind its parenthesis, or in SPECIALNETS a pin of all components."""
        component, pin = self.text.next(), self.text.next()
        if self.text.takes('+'):
            self.text.expect('SYNTHESIZED')
        self.text.expect(')')
        if component.upper() == 'PIN':
            return [(None, self.pin_numbers[pin])]
        if component != '*':
            number = self.component_numbers[component]
            return [(number, self.macro_pins[self.components[number].macro][pin])]
        having = [(number, self.macro_pins[component.macro]) for number, component in enumerate(self.components)]
        return [(number, pins[pin]) for number, pins in having if pin in pins]

    def append_pins(self):
        """Appends each pin of the design that no entry lists to the entry that its NET names."""
        listed = {terminal for nets in self.nets.values() for net in nets for terminal in net.terminals}
        numbers = {section: numbers_of(nets) for section, nets in self.nets.items()}
        for number, pin in enumerate(self.pins):
            section = next((section for section in ('NETS', 'SPECIALNETS') if pin.net in numbers[section]), None)
            if section is None or (None, number) in listed:
                continue
            place = numbers[section][pin.net]
            net = self.nets[section][place]
            self.nets[section][place] = net._replace(terminals=net.terminals + ((None, number),))


def read_texts(lefs, text, profile=NARROW):
    """Returns the design of these LEF texts and this DEF text."""
    from .lef_text import read_library
    words = words_of(text)
    return read_design(words, read_library(lefs, units_of(words), profile), profile)
