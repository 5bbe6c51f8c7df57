"""Reading a DEF text (docs/FORMATS.md, "DEF"); nets and their wiring are read by `net_reader`."""
from .blockage_reader import BlockageReader
from .design import Component, Design, Pin, Place, Port, Row, Tracks
from .generated_via import GeneratedEntry, is_generated
from .library import Via, joined_layers, why_not_joined
from .net_reader import NetReader
from .profile import NARROW
from .rects import ORIENTATIONS, moved
from .rule_reader import rules_of_section
from .words import GREATEST_NUMBER, WHOLE, Words, value_of

GREATEST_UNITS = 20_000


def read_design(path, library, profile=NARROW):
    """Returns the design that a DEF text denotes in a profile, under a library in millionths of a micron."""
    text = Words(path)
    units = units_of(text)
    return DefReader(text, Design(library.at(units), units)).within(profile).read()


def units_of(text):
    """Returns the number after the first words UNITS DISTANCE MICRONS that follow one another."""
    for at, word in enumerate(text.words):
        if len(word) == 5 and [it.upper() for it in text.words[at:at + 3]] == ['UNITS', 'DISTANCE', 'MICRONS']:
            text.at = at + 3
            units = text.whole()
            if not 1 <= units <= GREATEST_UNITS:
                text.refuse(f'the units a micron are 1 to {GREATEST_UNITS}', kind='TooLarge')
            text.expect(';')
            text.at = 0
            return units
    return text.refuse('UNITS DISTANCE MICRONS is missing', text.count, 'UnexpectedEnd')


SKIPPED_LINES = ('VERSION', 'NAMESCASESENSITIVE', 'TECHNOLOGY', 'HISTORY', 'GCELLGRID')
SKIPPED_SECTIONS = ('PROPERTYDEFINITIONS', 'NONDEFAULTRULES', 'REGIONS', 'FILLS', 'SLOTS', 'STYLES', 'SCANCHAINS', 'GROUPS', 'PINPROPERTIES')


class DefReader(BlockageReader):
    """Reads a DEF text into a design."""
    net_reader = NetReader

    def __init__(self, text, design):
        super().__init__(text, design)
        self.seen = set()
        self.dropped_rows, self.rects_of_vias = [], 0
        self.nets = self.net_reader(text, design)
        self.forms = {'DIVIDERCHAR': self.kept_word, 'BUSBITCHARS': self.kept_word, 'DESIGN': self.design_name, 'UNITS': self.units,
                      'DIEAREA': self.die, 'ROW': self.row, 'TRACKS': self.tracks}
        self.sections = {'VIAS': self.via, 'COMPONENTS': self.component, 'PINS': self.pin, 'BLOCKAGES': self.blockage,
                         'SPECIALNETS': self.nets.special_net, 'NETS': self.nets.net}

    def within(self, profile):
        self.nets.within(profile)
        return super().within(profile)

    def read(self):
        while (word := self.text.keyword()) != 'END':
            self.form(word)
        self.end()
        return self.design

    def form(self, word):
        """Takes a form of a DEF, whose first word was taken."""
        text, begin = self.text, self.text.at - 1
        if word in self.forms or word in self.sections:
            if word in self.seen and word not in ('ROW', 'TRACKS'):
                text.fault(f'{word} appears twice')
            self.seen.add(word)
        if word in self.forms:
            self.forms[word]()
        elif word in self.sections:
            self.nets.section_at = text.at
            self.section(word, self.sections[word])
            self.seen.update(('VIAS',) if self.design.turned_vias else ())
        else:
            self.skip_form(word)
            self.keep_rules(word, begin)
            text.past(word, begin)

    def keep_rules(self, word, begin):
        """Keeps the rules of a section that was read past, if it is one of rules; its word is the word number `begin`."""
        if word == 'NONDEFAULTRULES' and self.profile.is_wide:
            rules = rules_of_section(self.text.words[begin + 1:self.text.at - 2], self.library.layers)
            self.design.rules = {**self.library.rules, **rules}

    def skip_form(self, word):
        text = self.text
        if word in SKIPPED_LINES or word == 'COMPONENTMASKSHIFT' and self.profile.drops_masks:
            text.skip_statement()
        elif word in SKIPPED_SECTIONS:
            text.skip_block(word)
        elif word == 'BEGINEXT':
            while text.keyword() != 'ENDEXT':
                pass
        else:
            text.refuse(f'{text.words[text.at - 1]} is no form of a DEF', form='a word is no form of a DEF')

    def end(self):
        text = self.text
        at = text.at - 1
        text.expect('DESIGN')
        for word in ('DESIGN', 'UNITS', 'DIEAREA'):
            if word not in self.seen:
                text.fault(f'{word} is missing', at)
        if text.more():
            text.fault('nothing may follow END DESIGN', text.at)
        self.judge_dropped_rows()
        listed = self.design.net_of
        for pin in self.design.pins.values():
            entry = self.design.nets.get(pin.net) or self.design.special.get(pin.net)
            if ('PIN', pin.name) not in listed and entry:
                entry.terminals['PIN', pin.name] = None
                listed['PIN', pin.name] = entry.name

    def judge_dropped_rows(self):
        """Refuses the first row that was dropped and whose site a component's macro has."""
        used = {component.macro.site for component in self.design.components.values()}
        for site, at in self.dropped_rows:
            if site in used:
                self.text.fault(f'components have the site {site} of a row that is turned, or of several rows', at, 'BadRow',
                                'components have the site of a row that is dropped')
                break

    def kept_word(self):
        text = self.text
        text.word('a word')
        text.expect(';')

    def design_name(self):
        self.design.name = self.text.name('the name of the design')
        self.text.expect(';')

    def units(self):
        text = self.text
        text.expect('DISTANCE')
        text.expect('MICRONS')
        if text.whole() != self.design.units:
            text.refuse('the units differ from those found first')
        text.expect(';')

    def die(self):
        text, begin, points = self.text, self.text.at, []
        while text.peek() != ';':
            points.append(self.point())
        text.expect(';')
        if len(points) == 4:
            (a, b), (c, d), (e, f), (g, h) = points
            if not (a == c and d == f and e == g and h == b or b == d and c == e and f == h and g == a) or a == e or b == f:
                text.refuse('a die area that is no rectangle is not supported', begin, 'Unsupported')
            points = [points[0], points[2]]
        if len(points) != 2:
            text.refuse('a die area of other than two or four points is not supported', begin, 'Unsupported')
        self.design.die = text.with_area(points[0] + points[1], begin)

    def row(self):
        text, begin = self.text, self.text.at - 1
        name, site = text.name('the name of a row'), self.known('site', self.library.sites)
        at = text.at
        x, y, orientation, count = text.whole(), text.whole(), self.orientation(), 1
        turned_at = text.at - 1
        if self.profile.is_wide and self.is_row_dropped(orientation):
            self.dropped_rows.append((site.name, turned_at if orientation in ('W', 'E', 'FW', 'FE') else text.at + 3))
            self.rest_of_dropped_row(begin)
            return
        if orientation in ('W', 'E', 'FW', 'FE'):
            text.fault(f'a row of orientation {orientation} is not supported', kind='BadRow', form='a row is turned')
        if text.peek() == 'DO':
            count = self.row_sites(site)
        if x + count * site.width > GREATEST_NUMBER:
            text.fault(f'the row ends beyond {GREATEST_NUMBER}', at, 'TooLarge')
        if text.peek() == '+':
            begin = text.at + 1
            text.skip_statement()
            text.past(f'ROW + {text.words[begin].upper()}', begin)
        else:
            text.expect(';')
        self.design.rows.append(Row(name, site.name, x, y, orientation, count))

    def is_row_dropped(self, orientation):
        """Returns whether a row of this orientation, behind which the words come next, is one that the wide profile drops."""
        words, at = self.text.words, self.text.at
        lines = words[at + 3] if [it.upper() for it in (words[at:at + 1] + words[at + 2:at + 3])] == ['DO', 'BY'] else '1'
        return orientation in ('W', 'E', 'FW', 'FE') or bool(WHOLE.fullmatch(lines)) and value_of(lines) > 1

    def rest_of_dropped_row(self, begin):
        """Takes the rest of a row that is dropped."""
        text = self.text
        if text.peek() == 'DO':
            self.counts_of_row()
        if text.peek() == '+':
            text.skip_statement()
        else:
            text.expect(';')
        text.past('ROW, turned or of several rows', begin)

    def counts_of_row(self):
        """Takes what a row that is dropped says of its sites."""
        text = self.text
        for word in ('DO', 'BY'):
            text.expect(word)
            if text.whole() < 1:
                text.refuse('a row has no site', kind='TooLarge')
        if text.peek() == 'STEP':
            text.expect('STEP')
            text.whole()
            text.whole()

    def row_sites(self, site):
        text = self.text
        text.expect('DO')
        if (count := text.whole()) < 1:
            text.refuse('a row has no site', kind='TooLarge')
        text.expect('BY')
        if text.whole() != 1:
            text.refuse('a row is one site high', kind='BadRow')
        if text.peek() == 'STEP':
            text.expect('STEP')
            step, at = text.whole(), text.at - 1
            text.whole()
            if count != 1:
                self.row_step(site, step, at)
        return count

    def row_step(self, site, step, at):
        """Refuses a step of a row that is not the width of its site."""
        if step != site.width:
            self.text.fault(f'the step of a row is the width of its site, {site.width}', at, 'BadRow', 'the step of a row is not the width of its site')

    def tracks(self):
        text, layers = self.text, []
        if (axis := text.keyword()) not in ('X', 'Y'):
            text.unexpected('X or Y')
        at = text.at
        start = text.whole()
        text.expect('DO')
        if (count := text.whole()) < 1:
            text.refuse('there is no track', kind='TooLarge')
        text.expect('STEP')
        if (step := text.whole()) < 1:
            text.refuse('the step of tracks is too small', kind='TooLarge')
        if start + (count - 1) * step > GREATEST_NUMBER:
            text.refuse(f'the last track is beyond {GREATEST_NUMBER}', at, 'TooLarge')
        if self.skip_mask() and text.peek() == 'SAMEMASK':
            text.take()
        if text.peek() == 'MASK':
            text.refuse('MASK is not supported', text.at, 'Unsupported', 'MASK of tracks is not supported')
        if text.peek() == 'LAYER':
            text.expect('LAYER')
            layers.append(self.layer().name)
            while text.peek() != ';':
                layers.append(self.layer().name)
        text.expect(';')
        self.design.tracks.append(Tracks(axis, start, count, step, layers))

    def orientation(self):
        word = self.text.keyword()
        if word not in ORIENTATIONS:
            self.text.unexpected('an orientation')
        return word

    def via(self):
        text, shapes = self.text, []
        name = self.new_name('via', self.design.vias)
        if self.profile.is_wide and is_generated(text):
            self.keep_via(name, GeneratedEntry(self).shapes())
            return

        def clause(word):
            if word == 'RECT':
                self.via_rect(shapes)
            elif word in ('VIARULE', 'POLYGON', 'PATTERNNAME', 'MASK'):
                text.refuse(f'{word} of a via is not supported', kind='Unsupported')
            else:
                self.skip_clause('VIAS')

        self.clauses(clause)
        self.keep_via(name, shapes)

    def keep_via(self, name, shapes):
        """Keeps a via of these rectangles, good or not."""
        why = why_not_joined(self.library.layers, name, shapes)
        lower, upper = joined_layers(self.library.layers, shapes) if why is None else (None, None)
        self.design.vias[name] = Via(name, False, lower, upper, shapes)
        self.rects_of_vias += len(shapes)
        if why is not None:
            self.design.why_not_good[name] = why

    def via_rect(self, shapes):
        text, begin = self.text, self.text.at - 1
        layer = self.layer()
        if text.peek() == '+' and text.words[text.at + 1].upper() == 'MASK':
            text.refuse('a mask is not supported', text.at, 'Unsupported', 'MASK of a via is not supported')
        rect = text.corners(self.point)
        if layer.has_metal():
            shapes.append((layer.name, rect))
        else:
            text.past('VIAS + RECT on a layer without metal', begin)

    def component(self):
        text, given = self.text, []
        name = self.new_name('component', self.design.components)
        if name.upper() == 'PIN':
            text.refuse('no component is named PIN')
        macro = self.known('macro', self.library.macros)

        def clause(word):
            if word in ('PLACED', 'FIXED', 'COVER', 'UNPLACED'):
                self.twice(word, given)
                given.extend((word, None if word == 'UNPLACED' else self.place()))
            else:
                self.skip_clause('COMPONENTS')

        self.clauses(clause)
        status, place = given or ('UNPLACED', None)
        self.design.components[name] = Component(name, macro, status, place)

    def place(self):
        return Place(*self.point(), self.orientation())

    def pin(self):
        text, words, ports = self.text, {}, []
        name = self.new_name('pin', self.design.pins)

        def port():
            return ports[-1] if ports else ports.append(Port([], None, None)) or ports[-1]

        def clause(word):
            if word in ('NET', 'DIRECTION', 'USE'):
                self.twice(word, word in words)
                words[word] = text.name('the name of a net') if word == 'NET' else text.word('a word')
            elif word == 'PORT':
                ports.append(Port([], None, None))
            elif word == 'LAYER':
                self.port_layer(port())
            elif word in ('PLACED', 'FIXED', 'COVER'):
                self.twice(word, port().place)
                ports[-1] = ports[-1]._replace(status=word, place=self.place())
            elif word == 'VIA' and self.profile.is_wide:
                port().shapes.extend(self.via_of_pin())
            elif word == 'POLYGON' and self.profile.is_wide:
                port().shapes.extend(self.polygon_of_pin())
            elif word in ('POLYGON', 'VIA', 'MASK'):
                self.unread_pin_clause(word, port)
            else:
                self.skip_clause('PINS')

        self.clauses(clause)
        self.design.pins[name] = Pin(name, words.get('NET'), words.get('DIRECTION'), words.get('USE'), ports)

    def unread_pin_clause(self, word, port):
        """Refuses a clause of a pin whose word was taken: its metal is not read. A call of `port` returns the port that has it."""
        self.text.refuse(f'{word} of a pin is not supported', kind='Unsupported')

    def via_of_pin(self):
        """Takes a good via and a point, and returns its rectangles there."""
        text, at = self.text, self.text.at - 1
        via = self.known('via', self.design.vias)
        if not via.is_good():
            self.bad_via(via)
        self.skip_mask()
        x, y = self.point()
        shapes = [(layer, moved(rect, x, y)) for layer, rect in via.shapes]
        if any(max(map(abs, rect)) > GREATEST_NUMBER for _, rect in shapes):
            text.fault(f'a side of a via is beyond {GREATEST_NUMBER}', at, 'TooLarge')
        return shapes

    def polygon_of_pin(self):
        """Takes a layer and a polygon of a pin, and returns its rectangles, none on a layer without metal."""
        text, begin = self.text, self.text.at - 1
        layer = self.layer_of_pin('POLYGON')
        slabs = self.polygon(begin)
        if not layer.has_metal():
            text.past('PINS + POLYGON without metal', begin)
        return [(layer.name, slab) for slab in slabs if layer.has_metal()]

    def layer_of_pin(self, form):
        """Takes the layer of a shape of a pin, and what may stand behind it."""
        text = self.text
        layer = self.layer()
        self.skip_mask()
        if text.peek() == 'MASK':
            text.refuse('MASK is not supported', text.at, 'Unsupported', 'MASK of a pin is not supported')
        for word in ('SPACING', 'DESIGNRULEWIDTH'):
            if text.peek() == word:
                text.expect(word)
                text.whole()
                text.past(f'PINS + {form} {word}', text.at - 2)
        return layer

    def port_layer(self, port):
        text, begin = self.text, self.text.at - 1
        layer = self.layer_of_pin('LAYER')
        rect = text.corners(self.point)
        if layer.has_metal():
            port.shapes.append((layer.name, rect))
        else:
            text.past('PINS + LAYER without metal', begin)
