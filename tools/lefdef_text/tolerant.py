"""Reading LEF and DEF texts past their faults, which are kept in their order.

    faults, library, design = read_faults(design_path, library_paths, strangers, profile)

The readers are those of this folder. Where one of them refuses a word, the refusal is kept, and reading goes on at the next statement,
entry, clause, terminal or path. What is not there takes a stand-in, of which no further fault is kept: so the first refusal is the one
with which reading would have ended, and what follows from it is not kept as another one.
"""
from .def_reader import DefReader, units_of
from .design import Component, Design, Pin
from .lef_reader import LefReader
from .library import Layer, Library, Macro, Rule, Scale, Site, Via
from .net_reader import UNREAD_IN_WIRING, NetReader
from .profile import NARROW
from .tolerant_words import Faults, TolerantWords
from .words import MARKS, Refused, millionths_of

MOST_ENTRIES = 200_000
MOST_PARTS = 4_000_000
MILLIONTHS = 10 ** 6
# A width of a routing layer that is even at any number of units, where the text gives none above 0.
SOME_WIDTH = 2 * MILLIONTHS
# The statements of a record whose lengths are converted.
CONVERTED = {Layer: ('WIDTH', 'SPACING', 'SPACINGTABLE'), Site: ('SIZE',), Macro: ('SIZE', 'ORIGIN', 'RECT', 'POLYGON'), Via: ('RECT', 'POLYGON'), Rule: ('WIDTH',)}
# What stands in for what is not there.
NO_LAYER = Layer('', None, None, 2, 0)
STAND_INS = {
    'layer': lambda name: NO_LAYER._replace(name=name),
    'site': lambda name: Site(name, 0, 0),
    'macro': lambda name: Macro(name, 0, 0, (0, 0), True, None, {}, []),
    'via': lambda name: Via(name, False, None, None, []),
    'nondefault rule': lambda name: Rule(name, {}),
    'component': lambda name: Component(name, STAND_INS['macro'](''), 'UNPLACED', None),
    'pin': lambda name: Pin(name, None, None, None, [])}


class TolerantReader:
    """What the tolerant readers of LEF and of DEF texts have."""

    def unknown(self, kind, name):
        super().unknown(kind, name)
        return STAND_INS[kind](name)


class TolerantLefReader(TolerantReader, LefReader):
    """Reads a LEF text into a library, past its faults."""
    # What may come in a block without a semicolon behind it.
    PARTS = ('PIN', 'OBS', 'PORT', 'DENSITY', 'TIMING', ';')

    def read(self):
        try:
            while self.text.more():
                self.one_form(self.text.keyword())
        except Refused as refused:
            self.text.stop(refused)

    def one_form(self, word):
        try:
            self.form(word)
        except Refused as refused:
            self.text.keep(refused)

    def statements(self, statement):
        text = self.text
        while (word := text.keyword()) != 'END':
            begin = text.at - 1
            try:
                if word not in self.PARTS and not text.has_semicolon():
                    text.ends_early()
                statement(word)
            except Refused as refused:
                text.go_on(refused, begin, ('END',), ';')

    def end(self, name):
        """Takes the name after the END of a block; another name may be that of a record that is not known by it."""
        super().end(name)
        word = self.text.words[self.text.at - 1]
        if word != name:
            self.text.faults.lost_names.add(word)

    def layer_end(self, name, found):
        super().layer_end(name, found)
        layer = self.library.layers[name]
        if layer.is_routing() and (layer.width or 0) <= 0:
            self.library.layers[name] = layer._replace(width=SOME_WIDTH)

    def via(self):
        faults, name = self.text.faults, self.text.words[self.text.at]
        before = faults.met
        super().via()
        if faults.met > before:
            faults.doubtful_vias.add(name)

    def bad_via_of_geometry(self, via):
        if via.name in self.library.vias and via.name not in self.text.faults.doubtful_vias:
            super().bad_via_of_geometry(via)

    def macro(self):
        """Takes a macro; in the wide profile one with a fault is dropped, and its faults are not kept."""
        if not self.profile.is_wide:
            return super().macro()
        faults, begin, mark = self.text.faults, self.text.at, self.text.faults.mark()
        is_known, refused = self.text.words[begin] in self.library.macros, None
        try:
            self.one_macro()
        except Refused as fault:
            refused = fault
        first = (faults.found[mark[0]:] + [refused])[0]
        name = self.text.words[begin]
        if first is None:
            return None
        macro = None if is_known else self.library.macros.pop(name, None)
        if self.drop_macro(begin, first):
            return faults.back_to(mark)
        if macro:
            self.library.macros[name] = macro
        if refused:
            raise refused
        return None


class TolerantScale(Scale):
    """Lengths of a library, of which those that are not exact are kept, at the words that write them; at some units if none are known."""

    def __init__(self, library, units):
        super().__init__(library, units or 1000)
        self.is_known, self.after = units is not None, {}

    def is_exact(self, millionths):
        return self.is_known and millionths * self.units % MILLIONTHS == 0

    def fault(self, record, millionths, why, kind):
        if self.is_known and (kind != 'OddWidth' or self.is_exact(millionths)):
            text, at = self.library.places[type(record), record.name]
            key = type(record), record.name, millionths
            place = place_of_length(text, self.after.get(key, at) + 1, CONVERTED[type(record)], millionths) or at
            self.after[key] = place
            text.fault(why, place, kind, kind)


def place_of_length(text, at, keywords, millionths):
    """Returns the place of the first word from the word number `at` on that is a length of this value, in a statement with one of these
    keywords, or None."""
    is_converted = True
    for place in range(at, text.count):
        word = text.words[place]
        is_converted = word != ';' and (is_converted or word.upper() in keywords)
        if is_converted and millionths_of(word) == millionths:
            return place
    return None


class TolerantEntries(TolerantReader):
    """What the tolerant readers of parts of a DEF have."""

    def clauses(self, clause):
        text = self.text
        while (mark := text.take()) != ';':
            begin = text.at - 1
            try:
                if mark != '+':
                    text.unexpected('+ or ;')
                clause(text.word('the word of a clause').upper())
            except Refused as refused:
                self.go_on_in_entry(refused, begin, ('+', ';'))

    def bad_via(self, via):
        if via.name in self.design.vias and via.name not in self.text.faults.doubtful_vias:
            super().bad_via(via)

    def go_on_in_entry(self, refused, begin, stops, behind=''):
        """Goes on within an entry, or refuses it where its end is missing."""
        if refused.word == '-' or refused.word.upper() == 'END':
            raise refused
        if refused.word == '+' and refused.kind == 'Unsupported':
            begin = refused.at
        self.text.go_on(refused, begin, (*stops, '-', 'END'), behind)


class TolerantNetReader(TolerantEntries, NetReader):
    """Reads entries of NETS and SPECIALNETS past their faults."""

    def unknown_pin(self, component, pin):
        if component.macro.name in self.library.macros:
            super().unknown_pin(component, pin)

    def terminal(self, net, is_special):
        begin = self.text.at
        try:
            super().terminal(net, is_special)
        except Refused as refused:
            self.go_on_in_entry(refused, begin, ('(', '+', ';'), ')')

    def path(self, wires, is_special):
        begin = self.text.at - 1
        try:
            super().path(wires, is_special)
        except Refused as refused:
            self.go_on_in_entry(refused, begin, ('NEW', '+', ';'))

    def no_routing_layer(self, layer):
        if layer.kind is not None:
            super().no_routing_layer(layer)
        return NO_LAYER

    def unread_in_wiring(self, word, at):
        """Keeps the word, and takes it with the words that belong to it; behind VIRTUAL with the rest of its path."""
        super().unread_in_wiring(word, at)
        text = self.text
        text.at = at + 2 if text.words[at] == '+' else at + 1
        ends = ('+', ';', '') if word == 'VIRTUAL' else (*MARKS, '')
        left = text.count if word == 'VIRTUAL' else UNREAD_IN_WIRING.get(word, 0)
        while left > 0 and text.words[text.at] not in ends and text.peek() != 'NEW':
            text.at += 1
            left -= 1

    def no_way(self, via, layer):
        is_known = via.name in self.design.vias and via.name not in self.text.faults.doubtful_vias
        if is_known and layer.kind is not None:
            super().no_way(via, layer)
        return NO_LAYER


class TolerantDefReader(TolerantEntries, DefReader):
    """Reads a DEF text into a design past its faults; `scale` tells which lengths of the library are exact."""
    net_reader = TolerantNetReader

    def __init__(self, text, design, scale):
        super().__init__(text, design)
        self.scale, self.counts = scale, {}

    def read(self):
        text = self.text
        try:
            while (word := text.keyword()) != 'END' or text.peek() != 'DESIGN':
                self.one_form(word)
            self.last_form()
        except Refused as refused:
            text.stop(refused)
        return self.design

    def one_form(self, word):
        text, begin = self.text, self.text.at - 1
        try:
            if word in ('ROW', 'TRACKS') and not text.has_semicolon():
                text.ends_early()
            if word != 'END':
                self.form(word)
            else:
                text.take()
                text.fault(f'DESIGN was expected, not {text.words[text.at - 1]}', form='END with another name')
        except Refused as refused:
            text.go_on(refused, begin, ('END', *self.forms, *self.sections), ';')
            self.skip_entries(word)

    def skip_entries(self, word):
        """Takes the entries of a section that is none of a DEF, and its end."""
        text = self.text
        while text.words[text.at] == '-':
            text.skip_statement()
            if text.peek() == 'END' and text.words[text.at + 1].upper() == word:
                text.at += 2

    def last_form(self):
        end = self.text.at - 1
        self.seen.update(() if self.scale.is_known else ('UNITS',))
        self.end()
        terminals = sum(len(net.terminals) for entries in (self.design.nets, self.design.special) for net in entries.values())
        self.count('terminals', terminals - self.counts.get('terminals', 0), MOST_PARTS, end)

    def unknown(self, kind, name):
        if name.upper() in self.forms:
            self.text.refuse(f'{name} begins a statement before the one before it has ended', kind='UnknownName')
        return super().unknown(kind, name)

    def units(self):
        if self.scale.is_known:
            super().units()
        else:
            self.text.skip_statement()

    def row_step(self, site, step, at):
        exact = self.scale.library.sites.get(site.name)
        if exact and exact.width and self.scale.is_exact(exact.width):
            super().row_step(site, step, at)

    def component(self):
        """Takes a component, and keeps a second place before all else, even one behind an entry that has no semicolon."""
        text = self.text
        end = text.words.index(';', text.at)
        places = [at for at in range(text.at, end) if text.words[at - 1] == '+' and text.words[at].upper() in ('PLACED', 'FIXED', 'COVER', 'UNPLACED')]
        for at in places[1:]:
            text.fault(f'{text.words[at]} is given twice, or with a word that it excludes', at)
        super().component()

    def via(self):
        faults, name = self.text.faults, self.text.words[self.text.at]
        before = faults.met
        super().via()
        if faults.met > before:
            faults.doubtful_vias.add(name)

    def section(self, name, entry):
        text = self.text
        try:
            text.whole()
            text.expect(';')
        except Refused as refused:
            text.go_on(refused, refused.at - 1, ('-', 'END'), ';')
        while text.peek() not in ('END', *self.sections):
            self.one_entry(name, entry)
        self.section_end(name)

    def section_end(self, name):
        text = self.text
        if text.peek() != 'END':
            if not text.has_semicolon():
                text.ends_early()
            text.fault(f'END {name} was expected, not {text.words[text.at]}', text.at, form='END of a section is missing')
            return
        text.at += 1
        if text.peek() != name:
            text.fault(f'{name} was expected, not {text.words[text.at]}', text.at, form='END with another name')
        if text.peek() == 'DESIGN':
            text.at -= 1
        elif text.more():
            text.at += 1

    def one_entry(self, name, entry):
        text, begin = self.text, self.text.at
        try:
            self.count_entry(name, begin)
            if name != 'BLOCKAGES' and not text.has_semicolon():
                text.ends_early()
            if text.take() != '-':
                text.unexpected('an entry or END')
            entry()
            self.count_parts(name, begin)
        except Refused as refused:
            text.go_on(refused, begin, ('-', 'END'), ';')
            text.faults.lost_names.add(text.words[begin + 1])

    def count_entry(self, name, at):
        """Refuses an entry that is one too many."""
        design = self.design
        numbers = {'COMPONENTS': len(design.components), 'PINS': len(design.pins)}
        number = len(design.nets) + len(design.special) if name in ('NETS', 'SPECIALNETS') else numbers.get(name)
        if number == MOST_ENTRIES:
            self.text.fault(f'there are more than {MOST_ENTRIES:,} entries of {name}', at, 'TooMany')

    def count_parts(self, name, at):
        """Counts what the last net or the last blockage has, and refuses one too many."""
        if name in ('NETS', 'SPECIALNETS'):
            entries = self.design.nets if name == 'NETS' else self.design.special
            net = next(reversed(entries.values()))
            self.count('terminals', len(net.terminals), MOST_PARTS, at)
            self.count('wires', len(net.wires), MOST_PARTS, at)
        elif name == 'BLOCKAGES' and len(self.design.blockages) > self.counts.get('blockages', 0):
            self.count('blockages', 1, MOST_ENTRIES, at)
            self.count('rectangles of blockages', len(self.design.blockages[-1].rects), MOST_PARTS, at)

    def count(self, what, number, most, at):
        before = self.counts.get(what, 0)
        self.counts[what] = before + number
        if before <= most < before + number:
            self.text.fault(f'there are more than {most:,} {what}', at, 'TooMany')


def keep_first(faults, own):
    """Keeps the first of a text's own faults alone."""
    if own.found:
        faults.keep(own.found[0])
        faults.are_names_lost = True


def read_faults(design_path, library_paths, strangers=(), profile=NARROW):
    """Returns the faults of texts in a profile, in the order in which lefdef looks for them, the library, and the design as far as it was read.
    Of texts that are `strangers`, since they seem to be none of their format, the first fault is kept alone."""
    faults, library = Faults(), Library()
    for path in library_paths:
        text = TolerantWords(path, Faults() if path in strangers else faults)
        TolerantLefReader(text, library).within(profile).read()
        if path in strangers:
            keep_first(faults, text.faults)
            text.faults = faults
            faults.texts[path] = text
    text = TolerantWords(design_path, Faults() if design_path in strangers else faults)
    scale = TolerantScale(library, units_or_none(text))
    scaled = library.at(scale.units, scale)
    design = TolerantDefReader(text, Design(scaled, scale.units), scale).within(profile).read()
    if design_path in strangers:
        keep_first(faults, text.faults)
    faults.texts[design_path] = text
    return faults, library, design


def units_or_none(text):
    """Returns the database units of a micron that a DEF gives, or None where it gives none."""
    units = None
    try:
        units = units_of(text)
    except Refused as refused:
        if not text.is_cut:
            text.faults.keep(refused)
    text.at = 0
    return units
