"""Reading LEF texts (docs/FORMATS.md, "LEF")."""
from .geometry_reader import Drawing
from .lef_via_reader import LefViaReader
from .library import Layer, Library, Macro, MacroPin, Rule, Site
from .profile import NARROW
from .words import Refused, Words


def read_library(paths, profile=NARROW):
    """Returns the library that LEF texts, read one after the other in a profile, denote, in millionths of a micron."""
    library = Library()
    for path in paths:
        LefReader(Words(path), library).within(profile).read()
    return library


class LefReader(LefViaReader):
    """Reads one LEF text into a library."""

    def __init__(self, text, library):
        super().__init__(text, library)
        self.forms = {'LAYER': self.layer, 'VIA': self.via, 'SITE': self.site, 'MACRO': self.macro}

    def read(self):
        while self.text.more():
            self.form(self.text.keyword())

    def form(self, word):
        """Takes a form of a LEF, whose first word was taken."""
        text, begin = self.text, self.text.at - 1
        if word in self.forms:
            self.forms[word]()
        elif word == 'NONDEFAULTRULE' and self.profile.is_wide:
            self.rule()
        elif word == 'END':
            text.expect('LIBRARY')
            if text.more():
                text.fault('nothing may follow END LIBRARY', text.at)
        elif word != ';':
            self.skip_form(word)
            text.past(word, begin)

    def skip_form(self, word):
        text = self.text
        if word in ('VIARULE', 'NONDEFAULTRULE'):
            self.skip_named(text.name('a name'))
        elif word in ('UNITS', 'PROPERTYDEFINITIONS', 'SPACING'):
            text.skip_block(word)
        elif word == 'BEGINEXT':
            while text.keyword() != 'ENDEXT':
                pass
        else:
            text.skip_statement()

    def skip_named(self, name):
        text = self.text
        while not (text.keyword() == 'END' and text.words[text.at] == name):
            pass
        text.at += 1

    def layer(self):
        found = {}
        name = self.new_name(Layer, self.library.layers)
        self.statements(lambda word: self.layer_statement(word, found))
        self.layer_end(name, found)

    def layer_statement(self, word, found):
        text, begin = self.text, self.text.at
        if word == 'TYPE':
            self.once(found, word)
            found[word] = text.word('a type').upper()
            text.expect(';')
        elif word == 'DIRECTION':
            self.once(found, word)
            found[word] = self.direction()
            text.expect(';')
        elif not self.layer_rule(word, found):
            text.at = begin
            self.skip('LAYER', word)

    def direction(self):
        text = self.text
        word = text.keyword()
        if word not in ('HORIZONTAL', 'VERTICAL'):
            text.refuse(f'the direction {word} is not supported', kind='Unsupported' if word in ('DIAG45', 'DIAG135') else 'Unexpected')
        return word

    def layer_rule(self, word, found):
        """Takes a statement of a layer's width or spacing if it is the one that counts, and returns whether it is."""
        text, begin = self.text, self.text.at
        if word in ('WIDTH', 'SPACING') and word not in found:
            text.skip_statement()
            if text.at == begin + 2:
                self.layer_length(found, word, begin)
                return True
        elif word == 'SPACINGTABLE' and 'TABLE' not in found and text.peek() == 'PARALLELRUNLENGTH':
            text.skip_statement()
            self.spacing_table(found, begin)
            return True
        return False

    def layer_length(self, found, word, at):
        """Judges the first width or spacing of one length, which is the word number `at`."""
        text, after = self.text, self.text.at
        text.at = at
        found[word] = None
        found[word] = text.length()
        if found[word] < (1 if word == 'WIDTH' else 0):
            text.fault(f'the {word.lower()} is too small', kind='TooLarge')
        text.at = after

    def spacing_table(self, found, begin):
        """Takes the second length after the first WIDTH of the first table."""
        text, after = self.text, self.text.at
        found['TABLE'] = None
        words = [word.upper() for word in text.words[begin:after - 1]]
        row = words.index('WIDTH') + 1 if 'WIDTH' in words else len(words)
        for number, word in enumerate(words[row:row + 2]):
            if word == 'WIDTH':
                break
            text.at = begin + row + number
            length = text.length()
            if number == 1:
                found['TABLE'] = length
                if length < 0:
                    text.fault('the spacing is too small', kind='TooLarge')
        text.at = after

    def layer_end(self, name, found):
        text = self.text
        if 'TYPE' not in found:
            text.fault(f'layer {name} has no TYPE', form='a layer has no TYPE')
        is_routing = found.get('TYPE') == 'ROUTING'
        if is_routing and not ('DIRECTION' in found and 'WIDTH' in found):
            text.fault(f'routing layer {name} needs a DIRECTION and a WIDTH', form='a routing layer has no DIRECTION or no WIDTH')
        self.end(name)
        spacing = found.get('TABLE') if found.get('SPACING') is None else found['SPACING']
        self.library.layers.setdefault(name, Layer(
            name, found.get('TYPE'), found.get('DIRECTION'), found.get('WIDTH') if is_routing else None, spacing or 0))

    def rule(self):
        """Takes a nondefault rule."""
        text, widths = self.text, {}
        name = self.new_name(Rule, self.library.rules)
        self.statements(lambda word: self.rule_part(word, widths))
        self.end(name)
        self.library.rules.setdefault(name, Rule(name, widths))

    def rule_part(self, word, widths):
        if word == 'LAYER':
            self.layer_of_rule(widths)
        elif word == 'VIA':
            self.via()
        elif word == 'SPACING':
            begin = self.text.at - 1
            self.text.skip_block(word)
            self.text.past('NONDEFAULTRULE SPACING', begin)
        else:
            self.skip('NONDEFAULTRULE', word)

    def layer_of_rule(self, widths):
        """Takes a layer of a rule, with the width of the rule's wires there."""
        text, found = self.text, {}
        layer = self.known('layer', self.library.layers)
        if layer.name in widths:
            text.fault(f'layer {layer.name} appears twice in a rule', text.at - 2, form='a layer appears twice in a rule')
        self.statements(lambda word: self.statement_of_rule(word, found))
        if 'WIDTH' not in found:
            text.fault(f'layer {layer.name} of a rule has no WIDTH', form='a layer of a rule has no WIDTH')
        self.end(layer.name)
        if found.get('WIDTH'):
            widths.setdefault(layer.name, found['WIDTH'])

    def statement_of_rule(self, word, found):
        text = self.text
        if word != 'WIDTH':
            self.skip('NONDEFAULTRULE LAYER', word)
            return
        self.once(found, word)
        found[word] = text.length()
        if found[word] <= 0:
            text.fault('the width is too small', kind='TooLarge')
        text.expect(';')

    def size(self):
        """Takes a size after SIZE."""
        text, at = self.text, self.text.at
        width = text.length()
        text.expect('BY')
        height = text.length()
        text.expect(';')
        if width <= 0 or height <= 0:
            text.fault('a size has no area', at, 'EmptyRect')
        return width, height

    def site(self):
        text, found = self.text, {}
        name = text.name('the name of a site')
        named = text.at - 1
        self.statements(lambda word: self.site_statement(word, found))
        if 'SIZE' not in found:
            text.fault(f'site {name} has no SIZE', form='a site has no SIZE')
        self.end(name)
        site = Site(name, *(found.get('SIZE') or (0, 0)))
        if self.library.sites.setdefault(name, site) != site:
            text.fault(f'site {name} is defined twice, with another size', named, 'DuplicateName', 'a site is defined twice')
        if (Site, name) in self.library.places:
            text.past('SITE, defined again', named)
        self.library.places.setdefault((Site, name), (text, named))

    def site_statement(self, word, found):
        if word == 'SIZE':
            self.once(found, word)
            found[word] = self.size()
        else:
            self.skip('SITE', word)

    def macro(self):
        """Takes a macro, or in the wide profile goes past one that is none."""
        text, begin = self.text, self.text.at
        try:
            self.one_macro()
        except Refused as refused:
            if not self.profile.is_wide or not self.drop_macro(begin, refused):
                raise

    def drop_macro(self, begin, refused):
        """Goes past a macro whose name is the word number `begin`, for what was refused in it; returns whether its name is new and its end is
        there."""
        text = self.text
        name = text.words[begin]
        end = next((at for at in range(begin + 1, text.count) if text.words[at].upper() == 'END' and text.words[at + 1] == name), None)
        if end is None or name in self.library.macros or refused.at <= begin:
            return False
        text.at = end + 2
        self.library.dropped.setdefault(name, refused)
        self.library.places.pop((Macro, name), None)
        text.past('MACRO, dropped', begin - 1)
        return True

    def one_macro(self):
        text, found = self.text, {}
        name = self.new_name(Macro, self.library.macros)
        pins, obstructions = {}, []
        self.statements(lambda word: self.macro_part(word, found, pins, obstructions))
        if 'SIZE' not in found:
            text.fault(f'macro {name} has no SIZE', form='a macro has no SIZE')
        self.end(name)
        self.library.macros.setdefault(name, Macro(
            name, *(found.get('SIZE') or (0, 0)), found.get('ORIGIN') or (0, 0), 'Y' in (found.get('SYMMETRY') or ()), found.get('SITE'),
            pins, obstructions))

    def macro_part(self, word, found, pins, obstructions):
        text, begin = self.text, self.text.at - 1
        parts = {'SIZE': self.size, 'ORIGIN': self.origin, 'SYMMETRY': self.symmetry, 'SITE': self.macro_site}
        if word in parts:
            self.once(found, word, 'Unsupported' if word == 'SITE' else 'Unexpected')
            found[word] = parts[word]()
        elif word == 'PIN':
            self.macro_pin(pins)
        elif word == 'OBS':
            obstructions += self.geometry('OBS')
        elif word == 'DENSITY':
            while text.keyword() != 'END':
                pass
            text.past('MACRO DENSITY', begin)
        elif word == 'TIMING':
            text.skip_block('TIMING')
            text.past('MACRO TIMING', begin)
        else:
            self.skip('MACRO', word)

    def origin(self):
        point = self.point()
        self.text.expect(';')
        return point

    def symmetry(self):
        text = self.text
        words = [text.word('a symmetry').upper()]
        while text.peek() != ';':
            words.append(text.word('a symmetry').upper())
        text.expect(';')
        return words

    def macro_site(self):
        text = self.text
        site = self.known('site', self.library.sites)
        if text.take() != ';':
            text.refuse(f'; was expected, not {text.words[text.at - 1]}', kind='Unsupported', form='SITE of a macro with more than a name')
        return site.name

    def macro_pin(self, pins):
        text, found, shapes = self.text, {}, []
        name = text.name('the name of a pin')
        if name in pins:
            text.fault(f'pin {name} is defined twice', kind='DuplicateName', form='a pin of a macro is defined twice')
        self.statements(lambda word: self.pin_part(word, found, shapes))
        self.end(name)
        pins[name] = MacroPin(name, found.get('USE') or '', shapes)

    def pin_part(self, word, found, shapes):
        text = self.text
        if word == 'USE':
            self.once(found, word)
            found[word] = text.word('a use').upper()
            text.expect(';')
        elif word == 'PORT':
            shapes += self.geometry('PORT')
        else:
            self.skip('PIN', word)
