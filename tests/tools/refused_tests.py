"""Tests of tools/refused: on the texts that the program is tried on it names what the program refuses, and of made texts each form in a line."""
import os
import re
import subprocess
import sys
import tempfile
import unittest
from unittest import mock

sys.path.insert(0, os.path.dirname(os.path.abspath(__file__)))

from doctored import TOP, expressions, script
from refused_forms import (
    BAD_VIAS, BLOCK, DEF_FORMS, DROPPED_MASKS, LEF_FORMS, NO_LEF, NO_TOOL, OBS_RECT, OUT_OF_PLACE, PIN_RECT, RECTANGLES, RECTILINEAR, STRAP, TECHNOLOGY, WIDE,
    WIDE_FORMS, WIDE_LEF_FORMS, WIDE_RULES, WIRE)

refused = script('tools/refused')

import refusal_advice  # noqa: E402
from lefdef_text import NARROW, Profile, tolerant, tolerant_words  # noqa: E402

STANDARD = os.path.join(TOP, 'examples', 'standard.lef')
CELLS = os.path.join(TOP, 'tests', 'design', 'cells.lef')
CASES = os.path.join(TOP, 'tests', 'program')
EXPRESSIONS = expressions('What is refused')


def lines_of(*path):
    with open(os.path.join(TOP, *path), encoding='utf-8', errors='surrogateescape') as file:
        return file.read().splitlines()


def profile_of(words):
    """Returns the profile that words of a command line ask for, and the words without its options."""
    words, found = list(words), {}
    while words and words[0].startswith('--') and (words[0] == '--wide' or len(words) > 1):
        option = words.pop(0)
        found[option] = True if option == '--wide' else words.pop(0)
    return Profile('--wide' in found, '--masks' in found, found.get('--soft')), words


class Room(unittest.TestCase):
    """A test with a folder of its own, in which it works."""

    def setUp(self):
        room = tempfile.TemporaryDirectory()
        self.addCleanup(room.cleanup)
        self.addCleanup(os.chdir, os.getcwd())
        os.chdir(room.name)

    def write(self, name, text):
        with open(name, 'w', encoding='utf-8', newline='') as file:
            file.write(text)
        return name

    def lines(self, design, *libraries, profile=NARROW):
        """Returns the lines on texts, and checks that the status goes with them, and that each is one that docs/SCRIPTS.md describes."""
        lines, status = refused.lines_of(design, libraries, profile)
        self.assertEqual(status, 0 if lines == ['no form is refused'] else 2)
        for line in lines:
            self.assertEqual(len([it for it in EXPRESSIONS if re.fullmatch(it, line)]), 1, line)
        return lines

    def assert_first(self, lines, path, line, kind):
        self.assertEqual(lines[0].partition(',')[0], f'{path}:{line}: {kind}', lines)


class CorpusTests(Room):
    """The texts of tests/design, tests/library, tests/program and the examples: what the program reads has no refused form, and the form that
    it refuses, with its line and kind, is the first."""
    BLOCK = ('DESIGN top ;\nUNITS DISTANCE MICRONS 1000 ;\nDIEAREA ( 0 0 ) ( 800 2000 ) ;\n'
             'ROW r core 0 0 N DO 4 BY 1 STEP 200 0 ; COMPONENTS 2 ; - u1 INV + PLACED ( 0 0 ) N ; - u2 INV + PLACED ( 400 0 ) N ; END COMPONENTS\n')
    LAYERS = ('LAYER m1 TYPE ROUTING ; DIRECTION HORIZONTAL ; WIDTH 0.1 ; END m1\nLAYER o TYPE OVERLAP ; END o\n'
              'SITE core SIZE 0.2 BY 2.0 ; END core\n')
    EMPTY = 'DESIGN top ;\nUNITS DISTANCE MICRONS 1000 ;\nDIEAREA ( 0 0 ) ( 800 2000 ) ;\nEND DESIGN\n'

    def of_design(self, text):
        return self.lines(self.write('block.def', self.BLOCK + text), STANDARD, CELLS)

    def of_library(self, text):
        return self.lines(self.write('empty.def', self.EMPTY), self.write('cells.lef', self.LAYERS + text))

    def test_designs_that_are_read(self):
        for text in lines_of('tests', 'design', 'read'):
            with self.subTest(text=text):
                self.assertEqual(self.of_design(f'{text} END DESIGN'), ['no form is refused'])

    def test_libraries_that_are_read(self):
        for text in lines_of('tests', 'library', 'read'):
            with self.subTest(text=text):
                self.assertEqual(self.of_library(text), ['no form is refused'])

    def each_refused(self, folder, last, first_line):
        """Yields each refused text of a folder of tests, one word a line, with its kind and the line of the marked word, or of the last."""
        for text in lines_of('tests', folder, 'refused'):
            kind, _, marked = text.partition(' ')
            words = f'{marked}{last}'.split(' ')
            faults = [number for number, word in enumerate(words) if word.startswith('^')]
            with self.subTest(text=text):
                yield '\n'.join(word.lstrip('^') for word in words) + '\n', first_line + (faults or [len(words) - 1])[0], kind

    def test_designs_that_are_refused(self):
        for text, line, kind in self.each_refused('design', ' END DESIGN', 5):
            self.assert_first(self.of_design(text), 'block.def', line, kind)

    def test_libraries_that_are_refused(self):
        for text, line, kind in self.each_refused('library', '', 4):
            self.assert_first(self.of_library(text), 'cells.lef', line, kind)

    def cases(self, is_wide=False):
        """Yields the files of each case of the program in the narrow profile, or in the wide one, whose texts are kept, these by the numbers that are
        printed, and what it prints last. Of two DEFs that are compared it is the second one, where the first is not the one that is refused."""
        for name in sorted(os.listdir(CASES)):
            folder = os.path.join(CASES, name)
            words = lines_of('tests', 'program', name, 'words') if os.path.exists(os.path.join(folder, 'words')) else []
            self.profile, words = profile_of(words)
            least = 3 if words[:1] == ['compare'] else 2
            is_kept = all(os.path.isfile(os.path.join(folder, it)) for it in words[1:])
            if self.profile.is_wide == is_wide and len(words) > least and is_kept and not os.path.exists(os.path.join(folder, 'out')):
                printed = lines_of('tests', 'program', name, 'stdout') if os.path.exists(os.path.join(folder, 'stdout')) else []
                os.chdir(folder)
                with self.subTest(case=name):
                    answer, defs, libraries = (printed or [''])[-1].split(' '), words[1:2], words[2:]
                    if words[0] == 'compare':
                        defs.append(libraries.pop(0))
                    is_of_first = answer[0] == 'REFUSED' and int(answer[1]) <= len(libraries)
                    yield defs[0 if is_of_first else -1], libraries, [*libraries, *defs], answer

    def test_cases_of_the_program(self):
        for is_wide, least in ((False, (150, 20, 4)), (True, (100, 60, 1))):
            kinds = self.kinds_of_cases(is_wide)
            self.assertTrue(all(map(int.__ge__, (len(kinds), kinds.count('REFUSED'), kinds.count('SCALE')), least)), kinds)

    def kinds_of_cases(self, is_wide):
        """Tries the cases in a profile, and returns the first words of what the program prints last."""
        kinds = []
        for design, libraries, texts, answer in self.cases(is_wide):
            lines = self.lines(design, *libraries, profile=self.profile)
            if answer[0] == 'REFUSED':
                self.assert_first(lines, texts[int(answer[1])], answer[2], answer[3])
            elif answer[0] == 'SCALE':
                self.assertRegex(lines[0], rf'^[^ ]+:[0-9]+: {answer[2]}, .* of {answer[1]} is ')
            else:
                self.assertEqual(lines, ['no form is refused'])
            kinds.append(answer[0])
        return kinds

    def test_the_program_names_the_options_that_are_named_here(self):
        found = set()
        for is_wide in (False, True):
            for design, libraries, _, answer in self.cases(is_wide):
                if answer[-1] == 'Unsupported':
                    with open('stderr', encoding='utf-8') as file:
                        said = file.read()
                    helps = self.lines(design, *libraries, profile=self.profile)[0].partition(': ')[2]
                    self.assertNotIn('tools/', said)
                    if not is_wide:
                        self.assertEqual('--wide' in said, 'lefdef --wide ' in helps, (said, helps))
                    found.update(re.findall('--[a-z]+', said))
        self.assertEqual(found, {'--wide', '--masks', '--soft'})

    def test_examples(self):
        for name in sorted(os.listdir(os.path.join(TOP, 'examples'))):
            if name.endswith('.def'):
                with self.subTest(example=name):
                    lines = self.lines(os.path.join(TOP, 'examples', name), STANDARD)
                    self.assertEqual(lines == ['no form is refused'], name != 'misspelt.def', lines)


class FormTests(Room):
    """A block and its technology, with one form changed: each line on it, word for word."""

    def with_texts(self, technology, block):
        return self.lines(self.write('block.def', block), self.write('tech.lef', technology))

    def changed(self, text, old, new):
        self.assertGreaterEqual(text.count(old), 1, old)
        return text.replace(old, new, 1)

    def test_the_texts_as_they_are(self):
        self.assertEqual(self.with_texts(TECHNOLOGY, BLOCK), ['no form is refused'])

    def test_each_form_of_a_block(self):
        for old, new, line, kind, why in DEF_FORMS:
            with self.subTest(new=new):
                lines = self.with_texts(TECHNOLOGY, self.changed(BLOCK, old, new))
                self.assertEqual([it for it in lines if ': not looked at, ' not in it], [f'block.def:{line}: {kind}, 1 place: {why}', 'refused forms 1, places 1'])

    def test_each_form_of_a_library(self):
        for old, new, line, kind, why in LEF_FORMS:
            with self.subTest(new=new):
                lines = self.with_texts(self.changed(TECHNOLOGY, old, new), BLOCK)
                self.assertEqual([it for it in lines if ': not looked at, ' not in it], [f'tech.lef:{line}: {kind}, 1 place: {why}', 'refused forms 1, places 1'])

    def test_vias_that_are_not_good_are_refused_where_a_wire_names_them(self):
        for old, new, why in BAD_VIAS:
            technology = self.changed(TECHNOLOGY, old, new)
            helps = DROPPED_MASKS if why.endswith('MASK') else WIDE if 'statement' in why else NO_TOOL
            with self.subTest(why=why):
                self.assertEqual(self.with_texts(technology, BLOCK), ['no form is refused'])
                self.assertEqual(self.with_texts(technology, BLOCK.replace(WIRE, f'{WIRE} V12')), [
                    f'block.def:27: BadVia, 1 place: via V12 does not join two routing layers: {why}. A wire names it. {helps}', 'refused forms 1, places 1'])

    BAD_VIA = BLOCK.replace('+ RECT m1 ( -50 -50 ) ( 50 50 )', '+ RECT m1 ( 0 -50 ) ( 50 50 )').replace(WIRE, f'{WIRE} big NEW {WIRE} big')

    def test_a_via_of_the_block_that_is_not_good(self):
        why = 'a rectangle of it on m1 does not have the point 0 0 inside'
        self.assertEqual(self.with_texts(TECHNOLOGY, self.BAD_VIA), [
            f'block.def:27: BadVia, 2 places: via big does not join two routing layers: {why}. A wire names it. {NO_TOOL}', 'refused forms 1, places 2'])

    def test_a_figure_of_a_special_net_behind_a_status(self):
        lines = self.with_texts(TECHNOLOGY, self.changed(BLOCK, STRAP, f'+ ROUTED + SHAPE RING + RECT m1 ( 0 0 ) ( 9 9 ) {STRAP}'))
        self.assertEqual([it for it in lines if ': not looked at, ' not in it], [
            f'block.def:23: Unexpected, 1 place: the name of a layer was expected, not +. A status in front of a figure of a special net is not read. {WIDE}',
            f'block.def:23: Unsupported, 1 place: RECT of a net is not supported. Metal of a special net is read as paths alone. {WIDE}',
            'refused forms 2, places 2'])

    def test_each_form_that_advice_is_kept_for_is_met(self):
        texts = [(TECHNOLOGY, self.changed(BLOCK, old, new)) for old, new, *_ in DEF_FORMS]
        texts += [(self.changed(TECHNOLOGY, old, new), BLOCK) for old, new, *_ in LEF_FORMS]
        met = set()
        for technology, block in (*texts, (TECHNOLOGY, self.BAD_VIA)):
            faults, _, _ = tolerant.read_faults(self.write('block.def', block), [self.write('tech.lef', technology)])
            met.update(it.form for it in faults.found)
        for old, new, *_ in WIDE_FORMS:
            faults, _, _ = tolerant.read_faults(self.write('block.def', self.changed(BLOCK, old, new)), [self.write('tech.lef', TECHNOLOGY)], (), Profile(True))
            met.update(it.form for it in faults.found)
        for new, *_ in WIDE_LEF_FORMS:
            technology = self.changed(TECHNOLOGY, PIN_RECT, new).replace('END INV', 'END INW')
            faults, _, _ = tolerant.read_faults(self.write('block.def', BLOCK), [self.write('tech.lef', technology)], (), Profile(True))
            met.update(it.form for it in faults.found)
        for new, *_ in WIDE_RULES:
            technology = TECHNOLOGY.replace('END LIBRARY', f'{new}\nEND LIBRARY')
            faults, _, _ = tolerant.read_faults(self.write('block.def', BLOCK), [self.write('tech.lef', technology)], (), Profile(True))
            met.update(it.form for it in faults.found)
        rules = BLOCK.replace('NETS 2 ;', 'NONDEFAULTRULES 1 ;\n- r + LAYER m1 WIDTH 201 ;\nEND NONDEFAULTRULES\nNETS 2 ;')
        faults, _, _ = tolerant.read_faults(self.write('block.def', rules.replace('( u1 A )', '( u1 A ) + NONDEFAULTRULE r')), [self.write('tech.lef', TECHNOLOGY)], (), Profile(True))
        self.assertEqual([it.kind for it in faults.found], ['OddWidth'])
        met.update(it.form for it in faults.found)
        self.assertEqual(set(refusal_advice.ADVICE) - met, {'there are more than 200,000 entries of COMPONENTS'})


class SeveralTests(Room):
    """Several forms in one run."""
    with_texts = FormTests.with_texts

    def test_forms_come_in_the_order_of_their_first_places_with_their_counts(self):
        block = BLOCK.replace('STEP 200 LAYER', 'STEP 200.0 LAYER').replace('DO 8 STEP', 'DO 8.0 STEP').replace('- PLACEMENT RECT', '- PLACEMENT + SOFT RECT')
        block = block.replace('- n1 ( u1 A )', '- n1 ( u1 A ) + NONDEFAULTRULE wide').replace('- n2 ( u1 Y )', '- n2 ( u1 Y ) + NONDEFAULTRULE wide')
        block = block.replace(WIRE, f'm1 TAPERRULE wide ( 100 150 ) ( 300 150 ) V12 NEW m2 TAPERRULE wide ( 300 150 ) ( 300 250 ) STYLE 1')
        technology = TECHNOLOGY.replace(PIN_RECT, 'POLYGON 0 0 1 0 1 1 ;\n' + PIN_RECT)
        self.assertEqual([line.partition(': ')[2].partition('.')[0] for line in self.with_texts(technology, block)[:-1]], [
            'Unsupported, 1 place: POLYGON in a geometry is not supported',
            'BadNumber, 2 places: a whole number was expected, not 8',
            'Unsupported, 1 place: SOFT of a blockage is not supported',
            'Unsupported, 2 places (lines 26, 28): NONDEFAULTRULE of a net is not supported',
            'Unsupported, 2 places: TAPERRULE in wiring is not supported',
            'Unsupported, 1 place: STYLE in wiring is not supported'])
        self.assertEqual(self.with_texts(technology, block)[-1], 'refused forms 6, places 9')

    def test_the_first_lines_and_the_first_reasons_are_shown(self):
        pins = ''.join(f'- n{k} ( u1 P{k} ) ;\n' for k in range(3, 10))
        self.assertEqual(self.with_texts(TECHNOLOGY, BLOCK.replace('END NETS', pins + 'END NETS'))[0],
                         'block.def:29: UnknownName, 7 places (lines 29, 30, 31, 32, 33 ..): macro INV has no pin P3; macro INV has no pin P4; macro INV has no pin P5; '
                         'and 4 more. Check its spelling and its capitals, and whether the LEF is the one of these cells.')

    def test_a_name_that_a_later_lef_defines(self):
        cut = TECHNOLOGY.index('MACRO INV')
        self.write('block.def', BLOCK)
        layers, cells = self.write('layers.lef', TECHNOLOGY[:cut]), self.write('cells.lef', TECHNOLOGY[cut:])
        self.assertEqual(self.lines('block.def', cells, layers), [
            'cells.lef:4: UnknownName, 1 place: there is no site core. It is defined behind this place, in layers.lef:17: a name is defined before it is used, so give that '
            'LEF first.',
            'cells.lef:8: UnknownName, 3 places (lines 8, 14, 19): there is no layer m1. It is defined behind this place, in layers.lef:2: a name is defined before it is '
            'used, so give that LEF first.',
            'refused forms 2, places 4'])

    def test_a_macro_in_two_lefs(self):
        self.write('block.def', BLOCK)
        again = self.write('again.lef', TECHNOLOGY[TECHNOLOGY.index('MACRO INV'):])
        self.assertEqual(self.lines('block.def', self.write('tech.lef', TECHNOLOGY), again), [
            'again.lef:1: DuplicateName, 1 place: macro INV is defined twice. The first one is in tech.lef:18. Leave one of the two out.', 'refused forms 1, places 1'])

    def test_what_follows_from_a_fault_is_no_other_one(self):
        generated = BLOCK.replace('+ RECT m1 ( -50 -50 ) ( 50 50 ) + RECT v1 ( -50 -50 ) ( 50 50 ) + RECT m2 ( -50 -50 ) ( 50 50 )', '+ VIARULE r + CUTSIZE 20 20')
        unknown = TECHNOLOGY.replace('LAYER v1 ; RECT', 'LAYER v9 ; RECT')
        for what, technology, block in (('a macro', TECHNOLOGY, BLOCK.replace('- u1 INV', '- u1 BUF')), ('a via of the block', TECHNOLOGY, generated),
                                        ('a layer of a via', unknown, BLOCK), ('a name after END', TECHNOLOGY.replace('LAYER m2 TYPE', 'LAYER M2 TYPE'), BLOCK)):
            with self.subTest(what=what):
                block = block.replace(WIRE, f'{WIRE} big ( 300 250 ) V12 ( 500 250 )')
                self.assertEqual(self.with_texts(technology, block)[-1], 'refused forms 1, places 1')

    def test_lengths_off_the_units_do_not_hide_the_block(self):
        lines = self.with_texts(TECHNOLOGY.replace('SIZE 0.4 BY', 'SIZE 0.4005 BY').replace('RECT 0.3 0.1 0.35 0.2', 'RECT 0.3005 0.1 0.35 0.2'), BLOCK.replace(' N ;\n- u2', ' W5 ;\n- u2'))
        self.assertEqual([line.partition(': ')[0] + ' ' + line.split(' ')[1] for line in lines[:-1]], ['tech.lef:32 NotOnUnit,', 'block.def:11 Unexpected,'])
        self.assertIn('2 places (lines 32, 19): a length of INV', lines[0])


class SyntaxTests(Room):
    """After a fault of syntax reading goes on, and it is said what was not looked at."""
    with_texts = FormTests.with_texts

    def test_a_semicolon_that_is_missing(self):
        block = BLOCK.replace('( 0 0 ) N ;\n- u2', '( 0 0 ) N\n- u2').replace('- u2 INV', '- u2 BUF')
        self.assertEqual(self.with_texts(TECHNOLOGY, block), [
            'block.def:12: Unexpected, 1 place: PLACED is given twice, or with a word that it excludes.',
            f'block.def:12: Unexpected, 1 place: + or ; was expected, not -. {OUT_OF_PLACE}',
            f'block.def:12: UnknownName, 1 place: there is no macro BUF. {NO_LEF}',
            'refused forms 3, places 3'])

    def test_the_rest_of_an_entry_is_not_looked_at(self):
        block = BLOCK.replace('- n1 ( u1 A )', '- ( n1 ( u9 A )')
        self.assertEqual(self.with_texts(TECHNOLOGY, block), [
            f'block.def:26: Unexpected, 1 place: the name of a net was expected, not (. {OUT_OF_PLACE}',
            'block.def:26: not looked at, 1 place: what follows the word at fault in its statement or entry, here to line 27',
            'refused forms 1, places 1'])

    def test_a_statement_of_a_library(self):
        lines = self.with_texts(TECHNOLOGY.replace('USE SIGNAL ;', 'USE ( SIGNAL ;').replace(OBS_RECT, 'POLYGON 0 0 ;'), BLOCK)
        self.assertEqual(lines, [
            f'tech.lef:23: Unexpected, 1 place: a use was expected, not (. {OUT_OF_PLACE}',
            f'tech.lef:37: Unsupported, 1 place: POLYGON in a geometry is not supported. {RECTANGLES} {RECTILINEAR}',
            'tech.lef:23: not looked at, 1 place: what follows the word at fault in its statement or entry, here',
            'refused forms 2, places 2'])

    def test_a_quote_that_is_not_closed_ends_the_text_and_names_of_it_are_not_missed(self):
        lines = self.with_texts(TECHNOLOGY.replace('SITE core SIZE', '"SITE core SIZE'), BLOCK.replace(WIRE, 'm1 ( 0 0 ) ( 5 5 )'))
        self.assertEqual(lines, [
            'tech.lef:17: UnclosedString, 1 place: a quoted word is not closed.',
            f'block.def:27: Diagonal, 1 place: a wire is neither horizontal nor vertical. Wires at an angle are not read. {NO_TOOL}',
            'refused forms 2, places 2'])

    def test_a_section_that_is_none(self):
        block = BLOCK.replace('PINS 1 ;', 'PIN 2 ;\n- a ;\n- b + NET n ;\nEND PIN\nPINS 1 ;').replace(WIRE, 'm1 ( 0 0 ) ( 5 5 )')
        self.assertEqual([line.split(',')[0] for line in self.with_texts(TECHNOLOGY, block)],
                         ['block.def:14: Unexpected', 'block.def:31: Diagonal', 'block.def:14: not looked at', 'refused forms 2'])

    def test_the_end_of_a_section_that_is_missing(self):
        block = BLOCK.replace('END PINS\n', '').replace(WIRE, 'm1 ( 0 0 ) ( 5 5 )')
        self.assertEqual(self.with_texts(TECHNOLOGY, block), [
            'block.def:16: Unexpected, 1 place: END PINS was expected, not BLOCKAGES.',
            f'block.def:26: Diagonal, 1 place: a wire is neither horizontal nor vertical. Wires at an angle are not read. {NO_TOOL}',
            'refused forms 2, places 2'])

    def test_a_tolerant_reader_ends_on_texts_that_are_cut_anywhere(self):
        for text, paths in ((TECHNOLOGY, ('tech.lef', 'block.def')), (BLOCK, ('block.def', 'tech.lef'))):
            self.write(paths[1], BLOCK if text is TECHNOLOGY else TECHNOLOGY)
            for length in range(0, len(text), 7):
                self.write(paths[0], text[:length])
                refused.lines_of('block.def', ['tech.lef'])


class LimitTests(Room):
    """Limits on how many entries there are."""

    def lines_with(self, limit, number, block):
        with mock.patch.object(tolerant, limit, number):
            return self.lines(self.write('block.def', block), self.write('tech.lef', TECHNOLOGY))

    def test_one_entry_too_many(self):
        more = BLOCK.replace('END COMPONENTS', '- u3 INV ;\n- u4 INV ;\nEND COMPONENTS')
        self.assertEqual(self.lines_with('MOST_ENTRIES', 200_000, BLOCK), ['no form is refused'])
        lines = self.lines_with('MOST_ENTRIES', 3, more)
        self.assertEqual([line.partition('. ')[0] for line in lines],
                         ['block.def:14: TooMany, 1 place: there are more than 3 entries of COMPONENTS.', 'refused forms 1, places 1'])

    def test_one_net_or_blockage_too_many(self):
        lines = self.lines_with('MOST_ENTRIES', 2, BLOCK)
        self.assertEqual(lines, ['block.def:28: TooMany, 1 place: there are more than 2 entries of NETS.', 'refused forms 1, places 1'])
        lines = self.lines_with('MOST_ENTRIES', 1, BLOCK.replace('NETS 2', 'PINS 2'))
        self.assertIn('block.def:19: TooMany, 1 place: there are more than 1 blockages.', lines)

    def test_one_part_too_many(self):
        block = BLOCK.replace('- n2 ( u1 Y )', '- n2 ( u1 Y ) ( u2 A ) ( u2 Y )')
        self.assertEqual(self.lines_with('MOST_PARTS', 3, block)[0], 'block.def:28: TooMany, 1 place: there are more than 3 terminals.')
        block = BLOCK.replace('- n1 ( u1 A )', '- n1 ( u1 A ) ( u2 A )')
        self.assertEqual(self.lines_with('MOST_PARTS', 3, block)[0], 'block.def:30: TooMany, 1 place: there are more than 3 terminals.')  # with the pin p of net n1
        self.assertEqual(self.lines_with('MOST_PARTS', 3, BLOCK.replace(WIRE, f'{WIRE} V12 V12 V12'))[0], 'block.def:26: TooMany, 1 place: there are more than 3 wires.')
        self.assertEqual(self.lines_with('MOST_PARTS', 3, BLOCK.replace('- LAYER m2', '- LAYER m2' + ' RECT ( 0 0 ) ( 9 9 )' * 3))[0],
                         'block.def:19: TooMany, 1 place: there are more than 3 rectangles of blockages.')

    def test_a_text_that_is_too_long(self):
        with mock.patch.object(tolerant_words, 'GREATEST_TEXT', 1000):
            self.write('block.def', BLOCK + '#' * 1000)
            self.assertEqual(self.lines('block.def', self.write('tech.lef', '#')), ['block.def:1: TooLarge, 1 place: the text is longer than 1,000 bytes.', 'refused forms 1, places 1'])


class RunTests(Room):
    """The tool as it is run."""

    def run_tool(self, *words, **more):
        done = subprocess.run([sys.executable, os.path.join(TOP, 'tools', 'refused'), *words], stdout=more.get('stdout', subprocess.PIPE), stderr=subprocess.PIPE,
                              text=True, timeout=60, check=False)
        return done.returncode, done.stdout, done.stderr

    def test_statuses_and_that_nothing_else_is_written(self):
        self.write('block.def', BLOCK)
        self.write('tech.lef', TECHNOLOGY)
        self.assertEqual(self.run_tool('block.def', 'tech.lef'), (0, 'no form is refused\n', ''))
        self.write('block.def', BLOCK.replace('- PLACEMENT RECT', '- PLACEMENT + SOFT RECT'))
        status, out, err = self.run_tool('block.def', 'tech.lef')
        self.assertEqual((status, out.splitlines()[-1], err), (2, 'refused forms 1, places 1', ''))
        self.assertEqual(sorted(os.listdir('.')), ['block.def', 'tech.lef'])

    def test_files_that_cannot_be_read(self):
        self.write('block.def', BLOCK)
        self.assertEqual(self.run_tool('block.def', 'none.lef'), (5, '', 'refused: cannot read none.lef: No such file or directory\n'))
        self.assertEqual(self.run_tool('.', 'block.def'), (5, '', 'refused: cannot read .: Is a directory\n'))

    def test_output_that_fails(self):
        self.write('block.def', BLOCK)
        self.write('tech.lef', TECHNOLOGY)
        with open('/dev/full', 'w', encoding='utf-8') as full:
            status, _, err = self.run_tool('block.def', 'tech.lef', stdout=full)
        self.assertEqual((status, err), (5, 'refused: cannot write standard output: No space left on device\n'))

    def test_texts_of_another_format(self):
        self.write('block.def', BLOCK)
        self.write('tech.lef', TECHNOLOGY)
        self.assertEqual(self.run_tool('tech.lef', 'block.def')[:2], (2, (
            'block.def:30: UnexpectedEnd, 1 place: the text ends too early. An END, a semicolon or a whole section is missing behind its last word.\n'
            'tech.lef:40: UnexpectedEnd, 1 place: UNITS DISTANCE MICRONS is missing.\n'
            'block.def:1: note: this seems to be a DEF, where a LEF is needed: the DEF is named first\n'
            'tech.lef:1: note: this seems to be a LEF, where a DEF is needed: the DEF is named first\n'
            'refused forms 2, places 2\n')))
        self.assertIn('empty.lef:1: note: the text is empty\n', self.run_tool('block.def', self.write('empty.lef', ''))[1])

    def test_usage(self):
        status, out, _ = self.run_tool('--help')
        self.assertEqual(status, 0)
        self.assertIn('Exit status: 0: lefdef refuses nothing', out)
        self.assertEqual(self.run_tool('block.def')[0], 64)


if __name__ == '__main__':
    unittest.main()
