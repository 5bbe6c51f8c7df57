"""Tests of tools/lefdef_text.py: which texts it reads, where it refuses the others, and where metal lies."""
import os
import sys
import tempfile
import unittest

TOP = os.path.normpath(os.path.join(os.path.dirname(os.path.abspath(__file__)), '..', '..'))
sys.path.insert(0, os.path.join(TOP, 'tools'))
from lefdef_text import Rect, Refused, Words, read_design, read_library, read_violations  # noqa: E402

STANDARD = os.path.join(TOP, 'examples', 'standard.lef')


def lines_of(*path):
    with open(os.path.join(TOP, *path), encoding='utf-8') as file:
        return file.read().splitlines()


class Room(unittest.TestCase):
    """A test with a folder of its own."""

    def setUp(self):
        room = tempfile.TemporaryDirectory()
        self.addCleanup(room.cleanup)
        self.room = room.name

    def write(self, name, text):
        path = os.path.join(self.room, name)
        with open(path, 'w', encoding='utf-8', newline='') as file:
            file.write(text)
        return path


def cut(marked, first):
    """Returns the words of a marked text, one a line, and the line of the marked word, or of the last where none is marked."""
    words = marked.split(' ')
    faults = [number for number, word in enumerate(words) if word.startswith('^')]
    text = '\n'.join(word[1:] if word.startswith('^') else word for word in words)
    return text + '\n', first + (faults[0] if faults else len(words) - 1)


class WordTests(unittest.TestCase):
    """The words of a text."""

    def words(self, text):
        return Words('text', text).words[:-1]

    def test_semicolons_comments_and_quotes(self):
        self.assertEqual(self.words('VIA a;b; "x # ;" # rest\nEND'), ['VIA', 'a;b', ';', '"x # ;"', 'END'])

    def test_a_word_gives_one_semicolon(self):
        self.assertEqual(self.words('a;; ;; ; b;'), ['a;', ';', ';', ';', ';', 'b', ';'])

    def test_quotes_inside_a_plain_word_and_behind_a_backslash(self):
        self.assertEqual(self.words('a"b c" "d\\"e"f "\\\\" g"'), ['a"b', 'c"', '"d\\"e"', 'f', '"\\\\" g"'])

    def test_white_space_is_that_of_bytes(self):
        self.assertEqual(self.words('a\x0bb\x0cc\x1cd\x85e\xa0f'), ['a', 'b', 'c\x1cd\x85e\xa0f'])

    def test_lines_count_line_feeds(self):
        text = Words('text', '# one\na "b\nc" d\r\ne')
        self.assertEqual([text.line(at) for at in range(4)], [2, 2, 3, 4])

    def test_whole_numbers(self):
        text = Words('text', '0 -0 +7 0000000000000000000000000012 -2000000000 ' + '0' * 6000 + '1')
        self.assertEqual([text.whole() for _ in range(6)], [0, 0, 7, 12, -2000000000, 1])
        for word in ('2000000001', '-2000000001', '9' * 6000, '1.0', '--1', '1e3', '', '+', '\u0661', '1_0'):
            with self.subTest(word=word):
                self.assertRaises(Refused, Words('text', f'{word} ;').whole)

    def test_lengths_in_millionths_of_a_micron(self):
        text = Words('text', '0.005 .5 5. -0 +1.2500000000 -2000000000 ' + '0' * 6000 + '1')
        self.assertEqual([text.length() for _ in range(7)], [5000, 500000, 5000000, 0, 1250000, -2000000000000000, 1000000])
        for word in ('1e3', '.', '-', '0.0000001', '2000000000.000001', '9' * 6000, '1.2.3', ';'):
            with self.subTest(word=word):
                self.assertRaises(Refused, Words('text', f'{word} ;').length)

    def test_statements_and_blocks_that_are_read_past(self):
        text = Words('text', 'a "b ;" c; timing x END END Timing d')
        self.assertEqual(text.statement(), ['a', '"b ;"', 'c'])
        text.expect('TIMING')
        text.skip_block('TIMING')
        self.assertEqual((text.take(), text.more()), ('d', False))
        self.assertRaises(Refused, text.statement)

    def test_a_quote_that_is_not_closed(self):
        with self.assertRaises(Refused) as caught:
            Words('text', 'a\n"b" "c\\"\n')
        self.assertEqual(caught.exception.line, 2)


class GrammarTests(Room):
    """The texts that tests/design and tests/library hold for the program are read and refused here as there."""

    def design_of(self, text):
        path = self.write('block.def', text)
        return read_design(path, read_library([STANDARD, os.path.join(TOP, 'tests', 'design', 'cells.lef')]))

    BEFORE = ('DESIGN top ;\nUNITS DISTANCE MICRONS 1000 ;\nDIEAREA ( 0 0 ) ( 800 2000 ) ;\n'
              'ROW r core 0 0 N DO 4 BY 1 STEP 200 0 ; COMPONENTS 2 ; - u1 INV + PLACED ( 0 0 ) N ; '
              '- u2 INV + PLACED ( 400 0 ) N ; END COMPONENTS\n')
    LAYERS = ('LAYER m1 TYPE ROUTING ; DIRECTION HORIZONTAL ; WIDTH 0.1 ; END m1\nLAYER o TYPE OVERLAP ; END o\n'
              'SITE core SIZE 0.2 BY 2.0 ; END core\n')

    def test_designs_that_are_read(self):
        for text in lines_of('tests', 'design', 'read'):
            with self.subTest(text=text):
                self.assertEqual(self.design_of(self.BEFORE + text + ' END DESIGN').die, Rect(0, 0, 800, 2000))

    def test_designs_that_are_refused(self):
        for line in lines_of('tests', 'design', 'refused'):
            text, fault = cut(line.split(' ', 1)[1] + ' END DESIGN', 5)
            with self.subTest(text=line):
                with self.assertRaises(Refused) as caught:
                    self.design_of(self.BEFORE + text)
                if not line.startswith('UnexpectedEnd '):
                    self.assertEqual(caught.exception.line, fault, str(caught.exception))

    def test_libraries_that_are_read(self):
        for text in lines_of('tests', 'library', 'read'):
            with self.subTest(text=text):
                self.assertIn('m1', read_library([self.write('cells.lef', self.LAYERS + text)]).at(1000).layers)

    def test_libraries_that_are_refused(self):
        for line in lines_of('tests', 'library', 'refused'):
            text, fault = cut(line.split(' ', 1)[1], 4)
            with self.subTest(text=line):
                with self.assertRaises(Refused) as caught:
                    read_library([self.write('cells.lef', self.LAYERS + text)])
                self.assertEqual(caught.exception.line, fault, str(caught.exception))

    def test_texts_that_say_no_design_for_the_whole_of_them(self):
        for text, fault in (
                ('DESIGN top ;\nDIEAREA ( 0 0 ) ( 1 1 ) ;\nEND DESIGN\n', 3),
                ('UNITS DISTANCE MICRONS 20001 ;\nEND DESIGN\n', 1),
                ('UNITS DISTANCE MICRONS 1000 ;\nDIEAREA ( 0 0 ) ( 1 1 ) ;\nEND DESIGN\n', 3),
                ('UNITS DISTANCE MICRONS 1000 ;\nDESIGN top ;\nEND DESIGN\n', 3),
                ('HISTORY UNITS DISTANCE MICRONS 1000 ;\nUNITS DISTANCE MICRONS 2000 ;\n', 2),
                ('DESIGN top ; UNITS DISTANCE MICRONS 1000 ;\nDIEAREA ( 0 0 ) ( 9 9 ) ( 0 9 ) ( 9 0 ) ;\nEND DESIGN', 2),
                ('', 1)):
            with self.subTest(text=text):
                with self.assertRaises(Refused) as caught:
                    self.design_of(text)
                self.assertEqual(caught.exception.line, fault, str(caught.exception))

    def test_the_wired_example_is_read_when_cut_at_its_last_two_lengths_alone(self):
        with open(os.path.join(TOP, 'examples', 'wired.def'), encoding='utf-8') as file:
            text = file.read()
        read = 0
        for length in range(len(text) + 1):
            try:
                self.design_of(text[:length])
                read += 1
            except Refused:
                pass
        self.assertEqual(read, 2)

    def test_lengths_that_are_not_on_the_units(self):
        for width, why in (('0.1005', 'no whole number'), ('0.101', 'is odd')):
            library = self.write('cells.lef', f'#\nLAYER m1 TYPE ROUTING ;\nDIRECTION VERTICAL ; WIDTH {width} ; END m1\n')
            block = self.write('block.def', 'DESIGN top ; UNITS DISTANCE MICRONS 1000 ; DIEAREA ( 0 0 ) ( 1 1 ) ; END DESIGN')
            with self.subTest(width=width):
                with self.assertRaises(Refused) as caught:
                    read_design(block, read_library([library]))
                self.assertEqual((caught.exception.path, caught.exception.line), (library, 2))
                self.assertIn(why, str(caught.exception))


WIRES = """DESIGN wires ;
UNITS DISTANCE MICRONS 1000 ;
DIEAREA ( 0 0 ) ( 4000 4000 ) ;
VIAS 1 ;
- big + RECT m1 ( -50 -70 ) ( 50 70 ) + RECT v1 ( -20 -20 ) ( 20 20 ) + RECT m2 ( -60 -50 ) ( 60 50 ) ;
END VIAS
COMPONENTS 2 ;
- u1 INV + PLACED ( 1000 2000 ) FW ;
- u2 INV + PLACED ( 3000 1000 ) E ;
END COMPONENTS
PINS 1 ;
- p + NET n2 + LAYER m1 ( -50 0 ) ( 50 200 ) + PLACED ( 500 4000 ) S + PORT + LAYER m2 ( 0 0 ) ( 100 30 ) + FIXED ( 2000 0 ) W ;
END PINS
SPECIALNETS 2 ;
- s + ROUTED m1 200 + SHAPE STRIPE ( 0 300 ) ( 1000 300 ) NEW m2 300 ( 600 200 7 ) ( 600 1200 ) NEW m1 0 ( 600 300 ) big ;
- n3 + ROUTED m2 40 ( 3500 100 ) ( 3500 400 ) ;
END SPECIALNETS
NETS 3 ;
- n1 ( u1 Y ) + ROUTED m1 ( 100 1000 0 ) ( 900 1000 ) V12 ( 900 1500 ) big ( 1400 * ) ;
- n2 + ROUTED m1 ( 2500 1000 20 ) ( 2000 1000 ) NEW m2 ( 2000 2000 10 ) ( * 1500 30 ) ;
- n3 + ROUTED m1 ( 100 3000 ) ( 400 3000 ) ( 400 3000 7 ) ( 400 3500 ) ( 100 3500 ) NEW m1 ( 3000 3000 ) RECT ( 100 50 -100 -50 ) ;
END NETS
END DESIGN
"""


class MetalTests(Room):
    """Where metal lies, worked by hand from docs/RULES.md."""

    def shapes(self, text):
        return list(read_design(self.write('block.def', text), read_library([STANDARD])).shapes())

    def test_components_in_each_orientation(self):
        pin_a = {'N': (50, 850, 150, 1050), 'S': (250, 950, 350, 1150), 'W': (950, 50, 1150, 150), 'E': (850, 250, 1050, 350),
                 'FN': (250, 850, 350, 1050), 'FS': (50, 950, 150, 1150), 'FW': (850, 50, 1050, 150), 'FE': (950, 250, 1150, 350)}
        for orientation, (x1, y1, x2, y2) in pin_a.items():
            text = ('DESIGN top ; UNITS DISTANCE MICRONS 1000 ; DIEAREA ( 0 0 ) ( 9 9 ) ; COMPONENTS 1 ; '
                    f'- u1 INV + PLACED ( 1000 -100 ) {orientation} ; END COMPONENTS END DESIGN')
            with self.subTest(orientation=orientation):
                shape = self.shapes(text)[0]
                self.assertEqual((shape.owner, shape.role, shape.of, shape.name), ('TERM u1 A', 'PIN', 'u1', 'A'))
                self.assertEqual(shape.rect, Rect(x1 + 1000, y1 - 100, x2 + 1000, y2 - 100))

    def test_an_origin_is_added_to_pins_and_obstructions(self):
        library = self.write('cells.lef', 'LAYER m1 TYPE ROUTING ; DIRECTION VERTICAL ; WIDTH 0.1 ; END m1\n'
                             'MACRO A SIZE 1 BY 2 ; ORIGIN 0.1 -0.2 ; PIN p PORT LAYER m1 ; RECT 0 0 .3 .4 ; END END p OBS LAYER m1 ; RECT 1 1 2 2 ; END END A')
        block = self.write('block.def', 'DESIGN top ; UNITS DISTANCE MICRONS 1000 ; DIEAREA ( 0 0 ) ( 9 9 ) ; COMPONENTS 1 ; '
                           '- u1 A + PLACED ( 0 0 ) N ; END COMPONENTS END DESIGN')
        shapes = list(read_design(block, read_library([library])).shapes())
        self.assertEqual([(shape.rect, shape.owner) for shape in shapes],
                         [((100, -200, 400, 200), 'TERM u1 p'), ((1100, 800, 2100, 1800), 'OBS u1')])

    def test_wires_vias_patches_and_pins(self):
        found = [(shape.layer, tuple(shape.rect), shape.owner, shape.name) for shape in self.shapes(WIRES) if not shape.of.startswith('u')]
        self.assertEqual(found, [
            ('m1', (450, 3800, 550, 4000), 'NET n2', 'p'),
            ('m2', (1970, 0, 2000, 100), 'NET n2', 'p'),
            ('m1', (100, 950, 950, 1050), 'NET n1', '1'),
            ('m1', (850, 950, 950, 1050), 'NET n1', '2'),
            ('v1', (850, 950, 950, 1050), 'NET n1', '2'),
            ('m2', (850, 950, 950, 1050), 'NET n1', '2'),
            ('m2', (850, 950, 950, 1550), 'NET n1', '3'),
            ('m1', (850, 1430, 950, 1570), 'NET n1', '4'),
            ('v1', (880, 1480, 920, 1520), 'NET n1', '4'),
            ('m2', (840, 1450, 960, 1550), 'NET n1', '4'),
            ('m1', (850, 1450, 1450, 1550), 'NET n1', '5'),
            ('m1', (1950, 950, 2520, 1050), 'NET n2', '1'),
            ('m2', (1950, 1470, 2050, 2010), 'NET n2', '2'),
            ('m1', (50, 2950, 407, 3050), 'NET n3', '1'),
            ('m1', (350, 2993, 450, 3550), 'NET n3', '2'),
            ('m1', (50, 3450, 450, 3550), 'NET n3', '3'),
            ('m1', (2900, 2950, 3100, 3050), 'NET n3', '4'),
            ('m1', (0, 200, 1000, 400), 'NET s', '1'),
            ('m2', (450, 193, 750, 1200), 'NET s', '2'),
            ('m1', (550, 230, 650, 370), 'NET s', '3'),
            ('v1', (580, 280, 620, 320), 'NET s', '3'),
            ('m2', (540, 250, 660, 350), 'NET s', '3'),
            ('m2', (3480, 100, 3520, 400), 'NET n3', '5'),
        ])

    def test_each_side_of_a_via_has_the_width_of_its_own_layer(self):
        library = self.write('cells.lef', 'LAYER a TYPE ROUTING ; DIRECTION HORIZONTAL ; WIDTH 0.1 ; END a LAYER c TYPE CUT ; END c\n'
                             'LAYER b TYPE ROUTING ; DIRECTION VERTICAL ; WIDTH 0.2 ; END b\n'
                             'VIA up LAYER a ; RECT -.01 -.01 .01 .01 ; LAYER c ; RECT -.01 -.01 .01 .01 ; LAYER b ; RECT -.01 -.01 .01 .01 ; END up')
        block = self.write('block.def', 'DESIGN top ; UNITS DISTANCE MICRONS 1000 ; DIEAREA ( 0 0 ) ( 9 9 ) ; NETS 1 ; '
                           '- n + ROUTED a ( 0 0 ) ( 1000 0 ) up ( 1000 2000 ) NEW a ( 0 5000 ) ( 1000 5000 7 ) up ( 1000 6000 ) ; END NETS '
                           'SPECIALNETS 1 ; - s + ROUTED a 60 ( 0 9000 ) ( 1000 9000 ) up ( 1000 9500 ) ; END SPECIALNETS END DESIGN')
        found = [(shape.layer, tuple(shape.rect)) for shape in read_design(block, read_library([library])).shapes()]
        vias = [(layer, (990, y - 10, 1010, y + 10)) for y in (0, 5000, 9000) for layer in ('a', 'c', 'b')]
        self.assertEqual([shape for shape in found if shape not in vias], [
            ('a', (-50, -50, 1050, 50)), ('b', (900, -100, 1100, 2100)), ('a', (-50, 4950, 1007, 5050)), ('b', (900, 4993, 1100, 6100)),
            ('a', (0, 8970, 1000, 9030)), ('b', (970, 9000, 1030, 9500))])
        self.assertEqual([shape for shape in found if shape in vias], vias)

    def test_owners_of_pins_of_components(self):
        owners = {(shape.of, shape.name): shape.owner for shape in self.shapes(WIRES) if shape.of == 'u1'}
        self.assertEqual(owners, {('u1', 'A'): 'TERM u1 A', ('u1', 'Y'): 'NET n1', ('u1', 'VDD'): 'POWER', ('u1', 'VSS'): 'GROUND'})

    def test_blockages(self):
        # (the second one is on a layer without metal: it is dropped, and not counted)
        library = self.write('cells.lef', 'LAYER m1 TYPE ROUTING ; DIRECTION VERTICAL ; WIDTH 0.1 ; END m1 LAYER mark TYPE OVERLAP ; END mark\n'
                             'LAYER v1 TYPE CUT ; END v1')
        block = self.write('block.def', 'DESIGN top ; UNITS DISTANCE MICRONS 1000 ; DIEAREA ( 0 0 ) ( 9 9 ) ; NETS 1 ; - n + ROUTED m1 ( 0 0 ) ( 0 9 ) ; '
                           'END NETS BLOCKAGES 4 ; - placement RECT ( 5 6 ) ( 3 4 ) RECT ( 0 0 ) ( 1 1 ) ; - LAYER mark RECT ( 0 0 ) ( 1 1 ) ; '
                           '- LAYER v1 + PUSHDOWN + PUSHDOWN RECT ( 1 2 ) ( 3 4 ) RECT ( 5 -6 ) ( -7 8 ) ; - LAYER m1 RECT ( 0 0 ) ( 9 9 ) ; END BLOCKAGES '
                           'PINS 1 ; - p + LAYER m1 ( 0 0 ) ( 1 1 ) + PLACED ( 50 50 ) N ; END PINS END DESIGN')
        design = read_design(block, read_library([library]))
        self.assertEqual([(blockage.layer, blockage.rects) for blockage in design.blockages],
                         [(None, [(3, 4, 5, 6), (0, 0, 1, 1)]), ('v1', [(1, 2, 3, 4), (-7, -6, 5, 8)]), ('m1', [(0, 0, 9, 9)])])
        self.assertEqual([(shape.layer, tuple(shape.rect), shape.owner, shape.role) for shape in design.shapes()], [
            ('m1', (50, 50, 51, 51), 'TERM PIN p', 'PIN'), ('v1', (1, 2, 3, 4), 'BLOCKAGE 2', 'BLOCKAGE'), ('v1', (-7, -6, 5, 8), 'BLOCKAGE 2', 'BLOCKAGE'),
            ('m1', (0, 0, 9, 9), 'BLOCKAGE 3', 'BLOCKAGE'), ('m1', (-50, -50, 50, 59), 'NET n', 'WIRE')])
        self.assertEqual(design.placement_rects(), [(1, (3, 4, 5, 6)), (1, (0, 0, 1, 1))])
        self.assertEqual([shape.owner for shape in design.shapes(Rect(20, 20, 60, 60))], ['TERM PIN p', 'NET n'])

    def test_a_window_has_what_shares_a_point_with_it(self):
        design = read_design(self.write('block.def', WIRES), read_library([STANDARD]))
        for window in (Rect(900, 1050, 1000, 1100), Rect(951, 1051, 952, 1052), Rect(0, 0, 4000, 4000), Rect(2120, 2000, 2200, 2049)):
            with self.subTest(window=window):
                expected = [shape for shape in design.shapes()
                            if shape.rect.x1 <= window.x2 and window.x1 <= shape.rect.x2 and shape.rect.y1 <= window.y2 and window.y1 <= shape.rect.y2]
                self.assertEqual(list(design.shapes(window)), expected)


class LineTests(Room):
    """The lines of a list of violations."""

    def violations(self, text):
        return read_violations(self.write('lines', text))

    def test_each_list_of_the_cases_of_the_program(self):
        cases = os.path.join(TOP, 'tests', 'program')
        kinds = {}
        for name in sorted(os.listdir(cases)):
            path = os.path.join(cases, name, 'stdout')
            lines = lines_of('tests', 'program', name, 'stdout') if os.path.exists(path) else []
            if lines and (lines[-1] == 'legal' or lines[-1].split(' ')[0] in ('violations', 'NOTCLEAN', 'FIXEDILLEGAL')):
                with self.subTest(case=name):
                    self.assertEqual([violation.text for violation in read_violations(path)], lines[:-1])
                for violation in read_violations(path):
                    kinds[violation.kind] = kinds.get(violation.kind, 0) + 1
        self.assertEqual(sorted(kinds), ['BLOCKED', 'OFFSITE', 'OPEN', 'OUTSIDE', 'OVERLAP', 'SHORT', 'TOONEAR', 'UNPLACED'])

    def test_names_that_are_words_of_lines(self):
        for line, names in (
                ('SHORT NET TERM POWER NET 1 2 3 4 NET OBS -5 -6 7 8', ('NET', 'TERM POWER NET', '1 2 3 4', 'NET OBS', '-5 -6 7 8')),
                ('TOONEAR m1 BLOCKAGE 12 1 2 3 4 NET BLOCKAGE 5 6 7 8', ('m1', 'BLOCKAGE 12', '1 2 3 4', 'NET BLOCKAGE', '5 6 7 8')),
                ('SHORT BLOCKAGE TERM BLOCKAGE 1 1 2 3 4 BLOCKAGE 1 5 6 7 8', ('BLOCKAGE', 'TERM BLOCKAGE 1', '1 2 3 4', 'BLOCKAGE 1', '5 6 7 8'))):
            with self.subTest(line=line):
                self.assertEqual(self.violations(f'{line}\nviolations 1\n')[0].names, names)

    def test_lists_that_are_refused(self):
        for text, line, why in (
                ('', 1, 'ends without its last line'),
                ('OFFSITE u1\n', 1, 'ends without its last line'),
                ('OFFSITE u1\nviolations 2\n', 2, '2 violations are counted, and 1 listed'),
                ('OFFSITE u1\nlegal\n', 2, '0 violations are counted, and 1 listed'),
                ('legal\nlegal\n', 2, 'nothing may follow'),
                ('OFFSITE u1\nOFFSITE u1 u2\nviolations 2\n', 2, 'no line of a list of violations'),
                ('REFUSED 1 8 UnexpectedEnd\n', 1, 'no line of a list of violations'),
                ('TOONEAR m1 NET a 1 2 3 4 NET b 1 2 3\nviolations 1\n', 1, 'no line of a list of violations'),
                ('TOONEAR m1 BLOCKAGE b 1 2 3 4 NET b 1 2 3 4\nviolations 1\n', 1, 'no line of a list of violations'),
                ('BLOCKED u1 u2\nviolations 1\n', 1, 'no line of a list of violations'),
                (' OFFSITE u1\nviolations 1\n', 1, 'no line of a list of violations')):
            with self.subTest(text=text):
                with self.assertRaises(Refused) as caught:
                    self.violations(text)
                self.assertEqual(caught.exception.line, line)
                self.assertIn(why, caught.exception.why)


if __name__ == '__main__':
    unittest.main()
