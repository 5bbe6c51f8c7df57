"""Tests of tools/lefdef_text in the wide profile: where the metal of each form lies, by worked values, and what is refused."""
import os
import sys
import tempfile
import unittest

sys.path.insert(0, os.path.dirname(os.path.abspath(__file__)))

from doctored import TOP
from wide_texts import BLOCKAGES, CELLS, EVERY_FORM, GENERATED, PINS, RULES, TECHNOLOGY, block

sys.path.insert(0, os.path.join(TOP, 'tools'))

from lefdef_text import NARROW, Profile, Refused, read_design, read_library  # noqa: E402

WIDE = Profile(is_wide=True)
LAYERS = TECHNOLOGY[TECHNOLOGY.index('LAYER well'):TECHNOLOGY.index('VIA V12')]
MICRON = 10 ** 6


class Room(unittest.TestCase):
    """A test with a folder of its own."""

    def setUp(self):
        room = tempfile.TemporaryDirectory()
        self.addCleanup(room.cleanup)
        self.room = room.name

    def file(self, name, text):
        path = os.path.join(self.room, name)
        with open(path, 'w', encoding='utf-8') as file:
            file.write(text)
        return path

    def library(self, text, profile=WIDE):
        return read_library([self.file('in.lef', text)], profile)

    def design(self, text, *more, profile=WIDE):
        """Returns the design of a DEF under the technology and the cells, or other LEFs."""
        lefs = [self.file(f'{number}.lef', text) for number, text in enumerate(more or (TECHNOLOGY, CELLS))]
        return read_design(self.file('in.def', text), read_library(lefs, profile), profile)

    def assert_refused(self, why, read, *words):
        """Tries that a reading is refused, for a reason of which this is the beginning behind the name of the file."""
        with self.assertRaises(Refused) as refused:
            read(*words)
        found = refused.exception
        self.assertEqual(f'{found.line}: {found.kind}: {found.why}', why)


def metal(design, net):
    """Returns the metal of the wires of a net, wire by wire."""
    return [[(layer, *rect) for layer, rect in design.wire_rects(wire)] for wire in net.wires]


def in_microns(shapes):
    return [(layer, *(side / MICRON for side in rect)) for layer, rect in shapes]


class GeometryTests(Room):
    """Copies, vias and paths of ports and obstructions."""

    def shapes(self, statements, profile=WIDE):
        library = self.library(f'{TECHNOLOGY.replace("END LIBRARY", "")}MACRO m SIZE 9 BY 9 ; OBS {statements} END END m\n', profile)
        return in_microns(library.macros['m'].obstructions) if 'm' in library.macros else library.dropped['m'].why

    def test_copies_of_rectangles(self):
        self.assertEqual(self.shapes('LAYER m1 ; RECT ITERATE 0 0.1 0.1 0.2 DO 2 BY 3 STEP 0.2 -0.3 ;'),
                         [('m1', 0, 0.1, 0.1, 0.2), ('m1', 0.2, 0.1, 0.3, 0.2), ('m1', 0, -0.2, 0.1, -0.1), ('m1', 0.2, -0.2, 0.3, -0.1),
                          ('m1', 0, -0.5, 0.1, -0.4), ('m1', 0.2, -0.5, 0.3, -0.4)])

    def test_copies_of_polygons(self):
        self.assertEqual(self.shapes('LAYER m1 ; POLYGON ITERATE ( 0 0 ) ( 2 0 ) ( 2 1 ) ( 1 1 ) ( 1 2 ) ( 0 2 ) DO 1 BY 2 STEP 0 3 ;'),
                         [('m1', 0, 0, 2, 1), ('m1', 0, 1, 1, 2), ('m1', 0, 3, 2, 4), ('m1', 0, 4, 1, 5)])

    def test_vias(self):
        via = [('m1', 0.94, 1.95, 1.1, 2.05), ('v1', 0.95, 1.95, 1.05, 2.05), ('m2', 0.95, 1.95, 1.05, 2.05)]
        self.assertEqual(self.shapes('VIA 1 2 V12 ;'), via)
        self.assertEqual(self.shapes('LAYER m2 ; VIA ( 1 2 ) V12 ; RECT 0 0 1 1 ;'), [*via, ('m2', 0, 0, 1, 1)])
        self.assertEqual(self.shapes('VIA ITERATE 1 2 V12 DO 1 BY 2 STEP 5 1 ;'), via + [(layer, x1, y1 + 1, x2, y2 + 1) for layer, x1, y1, x2, y2 in via])

    def test_on_a_layer_without_metal_all_is_read_past(self):
        self.assertEqual(self.shapes('LAYER well ; VIA any ; RECT ITERATE ; POLYGON ITERATE 0 ; PATH 0 0 1 1 ; PATH ITERATE any ;'), [])

    def test_masks(self):
        statements = 'LAYER m1 ; RECT MASK 1 ITERATE 0 0 1 1 DO 1 BY 1 STEP 0 0 ; VIA MASK 123 0 0 V12 ; VIA ITERATE MASK 1 0 0 V12 DO 1 BY 1 STEP 0 0 ;'
        self.assertEqual(len(self.shapes(statements, Profile(True, True))), 7)
        self.assertEqual(self.shapes(statements), 'RECT MASK is not supported')
        self.assertEqual(self.shapes('VIA MASK 1 0 0 V12 ;'), 'VIA MASK is not supported')

    def test_paths(self):
        # A line reaches 0.05, half the width of the wires of m1, beyond itself on all four sides.
        along, up, square = (0.95, 0.95, 3.05, 1.05), (2.95, 0.95, 3.05, 2.05), (0.95, 1.95, 1.05, 2.05)
        for statements, rects in (
                ('PATH 1 1 3 1 ;', [along]), ('PATH ( 3 1 ) ( 1 1 ) ;', [along]), ('PATH 1 1 ( 3 1 ) 3 2 ;', [along, up]),
                ('PATH 3 2 3 1 1 1 ;', [up, along]), ('PATH 1 2 ;', [square]), ('PATH ( 1 2 ) 1 2 ;', [square]),
                ('PATH 1 1 3 1 1 1 ;', [along, along]),
                ('RECT 0 0 1 1 ; PATH 1 2 ; RECT 1 0 2 1 ;', [(0, 0, 1, 1), square, (1, 0, 2, 1)])):
            with self.subTest(statements=statements):
                self.assertEqual(self.shapes(f'LAYER m1 ; {statements}'), [('m1', *rect) for rect in rects])

    def test_widths_of_paths(self):
        for statements, layer, half in (
                ('LAYER m1 ; WIDTH 0.4 ; PATH 1 2 ;', 'm1', 0.2), ('LAYER m1 ; WIDTH 0.4 ; WIDTH 0.6 ; PATH 1 2 ;', 'm1', 0.3),
                ('LAYER m1 ; WIDTH 0.4 ; LAYER m2 ; PATH 1 2 ;', 'm2', 0.05), ('LAYER m1 ; WIDTH 0.4 ; LAYER m1 ; PATH 1 2 ;', 'm1', 0.05),
                ('WIDTH 0.4 ; LAYER m1 ; PATH 1 2 ;', 'm1', 0.05), ('LAYER v1 ; WIDTH 0.4 ; PATH 1 2 ;', 'v1', 0.2),
                ('LAYER m1 ; WIDTH 0.4 any ; CLASS CORE ; PATH 1 2 ;', 'm1', 0.2), ('LAYER m1 ; WIDTH 0.000002 ; PATH 1 2 ;', 'm1', 0.000001),
                ('LAYER m1 ; WIDTH +.40000000 ; PATH 1 2 ;', 'm1', 0.2),
                *((f'{before} PATH 1 2 ;', layer, half) for malformed in self.MALFORMED_WIDTHS for before, layer, half in (
                    (f'LAYER m1 ; {malformed} WIDTH 0.4 ;', 'm1', 0.2), (f'LAYER m1 ; {malformed} LAYER m2 ;', 'm2', 0.05),
                    (f'{malformed} LAYER m1 ;', 'm1', 0.05), (f'LAYER well ; {malformed} PATH 1 2 ; LAYER m1 ;', 'm1', 0.05)))):
            with self.subTest(statements=statements):
                (found, *rect), = self.shapes(statements)
                self.assertEqual((found, rect), (layer, [round(side, 6) for side in (1 - half, 2 - half, 1 + half, 2 + half)]))

    MALFORMED_WIDTHS = ('WIDTH ;', 'WIDTH 0 ;', 'WIDTH -0.4 ;', 'WIDTH x ;', 'WIDTH + ;', 'WIDTH 0.4000001 ;', 'WIDTH 4e-1 ;', 'WIDTH 2000000001 ;')

    def test_a_path_behind_a_malformed_width_drops_its_macro(self):
        for malformed in self.MALFORMED_WIDTHS:
            for before, behind in (('LAYER m1 ;', ''), ('LAYER m1 ; WIDTH 0.4 ;', ''), ('LAYER v1 ;', ''), ('LAYER m1 ;', 'CLASS CORE ; RECT 0 0 1 1 ;')):
                with self.subTest(malformed=malformed, before=before):
                    self.assertEqual(self.shapes(f'{before} {malformed} {behind} PATH 1 2 ;'), 'PATH behind a WIDTH that is no length above 0 is not supported')
            self.assertEqual(self.shapes(f'LAYER m1 ; {malformed} RECT 0 0 1 1 ;'), [('m1', 0, 0, 1, 1)])

    def test_masks_of_paths(self):
        self.assertEqual(self.shapes('LAYER m1 ; PATH MASK 1 1 2 ;', Profile(True, True)), [('m1', 0.95, 1.95, 1.05, 2.05)])
        self.assertEqual(self.shapes('LAYER m1 ; PATH MASK 1 1 2 ;'), 'PATH MASK is not supported')
        self.assertEqual(self.shapes('LAYER m1 ; PATH MASK 1 ITERATE 1 2 DO 1 BY 1 STEP 0 0 ;', Profile(True, True)), 'PATH ITERATE is not supported')

    def test_paths_that_drop_a_macro(self):
        number = 'a length of at most six decimals was expected, not ;'
        for statements, why in (
                ('LAYER m1 ; PATH 0 0 1 0 2 1 ;', 'PATH with a slanted line is not supported'),
                ('LAYER m1 ; WIDTH 0.000003 ; PATH 0 0 1 0 ;', 'PATH of an odd width is not supported'),
                ('LAYER v1 ; PATH 0 0 1 0 ;', 'PATH on a cut layer without a WIDTH is not supported'),
                ('PATH 0 0 1 0 ;', 'PATH comes before any LAYER'),
                ('LAYER v1 ; WIDTH 0.4 ; LAYER v1 ; PATH 0 0 1 0 ;', 'PATH on a cut layer without a WIDTH is not supported'),
                ('LAYER m1 ; PATH ITERATE 0 0 1 0 DO 1 BY 1 STEP 0 0 ;', 'PATH ITERATE is not supported'),
                ('LAYER m1 ; PATH ;', number), ('LAYER m1 ; PATH 0 0 1 ;', number),
                ('LAYER m1 ; PATH 0 0 1 0 DO 1 BY 1 STEP 0 0 ;', 'a length of at most six decimals was expected, not DO'),
                ('LAYER m1 ; PATH 2000000000 0 0 0 ;', 'PATH beyond 2,000 metres is not supported')):
            with self.subTest(statements=statements):
                self.assertEqual(self.shapes(statements), why)

    def test_what_drops_a_macro(self):
        for statements, why in (
                ('LAYER m1 ; RECT ITERATE 0 0 1 1 DO 0 BY 1 STEP 1 1 ;', 'there is no copy'), ('LAYER m1 ; RECT ITERATE 0 0 1 1 DO 1 BY 1 STEP 1 ;',
                                                                                               'a length of at most six decimals was expected, not ;'),
                ('LAYER m1 ; RECT ITERATE 0 0 1 1 DO 2001 BY 2000 STEP 1 1 ;', 'there are more than 4,000,000 rectangles of copies'),
                ('LAYER m1 ; RECT ITERATE 0 0 1 1 DO 3 BY 1 STEP 1000000000 0 ;', 'a copy is beyond 2,000 metres'),
                ('LAYER m1 ; RECT ITERATE 0 0 1 1 ;', 'DO was expected, not ;'), ('LAYER m1 ; RECT 0 0 1 1 DO 1 BY 1 STEP 0 0 ;', '; was expected, not DO'),
                ('RECT ITERATE 0 0 1 1 DO 1 BY 1 STEP 0 0 ;', 'RECT comes before any LAYER'), ('VIA 0 0 V9 ;', 'there is no via V9'),
                ('VIA 0 0 ;', 'the name of a via was expected, not ;'),
                ('VIA 2000000000 0 V12 ;', 'a copy is beyond 2,000 metres')):
            with self.subTest(statements=statements):
                self.assertEqual(self.shapes(statements), why)

    def test_the_narrow_profile_refuses_them(self):
        for statements, why in (('LAYER m1 ; RECT ITERATE 0 0 1 1 DO 1 BY 1 STEP 0 0 ;', '17: Unsupported: RECT ITERATE is not supported'),
                                ('VIA 0 0 V12 ;', '17: Unsupported: VIA in a geometry is not supported'),
                                ('LAYER m1 ; PATH 0 0 1 0 ;', '17: Unsupported: PATH in a geometry is not supported'),
                                ('PATH 0 0 1 0 ;', '17: Unsupported: PATH in a geometry is not supported')):
            self.assert_refused(why, self.shapes, statements, NARROW)
        self.assertEqual(self.shapes('WIDTH ; LAYER m1 ; WIDTH x ; RECT 0 0 1 1 ;', NARROW), [('m1', 0, 0, 1, 1)])


class LefViaTests(Room):
    """Generated vias of a LEF, and polygons of vias."""
    MADE = ('VIA made\n  VIARULE rule ;\n  CUTSIZE 0.02 0.04 ; LAYERS m1 v1 m2 ; CUTSPACING 0.01 0.03 ;\n  ENCLOSURE 0.005 0.006 0.007 0.008 ; ROWCOL 2 3 ;\n'
            '  ORIGIN 0.01 0 ; OFFSET 0.001 0.002 0.003 0.004 ;\nEND made\n')
    CUTS = [('v1', -30, -55, -10, -15), ('v1', 0, -55, 20, -15), ('v1', 30, -55, 50, -15), ('v1', -30, 15, -10, 55), ('v1', 0, 15, 20, 55), ('v1', 30, 15, 50, 55)]
    PLATES = [('m1', -34, -59, 56, 63)], [('m2', -34, -59, 60, 67)]

    def via(self, text, profile=WIDE, units=1000):
        library = self.library(LAYERS + text, profile)
        via, = library.at(units).vias.values()
        return [(layer, *rect) for layer, rect in via.shapes] if via.is_good() else library.why_not_good[via.name]

    def test_a_generated_via(self):
        # Three cuts of 20 with gaps of 10 are 80 wide, two of 40 with a gap of 30 are 110 high; their middle is at 10 0.
        self.assertEqual(self.via(self.MADE), [*self.PLATES[0], *self.CUTS, *self.PLATES[1]])
        self.assertEqual(self.via(self.MADE, NARROW), 'it has the statement VIARULE')

    def test_its_statements_come_in_any_order_with_others(self):
        statements = self.MADE.replace('VIA made', '').replace('END made', '').split(';')[:-1]
        text = ';'.join(statements[::-1])
        self.assertEqual(self.via(f'VIA made DEFAULT RESISTANCE 2 ; {text} ; ; END made\n'), [*self.PLATES[0], *self.CUTS, *self.PLATES[1]])

    def test_a_pattern(self):
        self.assertEqual(self.via(self.MADE.replace('ROWCOL 2 3', 'ROWCOL 2 3 ; PATTERN 1_8_1_6')), [*self.PLATES[0], self.CUTS[0], *self.CUTS[4:], *self.PLATES[1]])

    def test_what_is_kept_by_its_name(self):
        for old, new, why in (
                ('LAYERS m1 v1 m2 ;', '', 'a generated via lacks LAYERS'), ('ROWCOL 2 3', 'ROWCOL 2', 'its ROWCOL has 1 words, and not 2'),
                ('ROWCOL 2 3', 'ROWCOL 0 3', '0 cannot be in its ROWCOL'), ('ROWCOL 2 3', 'ROWCOL 100 101', 'it has more than 10,000 cuts'),
                ('CUTSIZE 0.02', 'CUTSIZE 0', '0 cannot be in its CUTSIZE'), ('CUTSIZE 0.02', 'CUTSIZE x', 'x cannot be in its CUTSIZE'),
                ('CUTSIZE 0.02', 'CUTSIZE 0.020001', 'the cuts of a via are an odd number of units wide or high'),
                ('ENCLOSURE 0.005', 'ENCLOSURE -1', '-1 cannot be in its ENCLOSURE'), ('m1 v1 m2', 'm1 m2 v1', 'its layers are not one for wires, one of cuts, and one for wires'),
                ('m1 v1 m2', 'm1 v9 m2', 'there is no layer v9'), ('ROWCOL 2 3', 'RECT 0 0 1 1', 'it has RECT beside VIARULE'),
                ('ROWCOL 2 3', 'POLYGON 0 0 1 1', 'it has POLYGON beside VIARULE'), ('ROWCOL 2 3', 'CUTSIZE 1 1', 'it has CUTSIZE twice'),
                ('ROWCOL 2 3', 'PATTERN 1__1_8', '1__1_8 is no pattern of cuts'), ('ORIGIN 0.01', 'ORIGIN 2000', 'a side of a generated via is beyond 2000000000'), ('ORIGIN 0.01', 'ORIGIN 2000.000001', '2000.000001 cannot be in its ORIGIN'),
                ('ORIGIN 0.01', 'ORIGIN 1', 'a rectangle of it on m1 does not have the point 0 0 inside')):
            with self.subTest(new=new):
                self.assertEqual(self.via(self.MADE.replace(old, new, 1)), why)

    def test_a_length_off_the_units(self):
        self.assert_refused('5: NotOnUnit: a length of made is no whole number of database units: -0.034 microns at 100 units a micron', self.via, self.MADE, WIDE, 100)

    DRAWN = 'VIA drawn LAYER m1 ; {} LAYER v1 ; RECT -0.05 -0.05 0.05 0.05 ; LAYER m2 ; RECT -0.1 -0.1 0.1 0.1 ; END drawn\n'

    def test_polygons_of_vias(self):
        rest = [('v1', -50, -50, 50, 50), ('m2', -100, -100, 100, 100)]
        for words, profile, found in (
                ('POLYGON -0.1 -0.1 0.1 -0.1 0.1 0.1 -0.1 0.1 ;', WIDE, [('m1', -100, -100, 100, 100), *rest]),
                ('LAYER well ; POLYGON 0 0 1 1 ; LAYER m1 ; RECT -0.1 -0.1 0.1 0.1 ;', WIDE, [('m1', -100, -100, 100, 100), *rest]),
                ('POLYGON MASK 1 ( -0.1 -0.1 ) ( 0.1 -0.1 ) ( 0.1 0.1 ) ( -0.1 0.1 ) ;', Profile(True, True), [('m1', -100, -100, 100, 100), *rest]),
                ('POLYGON MASK 1 -0.1 -0.1 0.1 -0.1 0.1 0.1 -0.1 0.1 ;', WIDE, 'it has the statement POLYGON MASK'),
                ('POLYGON -0.1 -0.1 0.2 -0.1 0.2 0.1 0.1 0.1 0.1 0.2 -0.1 0.2 ;', WIDE, 'a rectangle of it on m1 does not have the point 0 0 inside'),
                ('POLYGON -0.1 -0.1 0.1 -0.1 0.1 0.1 ;', WIDE, 'it has a polygon with a slanted side'), ('POLYGON 0 0 1 0 ;', WIDE, 'it has a polygon without area'),
                ('POLYGON 0 0 1 ;', WIDE, 'it has a POLYGON that is not of points'), ('POLYGON 0 0 ( 1 0 ;', WIDE, 'it has a POLYGON that is not of points'),
                ('POLYGON 0 0 1 x ;', WIDE, 'it has a POLYGON that is not of points'),
                ('POLYGON -0.1 -0.1 0.1 -0.1 0.1 0.1 -0.1 0.1 ;', NARROW, 'it has the statement POLYGON')):
            with self.subTest(words=words):
                self.assertEqual(self.via(self.DRAWN.format(words), profile), found)
        self.assertEqual(self.via('VIA v POLYGON 0 0 1 0 1 1 0 1 ; END v\n'), 'it has a POLYGON before any LAYER')


class LefRuleTests(Room):
    """Nondefault rules of a LEF."""

    def test_widths_and_vias(self):
        library = self.library(TECHNOLOGY)
        self.assertEqual({rule.name: rule.widths for rule in library.rules.values()}, {'wide': {'m1': 200000, 'm2': 240000}})
        self.assertEqual(list(library.vias), ['V12', 'VW'])
        self.assertEqual(library.at(1000).rules['wide'].widths, {'m1': 200, 'm2': 240})
        narrow = self.library(TECHNOLOGY, NARROW)
        self.assertEqual((narrow.rules, list(narrow.vias)), ({}, ['V12']))

    def test_a_width_may_be_odd_and_is_a_whole_number_of_units(self):
        self.assertEqual(self.library(TECHNOLOGY.replace('WIDTH 0.24', 'WIDTH 0.241')).at(1000).rules['wide'].widths['m2'], 241)
        self.assert_refused('8: NotOnUnit: a length of wide is no whole number of database units: 0.2405 microns at 1000 units a micron',
                            self.library(TECHNOLOGY.replace('WIDTH 0.24', 'WIDTH 0.2405')).at, 1000)

    def test_spacings_of_shapes_of_one_net_are_read_past(self):
        text = TECHNOLOGY.replace('  USEVIA', '  SPACING SAMENET m1 m1 0.2 ; SAMENET v1 v1 0.2 STACK ; END SPACING\n  USEVIA')
        self.assertEqual(self.library(text).rules, self.library(TECHNOLOGY).rules)

    def test_what_is_refused(self):
        for old, new, why in (
                ('LAYER m2 WIDTH', 'LAYER m1 WIDTH', '11: Unexpected: layer m1 appears twice in a rule'), ('LAYER m2 WIDTH', 'LAYER m9 WIDTH', '11: UnknownName: there is no layer m9'),
                ('WIDTH 0.24 ;', '', '11: Unexpected: layer m2 of a rule has no WIDTH'), ('WIDTH 0.24 ;', 'WIDTH 0 ;', '11: TooLarge: the width is too small'),
                ('WIDTH 0.24 ;', 'WIDTH 0.2 ; WIDTH 0.2 ;', '11: Unexpected: WIDTH appears twice'), ('WIDTH 0.24 ;', 'WIDTH 0.24 0.3 ;', '11: Unexpected: ; was expected, not 0.3'),
                ('END m2\n  VIA', 'END m1\n  VIA', '11: Unexpected: END m2 was expected, not m1'), ('END wide', 'END other', '15: Unexpected: END wide was expected, not other'),
                ('VIA VW', 'VIA V12', '12: DuplicateName: via V12 is defined twice'),
                ('END LIBRARY', 'NONDEFAULTRULE wide END wide', '16: DuplicateName: rule wide is defined twice')):
            with self.subTest(new=new):
                self.assert_refused(why, self.library, TECHNOLOGY.replace(old, new, 1))
                self.assertEqual(list(self.library(TECHNOLOGY, NARROW).rules), [])


class SpecialNetTests(Room):
    """Figures of special nets, and vias that are turned."""

    def wires(self, wiring, **others):
        design = self.design(block(f'- s {wiring} ;\n', **others))
        return metal(design, design.special['s'])

    def test_polygons(self):
        self.assertEqual(self.wires('+ POLYGON m1 ( 0 0 ) ( 300 * ) ( * 100 ) ( 100 * ) ( * 400 ) ( 0 * )'), [[('m1', 0, 0, 300, 100)], [('m1', 0, 100, 100, 400)]])
        self.assertEqual(self.wires('+ FIXED + SHAPE RING + POLYGON m1 ( 0 0 ) ( 3 0 ) ( 3 5 ) ( 0 5 ) + RECT m2 ( 0 0 ) ( 2 2 )'),
                         [[('m1', 0, 0, 3, 4)], [('m1', 0, 1, 3, 5)], [('m2', 0, 0, 2, 2)]])

    def test_turned_vias(self):
        design = self.design(block('- s + VIA V12 S ( 100 200 ) + ROUTED m1 0 ( 500 0 ) V12 FS NEW m1 0 ( 900 0 ) V12 N NEW m1 0 ( 0 900 ) V12 W ;\n'))
        self.assertEqual(metal(design, design.special['s']), [
            [('m1', 0, 150, 160, 250), ('v1', 50, 150, 150, 250), ('m2', 50, 150, 150, 250)], [('m1', 440, -50, 600, 50), ('v1', 450, -50, 550, 50), ('m2', 450, -50, 550, 50)],
            [('m1', 840, -50, 1000, 50), ('v1', 850, -50, 950, 50), ('m2', 850, -50, 950, 50)], [('m1', -50, 840, 50, 1000), ('v1', -50, 850, 50, 950), ('m2', -50, 850, 50, 950)]])
        self.assertEqual([wire.via.name for wire in design.special['s'].wires], ['V12_S', 'V12', 'V12', 'V12_W'])
        self.assertEqual(list(design.vias), ['V12', 'VW', 'V12_S', 'V12_W'])

    def test_names_that_are_taken(self):
        taken = '- V12_S + RECT m1 ( 0 0 ) ( 5 5 ) ;\n- V12_S_1 + RECT m1 ( 0 0 ) ( 5 5 ) ;\n'
        design = self.design(block('- s + VIA V12 S ( 100 200 ) + ROUTED m1 0 ( 0 0 ) V12 S ;\n', '', taken))
        self.assertEqual([wire.via.name for wire in design.special['s'].wires], ['V12_S_2', 'V12_S_2'])

    def test_all_words_of_a_section_that_is_gone_through_count(self):
        nets = '- V12 + SOURCE TEST ;\n- E ;\n- n + ROUTED m1 ( 0 0 ) V12 W ;\n- V12_W + PROPERTY V12 E ;\n'
        design = self.design(block('', nets))
        self.assertEqual(list(design.vias), ['V12', 'VW', 'V12_W', 'V12_E'])
        design = self.design(block('', nets.replace('V12 W ;', 'V12 N ;')))
        self.assertEqual(list(design.vias), ['V12', 'VW'])

    def test_both_sections_and_arrays(self):
        design = self.design(block('- s + ROUTED m1 0 ( 0 0 ) V12 W DO 2 BY 1 STEP 500 0 ;\n', '- n + ROUTED m1 ( 9 9 ) V12 E V12 W ;\n'))
        self.assertEqual([(wire.via.name, wire.x) for wire in design.special['s'].wires], [('V12_W', 0), ('V12_W', 500)])
        self.assertEqual([wire.via.name for wire in design.nets['n'].wires], ['V12_E', 'V12_W'])
        self.assertEqual(list(design.vias), ['V12', 'VW', 'V12_W', 'V12_E'])

    def test_vias_come_before_them(self):
        text = block('', '- n + ROUTED m1 ( 9 9 ) V12 W ;\n')
        self.assert_refused('16: Unexpected: VIAS appears twice', self.design, text.replace('END DESIGN', 'VIAS 0 ;\nEND VIAS\nEND DESIGN'))
        self.design(text.replace('V12 W', 'V12').replace('END DESIGN', 'VIAS 0 ;\nEND VIAS\nEND DESIGN'))

    def test_what_is_refused(self):
        for entry, why in (
                ('+ RECT m1 ( 0 0 ) ( 1 1 )', 'Unsupported: a square of one unit is not supported'), ('+ POLYGON m1 ( 0 0 ) ( 1 0 ) ( 1 1 ) ( 0 1 )', 'Unsupported: a square of one unit is not supported'),
                ('+ POLYGON m1 ( 0 0 ) ( 9 0 ) ( 9 9 )', 'Unsupported: POLYGON with a slanted side is not supported'), ('+ POLYGON m1 ( 0 0 ) ( 9 0 )', 'EmptyRect: a polygon has no area'),
                ('+ POLYGON m1 ( * 0 ) ( 9 0 )', 'BadNumber: a whole number was expected, not *'), ('+ POLYGON m1', 'Unexpected: ( was expected, not ;'),
                ('+ POLYGON v1 ( 0 0 )', 'Unexpected: v1 is no routing layer'), ('+ VIA V9 S ( 0 0 )', 'UnknownName: there is no via V9'),
                ('+ VIA V12 S', 'Unexpected: ( was expected, not ;'), ('+ ROUTED m1 0 ( 0 0 ) V12 S FN', 'Unsupported: FN in wiring is not supported'),
                ('+ NONDEFAULTRULE wide', 'Unsupported: NONDEFAULTRULE of a net is not supported'),
                ('+ ROUTED m1 TAPERRULE wide ( 0 0 )', 'BadNumber: a whole number was expected, not TAPERRULE')):
            with self.subTest(entry=entry):
                self.assert_refused(f'14: {why}', self.wires, entry)


class PinTests(Room):
    """Polygons of pins of the block and of blockages."""

    def test_figures_of_pins(self):
        design = self.design(block(PINS=PINS))
        self.assertEqual(in_units(design.pins['p'].ports[0].shapes), [
            ('m1', 0, 0, 10, 20), ('m2', 0, 0, 100, 40), ('m2', 0, 40, 30, 90), ('m1', 140, -150, 300, -50), ('v1', 150, -150, 250, -50), ('m2', 150, -150, 250, -50)])
        self.assertEqual([tuple(shape.rect) for shape in design.pin_shapes(design.pins['p'])][1:3], [(15000, 15000, 15040, 15100), (15040, 15000, 15090, 15030)])

    def test_polygons_of_blockages(self):
        self.assertEqual(self.design(block(BLOCKAGES=BLOCKAGES)).blockages[0].rects, [(0, 0, 9, 4), (0, 4, 5, 9), (20, 0, 30, 5)])
        self.assertEqual(self.design(block(BLOCKAGES=BLOCKAGES.replace('LAYER m1', 'PLACEMENT'))).blockages[0].rects[1], (0, 4, 5, 9))
        self.assertEqual(self.design(block(BLOCKAGES=BLOCKAGES.replace('LAYER m1', 'LAYER well'))).blockages, [])

    def test_masks_and_layers_without_metal(self):
        masked = PINS.replace('m2 SPACING', 'm2 MASK 1 SPACING')
        self.assertEqual(len(self.design(block(PINS=masked), profile=Profile(True, True)).pins['p'].ports[0].shapes), 6)
        self.assert_refused('15: Unsupported: MASK is not supported', self.design, block(PINS=masked))
        self.assertEqual(len(self.design(block(PINS=PINS.replace('POLYGON m2', 'POLYGON well'))).pins['p'].ports[0].shapes), 4)

    def test_what_is_refused(self):
        for entries, why in ((PINS.replace('( 30 40 )', '( 30 50 )'), '15: Unsupported: POLYGON with a slanted side is not supported'),
                             (PINS.replace('+ VIA V12', '+ VIA V9'), '16: UnknownName: there is no via V9')):
            self.assert_refused(why, self.design, block(PINS=entries))
        self.assert_refused('14: Unsupported: POLYGON with a slanted side is not supported', self.design, block(BLOCKAGES=BLOCKAGES.replace('( 5 9 )', '( 5 8 )')))
        for entries, why in (({'PINS': PINS}, '15: Unsupported: POLYGON of a pin is not supported'), ({'BLOCKAGES': BLOCKAGES}, '14: Unsupported: POLYGON of a blockage is not supported')):
            with self.assertRaises(Refused) as refused:
                self.design(block(**entries), LAYERS, 'SITE core CLASS CORE ; SIZE 0.2 BY 2.0 ; END core MACRO INV SIZE 0.4 BY 2 ; END INV', profile=NARROW)
            self.assertEqual(f'{refused.exception.line}: {refused.exception.kind}: {refused.exception.why}', why)


def in_units(shapes):
    return [(layer, *rect) for layer, rect in shapes]


class RuleTests(Room):
    """Wires under nondefault rules."""

    def wires(self, wiring, rules=RULES):
        design = self.design(block('', f'- n ( u1 A ) {wiring} ;\n', '', rules))
        return metal(design, design.nets['n'])

    def test_widths_of_a_rule_of_a_lef_and_its_vias(self):
        self.assertEqual(self.wires('+ NONDEFAULTRULE wide + ROUTED m1 ( 100 5000 ) ( 1100 5000 ) VW ( 1100 7000 0 )'), [
            [('m1', 0, 4900, 1200, 5100)], [('m1', 1000, 4900, 1200, 5100), ('v1', 1050, 4950, 1150, 5050), ('m2', 980, 4900, 1220, 5100)], [('m2', 980, 4880, 1220, 7000)]])

    def test_a_segment_of_another_width_is_a_patch_at_its_first_point(self):
        design = self.design(block('', '- n ( u1 A ) + NONDEFAULTRULE double + ROUTED m1 ( 100 50 ) ( 300 50 ) ( 300 90 10 ) ;\n'))
        self.assertEqual([tuple(wire) for wire in design.nets['n'].wires], [('m1', 100, 50, (-100, -100, 300, 100)), ('m1', 300, 50, (-100, -100, 100, 50))])

    def test_widths_that_are_those_of_the_layers(self):
        design = self.design(block('', '- n + NONDEFAULTRULE same + ROUTED m1 ( 0 0 ) ( 50 0 ) V12 ( 50 90 ) ;\n', '', RULES.replace('double', 'same').replace('200', '100').replace('220', '100')))
        plain = self.design(block('', '- n + ROUTED m1 ( 0 0 ) ( 50 0 ) V12 ( 50 90 ) ;\n'))
        self.assertEqual(design.nets['n'].wires, plain.nets['n'].wires)

    def test_tapers(self):
        wires = self.wires('+ NONDEFAULTRULE wide + ROUTED m1 TAPER ( 100 5000 ) ( 1100 5000 ) NEW m1 TAPERRULE double ( 0 0 ) ( 5 0 ) V12 ( 5 9 ) NEW m1 ( 0 0 ) ( 5 0 ) + ROUTED m1 TAPER ( 0 0 ) ( 1 0 )')
        self.assertEqual(wires[:2] + wires[3:], [[('m1', 50, 4950, 1150, 5050)], [('m1', -100, -100, 105, 100)], [('m2', -105, -110, 115, 119)], [('m1', -100, -100, 105, 100)],
                                                 [('m1', -50, -50, 51, 50)]])
        self.assertEqual(self.wires('+ ROUTED m1 TAPERRULE wide ( 0 0 ) ( 5 0 )'), [[('m1', -100, -100, 105, 100)]])

    def test_extensions_and_points_that_are_repeated(self):
        self.assertEqual(self.wires('+ NONDEFAULTRULE double + ROUTED m1 ( 0 0 ) ( * 0 60 ) NEW m1 ( 0 500 ) ( * * 60 ) ( 50 500 ) ( * * 0 )'), [[('m1', -60, 400, 50, 600)]])

    def test_a_clause_behind_the_wires(self):
        self.assertEqual(self.wires('+ ROUTED m1 ( 0 0 ) ( 5 0 ) + NONDEFAULTRULE double + USE SIGNAL'), [[('m1', -100, -100, 105, 100)]])

    def test_a_layer_without_a_width_has_its_own(self):
        rules = RULES.replace('+ LAYER m2 WIDTH 220', '')
        self.assertEqual(self.wires('+ NONDEFAULTRULE double + ROUTED m2 ( 0 0 ) ( 0 9 )', rules), [[('m2', -50, -50, 50, 59)]])

    def test_a_rule_of_the_def_comes_first(self):
        self.assertEqual(self.wires('+ NONDEFAULTRULE wide + ROUTED m2 ( 0 0 ) ( 0 9 )', RULES.replace('double', 'wide')), [[('m2', -110, -110, 110, 119)]])

    def test_entries_that_are_no_rule_are_left_out(self):
        for old, new, width in (
                ('WIDTH 220', 'WIDTH 0', None), ('WIDTH 220', 'WIDTH wide', None), ('LAYER m2', 'LAYER m9', None), ('LAYER m2', 'LAYER well', None), ('LAYER m2', 'LAYER m1', None),
                ('- double', 'double', None), ('- double', '- double any', None), ('WIDTH 220', 'WIDTH', None), ('NONDEFAULTRULES 1 ;', 'NONDEFAULTRULES ;', None),
                ('END NON', '- double + LAYER m2 WIDTH 10 ;\nEND NON', 110), ('- double', '- double + LAYER m2 WIDTH 0 ;\n- double', 110), ('WIDTH 220', 'WIDTH 220 any words', 110),
                ('END NONDEFAULTRULES', 'END NONDEFAULTRULES NONDEFAULTRULES 1 ; - double + LAYER m2 WIDTH 40 ; END NONDEFAULTRULES', 20),
                ('END NONDEFAULTRULES', 'END NONDEFAULTRULES NONDEFAULTRULES 0 ; END NONDEFAULTRULES', None), ('+ LAYER m2', '+ VIA any + LAYER v1 WIDTH 3 + LAYER m2', 110)):
            with self.subTest(new=new):
                rules = RULES.replace(old, new, 1)
                if width is None:
                    with self.assertRaisesRegex(Refused, 'there is no nondefault rule double'):
                        self.wires('+ NONDEFAULTRULE double + ROUTED m2 ( 0 0 ) ( 0 9 )', rules)
                else:
                    self.assertEqual(self.wires('+ NONDEFAULTRULE double + ROUTED m2 ( 0 0 ) ( 0 9 )', rules), [[('m2', -width, -width, width, 9 + width)]])

    def test_what_is_refused(self):
        for wiring, rules, why in (
                ('+ NONDEFAULTRULE none', RULES, 'UnknownName: there is no nondefault rule none'), ('+ ROUTED m1 TAPERRULE none ( 0 0 )', RULES, 'UnknownName: there is no nondefault rule none'),
                ('+ NONDEFAULTRULE wide + NONDEFAULTRULE wide', RULES, 'Unexpected: NONDEFAULTRULE is given twice, or with a word that it excludes'),
                ('+ NONDEFAULTRULE double + ROUTED m2 ( 0 0 ) ( 0 9 )', RULES.replace('220', '221'), 'OddWidth: the width 221 of a rule is odd'),
                ('+ NONDEFAULTRULE wide + ROUTED m1 ( -2000000000 0 ) ( 2000000000 0 )', RULES, 'TooLarge: a wire of a rule is longer than 2000000000'),
                ('+ NONDEFAULTRULE wide + ROUTED m1 ( 0 0 ) ( 9 9 )', RULES, 'Diagonal: a wire is neither horizontal nor vertical'),
                ('+ ROUTED m1 ( 0 0 ) TAPERRULE wide ( 9 0 )', RULES, 'Unsupported: TAPERRULE in wiring is not supported'),
                ('+ TAPERRULE wide', RULES, 'Unsupported: TAPERRULE of a net is not supported')):
            with self.subTest(why=why):
                self.assert_refused(f'14: {why}', self.wires, wiring, rules)
        self.assertEqual(self.wires('+ NONDEFAULTRULE double + ROUTED m2 ( 0 0 ) V12', RULES.replace('220', '221'))[0][0], ('m1', -60, -50, 100, 50))


class EveryFormTests(Room):
    def test_all_forms_at_once(self):
        design = self.design(EVERY_FORM)
        self.assertEqual(list(design.vias), ['V12', 'VW', 'made', 'V12_S', 'V12_FN', 'V12_W'])
        self.assertEqual({name: len(net.wires) for name, net in (*design.special.items(), *design.nets.items())}, {'VDD': 17, 'x': 3, 'n1': 8, 'n2': 4})
        self.assertEqual(GENERATED.count('VIARULE'), 1)


if __name__ == '__main__':
    unittest.main()
