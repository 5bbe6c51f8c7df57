"""Tests of tools/judged: what it tells of made texts, word for word."""
import os
import re
import subprocess
import sys
import tempfile
import unittest

sys.path.insert(0, os.path.dirname(os.path.abspath(__file__)))

from doctored import TOP, expressions, script

judged = script('tools/judged')

from judged_block import Lines, microns  # noqa: E402
from lefdef_text import NARROW, Profile  # noqa: E402
from lefdef_text.design import Tracks  # noqa: E402

EXPRESSIONS = expressions('What is judged')
LAYERS = '''LAYER well TYPE MASTERSLICE ; END well
LAYER m1 TYPE ROUTING ; DIRECTION HORIZONTAL ; WIDTH 0.14 ; SPACING 0.1 ; END m1
LAYER v1
  TYPE CUT ;
  WIDTH 0.2 ;
END v1
LAYER m2 TYPE ROUTING ; DIRECTION VERTICAL ; WIDTH 1 ; SPACINGTABLE PARALLELRUNLENGTH 0 WIDTH 0 0.25 ; END m2
'''
VIA = '''VIA V12 DEFAULT LAYER m1 ; RECT -0.1 -0.1 0.1 0.1 ; LAYER v1 ; RECT -0.1 -0.1 0.1 0.1 ; LAYER m2 ; RECT -0.5 -0.5 0.5 0.5 ; END V12
'''
CELLS = '''SITE core SIZE 0.2 BY 2.0 ; END core
SITE tall SIZE 0.2 BY 4.0 ; END tall
MACRO INV SIZE 0.4 BY 2.0 ; SITE core ;
  PIN A PORT LAYER m1 ; RECT 0.05 0.1 0.15 0.2 ; END END A
  PIN Y PORT LAYER m1 ; RECT 0.25 0.1 0.35 0.2 ; END END Y
END INV
MACRO ODD SIZE 0.3 BY 2.0 ; SITE core ; END ODD
MACRO TALL SIZE 0.4 BY 4.0 ; SITE core ; END TALL
MACRO WIDE SIZE 4.0 BY 2.0 ; SITE core ; END WIDE
MACRO OTHER SIZE 0.2 BY 4.0 ; SITE tall ; END OTHER
MACRO PAD SIZE 0.33 BY 3.0 ; END PAD
MACRO FULL SIZE 1.6 BY 2.0 ; SITE core ; END FULL
'''
HEAD = 'DESIGN d ;\nUNITS DISTANCE MICRONS 1000 ;\nDIEAREA ( 0 0 ) ( 4000 4000 ) ;\nROW r core 0 0 N DO 8 BY 1 STEP 200 0 ;\n'
TRACKS = 'TRACKS X 100 DO 8 STEP 200 LAYER m2 ;\nTRACKS Y 150 DO 10 STEP 200 LAYER m1 ;\n'
INVERTERS = 'COMPONENTS 2 ;\n- u1 INV + PLACED ( 0 0 ) N ;\n- u2 INV + PLACED ( 400 0 ) N ;\nEND COMPONENTS\n'


class Room(unittest.TestCase):
    """A test with a folder of its own, in which it works."""

    def setUp(self):
        room = tempfile.TemporaryDirectory()
        self.addCleanup(room.cleanup)
        self.addCleanup(os.chdir, os.getcwd())
        os.chdir(room.name)

    def write(self, name, text):
        with open(name, 'w', encoding='utf-8', newline='') as file:
            file.write(text)
        return name

    def lines(self, library, block=None, kind='', profile=NARROW):
        """Returns the lines on a library and maybe a block, those of one kind alone where it is named."""
        self.write('tech.lef', library)
        lines, status = judged.lines_of(block and self.write('block.def', block), ['tech.lef'], profile)
        self.assertEqual(status, 0)
        for line in lines:
            self.assertEqual(len([it for it in EXPRESSIONS if re.fullmatch(it, line)]), 1, line)
        warnings = [line for line in lines if line.startswith('warning ')]
        self.assertEqual(lines[-1], f'warnings {len(warnings)}')
        return [line for line in lines if line.startswith(f'{kind} ')] if kind else lines

    def run_tool(self, *words, **more):
        done = subprocess.run([sys.executable, os.path.join(TOP, 'tools', 'judged'), *words], stdout=more.get('stdout', subprocess.PIPE), stderr=subprocess.PIPE,
                              text=True, timeout=60, check=False)
        return done.returncode, done.stdout, done.stderr


class LayerTests(Room):
    """The width and the spacing of layers, and the statements that they are from."""

    def spacing(self, statements):
        """Returns the facts and the warnings on the spacing of a layer with these statements."""
        lines = self.lines(f'LAYER a TYPE ROUTING ; DIRECTION VERTICAL ; WIDTH 0.1 ;\n{statements}\nEND a\n')
        return [line for line in lines if line.startswith(('layer a spacing', 'warning '))]

    def test_each_fact_of_each_layer(self):
        self.assertEqual(self.lines(LAYERS), [
            'layer well type MASTERSLICE tech.lef:1 TYPE MASTERSLICE ;',
            'layer well direction none: the layer carries no metal',
            'layer well width none: the layer carries no metal',
            'layer well spacing none: the layer carries no metal',
            'layer m1 type ROUTING tech.lef:2 TYPE ROUTING ;',
            'layer m1 direction HORIZONTAL tech.lef:2 DIRECTION HORIZONTAL ;',
            'layer m1 width 0.14 tech.lef:2 WIDTH 0.14 ;',
            'layer m1 spacing 0.1 tech.lef:2 SPACING 0.1 ;',
            'layer v1 type CUT tech.lef:4 TYPE CUT ;',
            'layer v1 direction none: no wire runs on a layer that is not ROUTING',
            'layer v1 width none: no wire runs on a layer that is not ROUTING',
            'layer v1 spacing 0: no statement gives one, so it is 0, and metal of two owners is at fault only where it shares a point',
            'layer m2 type ROUTING tech.lef:7 TYPE ROUTING ;',
            'layer m2 direction VERTICAL tech.lef:7 DIRECTION VERTICAL ;',
            'layer m2 width 1 tech.lef:7 WIDTH 1 ;',
            'layer m2 spacing 0.25 tech.lef:7 SPACINGTABLE PARALLELRUNLENGTH 0 WIDTH 0 0.25 ;',
            'warnings 0'])

    def test_the_first_statement_of_one_length_counts(self):
        lines = self.lines('LAYER a TYPE ROUTING ; DIRECTION VERTICAL ; WIDTH 0.1 0.2 ; WIDTH 0.3 ;\nWIDTH 0.5 ; END a\n', kind='layer')
        self.assertEqual(lines[2], 'layer a width 0.3 tech.lef:1 WIDTH 0.3 ;')

    def test_a_layer_with_statements_on_spacing_that_gets_0(self):
        zero = 'layer a spacing 0: no statement gives one, so it is 0, and metal of two owners is at fault only where it shares a point'
        warning = 'warning tech.lef:2 layer a: it gets the spacing 0, since no statement gives one in a form that is judged'
        for statement in ('SPACING 0.1 RANGE 0 10 ;', 'SPACINGTABLE TWOWIDTHS WIDTH 0 0.1 0.2 WIDTH 0.3 0.2 0.3 ;', 'SPACING 0.2 ENDOFLINE 0.1 WITHIN 0.1 ;',
                          'PROPERTY LEF58_SPACING "SPACING 0.1 ENDOFLINE 0.2 WITHIN 0.1 ;" ;', 'PROPERTY RULE "SPACINGTABLE 0.1" ;',
                          'SPACINGTABLE PARALLELRUNLENGTH 0 WIDTH 0 ;'):
            with self.subTest(statement=statement):
                self.assertEqual(self.spacing(statement), [zero, warning, f'warning tech.lef:2 layer a: this statement is not judged: {statement}'])
        self.assertEqual(self.spacing('SPACING 0 ;'), ['layer a spacing 0 tech.lef:2 SPACING 0 ;'])

    def test_wider_spacings_of_a_table(self):
        table = 'SPACINGTABLE PARALLELRUNLENGTH 0 1 WIDTH 0 0.14 0.2 WIDTH 3 0.28 0.5 ;'
        self.assertEqual(self.spacing(table), [
            f'layer a spacing 0.14 tech.lef:2 {table}',
            f'warning tech.lef:2 layer a: the spacing 0.14 is judged alone, and no wider one of this table, up to 0.5: {table}'])
        table = 'SPACINGTABLE PARALLELRUNLENGTH 0 1 WIDTH 0 0.14 0.14 WIDTH 3 0.14 0.1 ;'
        self.assertEqual(self.spacing(table), [f'layer a spacing 0.14 tech.lef:2 {table}'])

    def test_statements_beside_the_one_that_counts(self):
        self.assertEqual(self.spacing('SPACING 0.3 RANGE 1 9 ; SPACING 0.1 ;\nSPACING 0.2 ; SPACINGTABLE PARALLELRUNLENGTH 0 WIDTH 0 0.4 ; PROPERTY LEF58_EOLSPACING "a\nb" ;'), [
            'layer a spacing 0.1 tech.lef:2 SPACING 0.1 ;',
            'warning tech.lef:2 layer a: this statement is not judged: SPACING 0.3 RANGE 1 9 ;',
            'warning tech.lef:3 layer a: this statement is not judged: SPACING 0.2 ;',
            'warning tech.lef:3 layer a: this statement is not judged: SPACINGTABLE PARALLELRUNLENGTH 0 WIDTH 0 0.4 ;',
            'warning tech.lef:3 layer a: this statement is not judged: PROPERTY LEF58_EOLSPACING "a b" ;'])

    def test_a_layer_without_metal_is_not_warned_of(self):
        self.assertEqual(self.lines('LAYER a TYPE OVERLAP ; SPACING 0.1 RANGE 0 1 ; END a\n', kind='warning'), [])

    def test_a_long_statement_is_cut(self):
        table = 'SPACINGTABLE PARALLELRUNLENGTH 0 ' + 'WIDTH 0 0.1 ' * 20 + ';'
        self.assertEqual(self.spacing(table), [f'layer a spacing 0.1 tech.lef:2 {table[:160]} ..'])

    def test_lengths_as_lef_writes_them(self):
        self.assertEqual([microns(it) for it in (0, 1, 140_000, 2_000_000, 1_000_001, -250_000)], ['0', '0.000001', '0.14', '2', '1.000001', '-0.25'])


class BlockTests(Room):
    """What of a block matches nothing, or fits nowhere."""

    def warnings(self, block, library=LAYERS + VIA + CELLS):
        return self.lines(library, block, 'warning')

    def test_names_in_special_nets_that_match_nothing(self):
        nets = 'SPECIALNETS 2 ;\n- P ( * A ) ( * VNB )\n ( * VPB ) ;\n- Q ( * a ) ;\nEND SPECIALNETS\n'
        self.assertEqual(self.warnings(HEAD + INVERTERS + nets + 'END DESIGN\n'), [
            'warning block.def:10 ( * VNB ) of net P matches nothing: no component before it has a pin of this name',
            'warning block.def:11 ( * VPB ) of net P matches nothing: no component before it has a pin of this name',
            'warning block.def:12 ( * a ) of net Q matches nothing: no component before it has a pin of this name'])
        self.assertEqual(self.warnings(HEAD + 'SPECIALNETS 1 ;\n- P ( * A ) ;\nEND SPECIALNETS\n' + INVERTERS + 'END DESIGN\n'),
                         ['warning block.def:6 ( * A ) of net P matches nothing: no component comes before it'])

    def test_macros_that_no_row_fits(self):
        macros = ('INV', 'PAD', 'TALL', 'ODD', 'TALL', 'WIDE', 'OTHER', 'FULL')
        components = ''.join(f'- c{k} {macro} ;\n' for k, macro in enumerate(macros))
        self.assertEqual(self.warnings(f'{HEAD}COMPONENTS 8 ;\n{components}END COMPONENTS\nEND DESIGN\n'), [
            'warning block.def:8 macro TALL: no row fits it, since it is 4 microns high, and its site core is 2: 2 components, the first is c2',
            'warning block.def:9 macro ODD: no row fits it, since it is 0.3 microns wide, which is no whole number of sites core of 0.2: 1 component, the first is c3',
            'warning block.def:11 macro WIDE: no row fits it, since it is 4 microns wide, and the longest row of its site core is 1.6: 1 component, the first is c5',
            'warning block.def:12 macro OTHER: no row fits it, since no row is of its site tall: 1 component, the first is c6'])

    def test_pins_that_no_track_crosses(self):
        nets = 'NETS 2 ;\n- n1 ( u1 A ) ( u2 Y )\n ( u2 A ) ;\n- n2 ( u1 Y ) ;\nEND NETS\nEND DESIGN\n'
        self.assertEqual(self.warnings(HEAD + TRACKS + INVERTERS + nets), [])
        off = TRACKS.replace('X 100', 'X 50')
        self.assertEqual(self.warnings(HEAD + off + INVERTERS.replace('( 400', '( 410') + nets), [
            'warning block.def:12 pin Y of macro INV holds no crossing of tracks at 1 of 2 terminals, the first is u2 Y of net n1: route and finish reach it only by wires '
            'that are there',
            'warning block.def:13 pin A of macro INV holds no crossing of tracks at 1 of 2 terminals, the first is u2 A of net n1: route and finish reach it only by wires '
            'that are there'])
        self.assertEqual([line.partition(' holds')[0] for line in self.warnings(HEAD + TRACKS.replace('Y 150', 'Y 90') + INVERTERS + nets)],
                         ['warning block.def:12 pin A of macro INV', 'warning block.def:12 pin Y of macro INV'])

    def test_a_pin_reaches_a_track_of_its_own_layer_alone(self):
        # (m1 is horizontal: it has nodes on its own y tracks, at the x tracks of m2; m2 on its own x tracks, at the y tracks of m1)
        nets = 'NETS 1 ;\n- n ( u1 A ) ;\nEND NETS\nEND DESIGN\n'
        for tracks, is_crossed in ((TRACKS, True), (TRACKS.replace(' LAYER m2', ''), True), (TRACKS + 'TRACKS Y 90 DO 1 STEP 1 LAYER m2 ;\n', True),
                                   (TRACKS.replace('Y 150', 'Y 90') + 'TRACKS Y 150 DO 1 STEP 1 LAYER m2 ;\n', False),
                                   (TRACKS.replace('X 100', 'X 40') + 'TRACKS X 100 DO 1 STEP 1 LAYER m1 ;\n', False)):
            with self.subTest(tracks=tracks):
                self.assertEqual(self.warnings(HEAD + tracks + INVERTERS + nets) == [], is_crossed)

    def test_pins_of_the_block(self):
        pins = 'PINS 2 ;\n- p + LAYER m1 ( 0 0 ) ( 20 20 ) + PLACED ( 95 140 ) N ;\n- q + NET n + LAYER m1 ( 0 0 ) ( 20 20 ) + PLACED ( 100 160 ) N ;\nEND PINS\n'
        nets = 'NETS 1 ;\n- n ( PIN p ) ;\nEND NETS\nEND DESIGN\n'
        self.assertEqual(self.warnings(HEAD + TRACKS + pins + nets),
                         ['warning block.def:1 pin q of the block holds no crossing of tracks, and is in net n: route and finish reach it only by wires that are there'])

    def test_pins_without_a_place_and_nets_of_special_nets_are_left_out(self):
        block = HEAD + TRACKS.replace('X 100', 'X 50') + INVERTERS.replace('+ PLACED ( 0 0 ) N ', '') + 'PINS 1 ;\n- p ;\nEND PINS\n'
        nets = 'SPECIALNETS 1 ;\n- s ( u2 Y ) ;\nEND SPECIALNETS\nNETS 1 ;\n- n ( u1 A ) ( PIN p ) ;\nEND NETS\nEND DESIGN\n'
        self.assertEqual(self.warnings(block + nets), [])

    def test_a_pin_without_metal_of_a_routing_layer(self):
        cells = CELLS.replace('RECT 0.05 0.1 0.15 0.2 ;', '').replace('PORT LAYER m1 ; RECT 0.25', 'PORT LAYER v1 ; RECT 0.25')
        nets = 'NETS 1 ;\n- n ( u1 A ) ( u1 Y ) ;\nEND NETS\nEND DESIGN\n'
        self.assertEqual(len(self.warnings(HEAD + TRACKS + INVERTERS + nets, LAYERS + VIA + cells)), 2)

    def test_a_block_without_a_grid(self):
        nets = 'NETS 1 ;\n- n ( u1 A ) ;\nEND NETS\nEND DESIGN\n'
        warning = 'warning block.def:1 no track of a vertical layer crosses one of a horizontal layer: route and finish have no grid'
        for tracks in ('', TRACKS.splitlines(keepends=True)[0], 'TRACKS X 0 DO 1 STEP 1 LAYER m1 ;\nTRACKS Y 0 DO 1 STEP 1 LAYER m2 ;\n'):
            with self.subTest(tracks=tracks):
                self.assertEqual(self.warnings(HEAD + tracks + INVERTERS + nets), [warning])
        self.assertEqual(self.warnings(HEAD + INVERTERS + 'END DESIGN\n'), [])

    def test_lines_of_tracks_that_cross_an_interval(self):
        lines = Lines([Tracks('X', 10, 3, 10, []), Tracks('X', -5, 1, 100, [])])
        crossed = [at for at in range(-10, 40) if lines.cross(at, at)]
        self.assertEqual(crossed, [-5, 10, 20, 30])
        self.assertTrue(lines.cross(21, 30) and lines.cross(-1_000_000_000, -5) and lines.cross(-100, 100))
        self.assertFalse(lines.cross(21, 29) or lines.cross(31, 1_000_000_000) or lines.cross(-4, 9))


class WiringTests(Room):
    """Wiring that other readers draw with more metal, in both profiles."""
    BEND = 'a path of SPECIALNETS has no metal at the outer corner of a bend, which other readers fill'
    STEP = 'a step of a path to the same point has no metal, where other readers draw a square as wide as the wire'

    def warnings(self, special='', nets=''):
        """Returns the warnings on wirings of the special nets s0, s1 .. and of the nets n0, n1 .., a line of the block each."""
        sections = [f'{name} {len(wirings)} ;\n' + ''.join(f'- {letter}{k} {it} ;\n' for k, it in enumerate(wirings)) + f'END {name}\n'
                    for name, letter, wirings in (('SPECIALNETS', 's', special), ('NETS', 'n', nets))]
        block = f'{HEAD}{TRACKS}{"".join(sections)}END DESIGN\n'
        found = [self.lines(LAYERS + VIA + CELLS, block, 'warning', profile) for profile in (NARROW, Profile(is_wide=True))]
        self.assertEqual(*found)
        return found[0]

    def test_bends_of_special_nets(self):
        paths = ('+ ROUTED m1 100 ( 0 0 ) ( 500 0 )', '+ ROUTED m1 100 + SHAPE RING ( 0 0 )\n ( 500 * ) ( * 500 )\n ( 0 * )',
                 '+ FIXED m2 2 ( 0 0 ) ( 0 9 ) NEW m2 2 ( 0 0 ) ( 0 9 ) ( 9 9 )')
        self.assertEqual(self.warnings(paths), [f'warning block.def:10 {self.BEND}: 3 bends, the first is in net s1'])
        self.assertEqual(self.warnings(paths[2:]), [f'warning block.def:8 {self.BEND}: 1 bend, the first is in net s0'])

    def test_bends_whose_corner_has_metal(self):
        for bend, is_open in (('( 500 0 )', True), ('( 500 0 0 )', True), ('( 500 0 49 )', True), ('( 500 0 50 )', False), ('( 500 0 60 )', False),
                              ('( 500 0 ) ( * * 50 )', False), ('( 500 0 ) ( 500 0 )', True)):
            with self.subTest(bend=bend):
                found = self.warnings([f'+ ROUTED m1 100 ( 0 0 ) {bend} ( 500 500 )'])
                self.assertEqual([line for line in found if self.BEND in line] != [], is_open)

    def test_what_is_no_bend_of_a_special_net(self):
        special = ('+ ROUTED m1 100 ( 0 0 ) ( 500 0 ) ( 900 0 ) ( 100 0 )', '+ ROUTED m1 100 ( 0 0 ) ( 500 0 ) NEW m1 100 ( 500 0 ) ( 500 500 )',
                   '+ ROUTED m1 100 ( 0 0 ) ( 500 0 ) V12 ( 500 500 )', '+ ROUTED m1 0 ( 0 0 ) V12')
        self.assertEqual(self.warnings(special, ['+ ROUTED m1 ( 0 0 ) ( 500 0 ) ( 500 500 )']), [])

    def test_steps_to_the_same_point(self):
        nets = '+ ROUTED m1 ( 10 20 ) ( 50 20 )', '+ ROUTED m1 ( 10 20 )\n ( * * )\n NEW m1 ( 10 20 ) ( 10 20 5 ) V12 ( 10 * )'
        self.assertEqual(self.warnings((), nets), [f'warning block.def:12 {self.STEP}: 3 steps, the first is in net n1'])
        self.assertEqual(self.warnings(['+ ROUTED m1 100 ( 10 20 ) ( 10 20 )'], ['+ ROUTED m1 ( 10 20 ) ( * * )']),
                         [f'warning block.def:8 {self.STEP}: 2 steps, the first is in net s0'])

    def test_what_is_no_step_to_the_same_point(self):
        self.assertEqual(self.warnings(['+ ROUTED m1 0 ( 10 20 ) ( 10 20 ) V12 ( * * )'],
                                       ['+ ROUTED m1 ( 10 20 ) NEW m1 ( 10 20 ) ( 50 20 ) ( 10 20 ) V12 NEW m1 ( 10 20 )']), [])

    def test_both_come_behind_names_that_match_nothing(self):
        self.assertEqual([line.partition(':')[2] for line in self.warnings(['( * A ) + ROUTED m1 100 ( 0 0 ) ( 500 0 ) ( 500 500 ) ( 500 500 )'])],
                         ['8 ( * A ) of net s0 matches nothing: no component comes before it', f'8 {self.BEND}: 1 bend, the first is in net s0',
                          f'8 {self.STEP}: 1 step, the first is in net s0'])

    def test_figures_and_virtual_connections_of_the_wide_profile(self):
        special = '+ RECT m1 ( 0 0 ) ( 100 100 ) + POLYGON m1 ( 0 0 ) ( 9 0 ) ( 9 10 ) ( 0 10 ) + VIA V12 ( 5 5 ) ( 5 5 )'
        nets = 'NETS 1 ;\n- n + ROUTED m1 ( 5 5 ) VIRTUAL ( 5 5 ) ;\nEND NETS\n'
        block = f'{HEAD}{TRACKS}SPECIALNETS 1 ;\n- s {special} ;\nEND SPECIALNETS\n{nets}END DESIGN\n'
        self.assertEqual(self.lines(LAYERS + VIA + CELLS, block, 'warning', Profile(is_wide=True)), [])


class PastTests(Room):
    """What is read past, by its form."""

    def test_widths_of_paths(self):
        library = LAYERS + 'MACRO A SIZE 1 BY 1 ; OBS LAYER m1 ; WIDTH 0.4 ; PATH 0 0 1 0 ; LAYER well ; WIDTH 1 ; PATH 0 ; END END A\n'
        self.assertEqual(self.lines(library, kind='past', profile=Profile(is_wide=True)), ['past tech.lef:8 1 OBS PATH on a layer without metal'])
        narrow = library.replace('PATH 0 0 1 0', 'RECT 0 0 1 1')
        self.assertEqual(self.lines(narrow, kind='past'), ['past tech.lef:8 2 OBS WIDTH', 'past tech.lef:8 1 OBS PATH on a layer without metal'])

    def test_forms_of_a_library(self):
        library = '''VERSION 5.8 ; ;
UNITS DATABASE MICRONS 1000 ; END UNITS
PROPERTYDEFINITIONS LAYER a STRING ; END PROPERTYDEFINITIONS
LAYER m1 TYPE ROUTING ; DIRECTION HORIZONTAL ; WIDTH 0.1 ; PITCH 1 ; PITCH 2 ; ; SPACING 0.1 SAMENET ; PROPERTY a "b ;" ; END m1
LAYER o TYPE OVERLAP ; END o
VIA v LAYER m1 ; RECT 0 0 1 1 ; RESISTANCE 5 ; LAYER o ; RECT 0 0 0 0 ; END v
VIARULE r GENERATE LAYER m1 ; END r
SITE core CLASS CORE ; SIZE 1 BY 1 ; END core
SITE core SIZE 1 BY 1 ; END core
MACRO A CLASS CORE ; SIZE 1 BY 1 ; DENSITY x END TIMING x END TIMING PROPERTY b 5 ;
PIN p DIRECTION INPUT ; PORT CLASS CORE ; LAYER m1 SPACING 1 ; WIDTH 1 ; LAYER o ; POLYGON 0 0 ; END END p
OBS LAYER o ; RECT 0 0 0 0 ; RECT 1 1 1 1 ; END
END A
BEGINEXT "x" FOO ENDEXT
SPACING SAMENET m1 m1 0.1 ; END SPACING
NONDEFAULTRULE n END n
FOO bar ;
END LIBRARY
'''
        self.assertEqual(self.lines(library, kind='past'), [f'past tech.lef:{it}' for it in (
            '1 1 VERSION', '2 1 UNITS', '3 1 PROPERTYDEFINITIONS', '4 2 LAYER PITCH', '4 1 LAYER SPACING', '4 1 LAYER PROPERTY a', '6 1 VIA RESISTANCE',
            '6 1 VIA RECT on a layer without metal', '7 1 VIARULE', '8 1 SITE CLASS', '9 1 SITE, defined again', '10 1 MACRO CLASS', '10 1 MACRO DENSITY',
            '10 1 MACRO TIMING', '10 1 MACRO PROPERTY b', '11 1 PIN DIRECTION', '11 1 PORT CLASS', '11 1 PORT LAYER SPACING', '11 1 PORT WIDTH',
            '11 1 PORT POLYGON on a layer without metal', '12 2 OBS RECT on a layer without metal', '14 1 BEGINEXT', '15 1 SPACING', '16 1 NONDEFAULTRULE', '17 1 FOO')])

    def test_forms_of_a_block(self):
        block = '''VERSION 5.8 ; NAMESCASESENSITIVE ON ; TECHNOLOGY t ; HISTORY a ; GCELLGRID X 0 DO 2 STEP 4 ; GCELLGRID Y 0 DO 2 STEP 4 ;
DESIGN d ; UNITS DISTANCE MICRONS 1000 ; DIEAREA ( 0 0 ) ( 9 9 ) ; ROW r core 0 0 N + PROPERTY a "b" ;
PROPERTYDEFINITIONS COMPONENT a STRING ; END PROPERTYDEFINITIONS
NONDEFAULTRULES 2 ; - r + LAYER m1 WIDTH 1 ; - s ; END NONDEFAULTRULES FILLS 1 ; - LAYER m1 RECT ( 0 0 ) ( 1 1 ) ; END FILLS
VIAS 1 ; - v + RECT well ( 0 0 ) ( 1 1 ) + FOO 1 + FOO 2 ; END VIAS
COMPONENTS 2 ; - u1 INV + SOURCE DIST + PROPERTY a "b" ;
- u2 INV + SOURCE USER + HALO 1 1 1 1 ; END COMPONENTS
PINS 1 ; - p + SPECIAL + LAYER well ( 0 0 ) ( 1 1 ) + LAYER m1 SPACING 3 DESIGNRULEWIDTH 4 ( 0 0 ) ( 1 1 ) ; END PINS
BLOCKAGES 2 ; - LAYER m1 + PUSHDOWN + PUSHDOWN RECT ( 0 0 ) ( 1 1 ) ; - LAYER well RECT ( 0 0 ) ( 1 1 ) ; END BLOCKAGES
SPECIALNETS 1 ; - s ( * A + SYNTHESIZED ) + ROUTED m1 0 + SHAPE RING ( 0 0 ) V12 N + SHIELD none m1 2 ( 0 0 ) + VOLTAGE 5 ; END SPECIALNETS
NETS 1 ; - n ( u1 Y + SYNTHESIZED ) + SOURCE DIST + WEIGHT 3 + ROUTED m1 TAPER ( 0 0 ) V12 N ; END NETS
BEGINEXT "x" ENDEXT
END DESIGN
'''
        self.assertEqual([line for line in self.lines(LAYERS + VIA + CELLS, block, 'past') if 'block.def' in line], [f'past block.def:{it}' for it in (
            '1 1 VERSION', '1 1 NAMESCASESENSITIVE', '1 1 TECHNOLOGY', '1 1 HISTORY', '1 2 GCELLGRID', '2 1 ROW + PROPERTY a', '3 1 PROPERTYDEFINITIONS',
            '4 1 NONDEFAULTRULES, entries 2', '4 1 FILLS, entries 1', '5 1 VIAS + RECT on a layer without metal', '5 2 VIAS + FOO', '6 2 COMPONENTS + SOURCE',
            '6 1 COMPONENTS + PROPERTY a', '7 1 COMPONENTS + HALO', '8 1 PINS + SPECIAL', '8 1 PINS + LAYER without metal', '8 1 PINS + LAYER SPACING',
            '8 1 PINS + LAYER DESIGNRULEWIDTH', '9 2 BLOCKAGES + PUSHDOWN', '9 1 BLOCKAGES LAYER without metal', '10 1 SPECIALNETS + SYNTHESIZED',
            '10 1 SPECIALNETS + SHAPE', '10 1 SPECIALNETS N after a via', '10 1 SPECIALNETS + SHIELD, the name of its net', '10 1 SPECIALNETS + VOLTAGE',
            '11 1 NETS + SYNTHESIZED', '11 1 NETS + SOURCE', '11 1 NETS + WEIGHT', '11 1 NETS TAPER', '11 1 NETS N after a via', '12 1 BEGINEXT')])


class RunTests(Room):
    """The tool as it is run."""
    BLOCK = HEAD + INVERTERS + 'END DESIGN\n'

    def setUp(self):
        super().setUp()
        self.write('tech.lef', LAYERS + VIA + CELLS)
        self.write('block.def', self.BLOCK)

    def test_the_block_may_stand_anywhere(self):
        answers = [self.run_tool(*words) for words in (('tech.lef', 'block.def'), ('block.def', 'tech.lef'))]
        self.assertEqual(answers[0], answers[1])
        self.assertEqual((answers[0][0], answers[0][2], answers[0][1].splitlines()[-1]), (0, '', 'warnings 0'))
        self.assertEqual(sorted(os.listdir('.')), ['block.def', 'tech.lef'])

    def test_files_are_told_apart_by_their_texts_and_else_by_their_names(self):
        self.write('block', '# a block\n  diearea\n' + self.BLOCK)
        self.write('one.def', f'VERSION 5.8 ; {" ".join(self.BLOCK.split())}')
        self.write('one.lef', ' '.join((LAYERS + VIA + CELLS).split()))
        self.write('sites.txt', 'SITE a SIZE 1 BY 1 ; END a\n')
        self.assertEqual(judged.told_apart(['block', 'one.def', 'block.def', 'tech.lef', 'one.lef', 'sites.txt']),
                         (['block', 'one.def', 'block.def'], ['tech.lef', 'one.lef', 'sites.txt']))
        self.assertEqual(self.run_tool('one.lef', 'one.def')[0], 0)

    def test_usage(self):
        self.assertEqual(self.run_tool()[0], 64)
        for words, why in ((('block.def',), 'no file is a LEF'), (('tech.lef', 'block.def', 'block.def'), 'block.def and block.def are DEFs, and at most one is expected')):
            status, out, err = self.run_tool(*words)
            self.assertEqual((status, out, err.splitlines()[-1]), (64, '', f'judged: {why}'))
        status, out, _ = self.run_tool('--help')
        self.assertEqual(status, 0)
        self.assertIn('Exit status: 0: printed', out)

    def test_a_text_that_is_refused(self):
        for old, new, why in (('u2 INV', 'u2 BUF', 'block.def:7: there is no macro BUF'), ('( 4000 4000 )', '( 4000 0 )', 'block.def:3: a rectangle has no area, at (')):
            self.write('bad.def', self.BLOCK.replace(old, new))
            with self.subTest(new=new):
                self.assertEqual(self.run_tool('tech.lef', 'bad.def'), (2, '', why.replace('block', 'bad') + '\n'))
        self.write('bad.lef', LAYERS.replace('WIDTH 0.14', 'WIDTH wide'))
        self.assertEqual(self.run_tool('bad.lef'), (2, '', 'bad.lef:2: a length of at most six decimals was expected, not wide\n'))
        self.write('empty.def', '')
        self.assertEqual(self.run_tool('tech.lef', 'empty.def'), (2, '', 'empty.def:1: UNITS DISTANCE MICRONS is missing\nnote: the text is empty\n'))

    def test_files_that_cannot_be_read_and_output_that_fails(self):
        self.assertEqual(self.run_tool('tech.lef', 'none.def'), (5, '', 'judged: cannot read none.def: No such file or directory\n'))
        with open('/dev/full', 'w', encoding='utf-8') as full:
            status, _, err = self.run_tool('tech.lef', stdout=full)
        self.assertEqual((status, err), (5, 'judged: cannot write standard output: No space left on device\n'))

    def test_the_examples(self):
        for name, warnings in (('around', []), ('stacked', []), ('unfinished', [
                'warning unfinished.def:1 no track of a vertical layer crosses one of a horizontal layer: route and finish have no grid'])):
            os.chdir(os.path.join(TOP, 'examples'))
            with self.subTest(example=name):
                self.assertEqual([line for line in judged.lines_of(f'{name}.def', ['standard.lef'])[0] if line.startswith('warning ')], warnings)


if __name__ == '__main__':
    unittest.main()
