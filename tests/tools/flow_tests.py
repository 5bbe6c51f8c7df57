"""Tests of tools/from-qflow, ease-routing and drop-fillers; of what holds of these and of plain-numbers; and of examples/from-verilog/run as far as it
needs no other program."""
import gzip
import os
import re
import shutil
import subprocess
import sys
import tempfile
import unittest

TOP = os.path.normpath(os.path.join(os.path.dirname(os.path.abspath(__file__)), '..', '..'))
sys.path.insert(0, os.path.join(TOP, 'tools'))

from flow_text import DefText
from lefdef_text import Refused, Segment, ViaAt, read_design, read_library

STANDARD = os.path.join(TOP, 'examples', 'standard.lef')
HEAD = 'VERSION 5.8 ;\nDESIGN d ;\nUNITS DISTANCE MICRONS 1000 ;\nDIEAREA ( 0 0 ) ( 2000 4000 ) ;\n'
TRACKS = 'TRACKS X 100 DO 10 STEP 200 LAYER m2 ;\nTRACKS Y 100 DO 20 STEP 200 LAYER m1 ;\n'
QFLOW = HEAD + '''TRACKS X 100.0 DO 10 STEP 200.00 LAYER m2 ;
TRACKS Y 100 DO 20 STEP 200 LAYER m1 ;
COMPONENTS 3 ;
- u1.0 INV + PLACED ( 200 0 ) FN ;
- u2 INV + PLACED ( 1000.0 0 ) N ;
- u3 INV + PLACED ( 0 2000 ) FS ;
END COMPONENTS
NETS 1 ;
- n.0 ( u1.0 Y ) ( u2 A )
+ ROUTED m1 ( 300. 900 ) ( 500 * ) ;
END NETS
SPECIALNETS 4 ;
- VDD
+ FIXED m1 40.0 ( 0 2000 ) ( 400 * ) ;
- n.0
+ ROUTED m1 40 ( 300 900 ) ( 400 * ) ;
- vss
+ FIXED m1 40 ( 0 0 ) ( 400 * ) ;
- n.0
+ ROUTED m1 40 ( 500 900 ) ( 600 * ) ;
END SPECIALNETS
END DESIGN
'''
FILLERS = '''SITE core CLASS CORE ; SIZE 0.2 BY 2.0 ; END core
MACRO FILL CLASS CORE SPACER ; SIZE 0.2 BY 2.0 ; SITE core ; PIN VDD USE POWER ; END VDD PIN VSS USE GROUND ; END VSS END FILL
MACRO GAP CLASS CORE SPACER ; SIZE 0.2 BY 2.0 ; SITE core ; END GAP
END LIBRARY
'''
FILLED = HEAD + '''COMPONENTS 5 ;
- u1 INV + PLACED ( 0 0 ) N ;
- f1 FILL + PLACED ( 400 0 ) N ; - f2 FILL + FIXED ( 600 0 ) N ;
- f3 FILL + PLACED ( 800 0 ) N ;
- g1 GAP
  + PLACED ( 1000 0 ) N ;
END COMPONENTS
SPECIALNETS 1 ;
- VDD ( f3 VDD ) ;
END SPECIALNETS
END DESIGN
'''
GENERATED = HEAD + '''VIAS 3 ;
- kept + RECT m1 ( -50 -50 ) ( 50 50 ) ;
- made + VIARULE rule + CUTSIZE 20 40 + LAYERS m1 v1 m2 + CUTSPACING 10 30
  + ENCLOSURE 5 6 7 8 + ROWCOL 2 3 + ORIGIN 10 0 + OFFSET 1 2 3 4 ;
- one + VIARULE rule + CUTSIZE 20 40 + LAYERS m1 v1 m2 + CUTSPACING 10 30 + ENCLOSURE 5 6 7 8 ;
END VIAS
END DESIGN
'''


class FlowCase(unittest.TestCase):
    """A test with a folder of its own, in which the tools run."""

    def setUp(self):
        room = tempfile.TemporaryDirectory()
        self.addCleanup(room.cleanup)
        self.room = room.name

    def file(self, name, text):
        path = os.path.join(self.room, name)
        with open(path, 'w', encoding='utf-8') as file:
            file.write(text)
        return path

    def run_tool(self, tool, *words):
        """Returns the status of a tool, what it wrote, and its messages."""
        done = subprocess.run([sys.executable, os.path.join(TOP, 'tools', tool), *words], capture_output=True, text=True, cwd=self.room, timeout=60)
        return done.returncode, done.stdout, done.stderr

    def edited(self, tool, text, *libraries):
        status, out, err = self.run_tool(tool, self.file('in.def', text), *libraries)
        self.assertEqual(status, 0, err)
        return out, err

    def refused(self, tool, text, *libraries):
        status, out, err = self.run_tool(tool, self.file('in.def', text), *libraries)
        self.assertEqual((status, out), (2, ''), err)
        return err.strip().replace(self.room + os.sep, '')

    def design(self, text, *libraries):
        return read_design(self.file('read.def', text), read_library(libraries or [STANDARD]))


class FromQflowTests(FlowCase):
    def test_numbers_are_written_whole_and_names_stay(self):
        out, err = self.edited('from-qflow', QFLOW, STANDARD)
        self.assertIn('TRACKS X 100 DO 10 STEP 200 LAYER m2 ;', out)
        self.assertIn('- u1.0 INV + PLACED ( 200 0 ) FN ;', out)
        self.assertIn('- u2 INV + PLACED ( 1000 0 ) N ;', out)
        self.assertIn('- n.0 ( u1.0 Y ) ( u2 A )\n+ ROUTED m1 ( 300 900 ) ( 500 * ) ', out)
        self.assertIn('+ FIXED m1 40 ( 0 2000 )', out)
        self.assertIn('5 numbers written whole, the first in line 5', err)

    def test_rows_are_made_where_components_stand(self):
        out, err = self.edited('from-qflow', QFLOW, STANDARD)
        rows = self.design(out).rows
        self.assertEqual([tuple(row)[1:] for row in rows], [('core', 200, 0, 'N', 6), ('core', 0, 2000, 'S', 2)])
        self.assertIn('2 rows made', err)

    def test_rows_that_are_there_stay_alone(self):
        text = QFLOW.replace('TRACKS X', 'ROW r core 0 0 N DO 3 BY 1 STEP 200 0 ;\nTRACKS X')
        out, err = self.edited('from-qflow', text, STANDARD)
        self.assertEqual([row.name for row in self.design(out).rows], ['r'])
        self.assertNotIn('made', err)

    def test_power_nets_get_the_pins_of_all_cells(self):
        out, err = self.edited('from-qflow', QFLOW, STANDARD)
        special = self.design(out).special
        self.assertEqual(list(special['VDD'].terminals), [('u1.0', 'VDD'), ('u2', 'VDD'), ('u3', 'VDD')])
        self.assertEqual(list(special['vss'].terminals), [('u1.0', 'VSS'), ('u2', 'VSS'), ('u3', 'VSS')])
        self.assertIn('added ( * VDD ) to VDD, ( * VSS ) to vss', err)

    def test_a_power_pin_that_a_net_names_is_not_given_to_another(self):
        text = QFLOW.replace('( u2 A )', '( u2 A ) ( u3 VDD )')
        out, _ = self.edited('from-qflow', text, STANDARD)
        self.assertEqual(list(self.design(out).special['VDD'].terminals), [])

    def test_a_net_twice_is_joined(self):
        out, err = self.edited('from-qflow', QFLOW, STANDARD)
        design = self.design(out)
        self.assertEqual([(wire.x1, wire.x2) for wire in design.special['n.0'].wires], [(300, 400), (500, 600)])
        self.assertEqual(list(design.special), ['VDD', 'n.0', 'vss'])
        self.assertIn('SPECIALNETS 3 ;', out)
        self.assertIn('1 entry of SPECIALNETS joined to the net\'s first: n.0', err)

    def test_numbers_of_blockages_are_written_whole(self):
        text = QFLOW.replace('NETS 1 ;', 'BLOCKAGES 2 ;\n- LAYER m1 + PUSHDOWN RECT ( 10.0 -20 ) ( 30.00 40. ) ;\n- PLACEMENT RECT ( 0.0 0 ) ( 1 1.0 ) ;\n'
                             'END BLOCKAGES\nNETS 1 ;')
        out, err = self.edited('from-qflow', text, STANDARD)
        self.assertIn('- LAYER m1 + PUSHDOWN RECT ( 10 -20 ) ( 30 40 ) ;\n- PLACEMENT RECT ( 0 0 ) ( 1 1 ) ;\n', out)
        self.assertIn('10 numbers written whole', err)

    def test_a_second_time_changes_nothing(self):
        once, _ = self.edited('from-qflow', QFLOW, STANDARD)
        twice, err = self.edited('from-qflow', once, STANDARD)
        self.assertEqual(once, twice)
        self.assertIn('need no change', err)

    def test_a_part_of_a_unit_is_refused(self):
        self.assertEqual(self.refused('from-qflow', QFLOW.replace('1000.0', '1000.5'), STANDARD),
                         'in.def:9: 1000.5 is no whole number of database units')

    def test_two_entries_with_terminals_are_refused(self):
        text = QFLOW.replace('- n.0\n+ ROUTED m1 40 ( 500', '- n.0 ( u3 A )\n+ ROUTED m1 40 ( 500')
        self.assertEqual(self.refused('from-qflow', text, STANDARD), 'in.def:23: net n.0 appears twice in SPECIALNETS, the second time with more than wiring, at -')

    def test_refusals_name_the_line_of_the_text_as_it_was(self):
        text = QFLOW.replace('END SPECIALNETS', '- w\n+ ROUTED m1 40 ( 0 0 ) ( 5 5 ) ;\nEND SPECIALNETS')
        self.assertEqual(self.refused('from-qflow', text, STANDARD), 'in.def:26: a wire is neither horizontal nor vertical, at (')

    def test_a_terminal_with_synthesized_hides_no_later_one(self):
        text = QFLOW.replace('( u2 A )', '( u2 A + SYNTHESIZED ) ( u3 VDD )')
        out, _ = self.edited('from-qflow', text, STANDARD)
        self.assertEqual(list(self.design(out).special['VDD'].terminals), [])

    def test_what_lefdef_refuses_besides_is_refused(self):
        for row in ('', 'ROW r core 0 0 N DO 3 BY 1 STEP 200 0 ;\n'):
            with self.subTest(row=row):
                text = QFLOW.replace('u3 INV', 'u3 NOT').replace('COMPONENTS 3', row + 'COMPONENTS 3')
                self.assertEqual(self.refused('from-qflow', text, STANDARD), f'in.def:{11 if row else 10}: there is no macro NOT')


class EaseRoutingTests(FlowCase):
    BLOCK = HEAD + TRACKS + '''COMPONENTS 3 ;
- u1 INV + PLACED ( 0 0 ) N ;
- u2 INV + PLACED ( 400 0 ) N ;
- u3 INV + PLACED ( 1200 0 ) N ;
END COMPONENTS
NETS 3 ;
- far ( u1 Y ) ( u3 A ) + USE SIGNAL ;
- near ( u2 A ) ( u1 A ) ;
- wired ( u3 Y ) + ROUTED m1 ( 1500 900 ) V12 ;
END NETS
END DESIGN
'''

    def test_each_terminal_has_a_via_and_a_stub_on_it(self):
        out, err = self.edited('ease-routing', self.BLOCK, STANDARD)
        nets = self.design(out).nets
        vias = {name: [(wire.x, wire.y) for wire in net.wires if isinstance(wire, ViaAt)] for name, net in nets.items()}
        self.assertEqual(vias, {'far': [(300, 900), (1300, 900)], 'near': [(500, 900), (100, 900)], 'wired': [(1500, 900)]})
        stubs = [wire[:5] for wire in nets['far'].wires if isinstance(wire, Segment)]
        self.assertEqual(stubs, [('m2', 300, 700, 300, 1100), ('m2', 1300, 700, 1300, 1100)])
        self.assertIn('4 of 4 terminals given a via and a stub', err)

    def test_nets_come_in_the_order_of_their_length_and_keep_what_they_had(self):
        out, _ = self.edited('ease-routing', self.BLOCK, STANDARD)
        before, after = self.design(self.BLOCK), self.design(out)
        self.assertEqual(list(after.nets), ['wired', 'near', 'far'])
        self.assertEqual({name: list(net.terminals) for name, net in after.nets.items()}, {name: list(net.terminals) for name, net in before.nets.items()})
        self.assertEqual(after.nets['far'].use, 'SIGNAL')
        self.assertEqual(after.nets['wired'].wires, before.nets['wired'].wires)

    def test_nets_that_are_named_come_first(self):
        text = self.file('in.def', self.BLOCK)
        status, out, _ = self.run_tool('ease-routing', text, STANDARD, '--first', 'far', '--first', 'near')
        self.assertEqual((status, list(self.design(out).nets)), (0, ['far', 'near', 'wired']))
        status, out, err = self.run_tool('ease-routing', text, STANDARD, '--first', 'none')
        self.assertEqual((status, out, err), (64, '', 'ease-routing: there is no net none in NETS\n'))

    def test_all_but_the_nets_stays(self):
        out, _ = self.edited('ease-routing', self.BLOCK, STANDARD)
        self.assertEqual(out.split('NETS')[0], self.BLOCK.split('NETS')[0])
        self.assertTrue(out.endswith(' ;\nEND NETS\nEND DESIGN\n'))

    def test_a_second_time_adds_nothing(self):
        once, _ = self.edited('ease-routing', self.BLOCK, STANDARD)
        twice, err = self.edited('ease-routing', once, STANDARD)
        self.assertEqual({name: net.wires for name, net in self.design(once).nets.items()}, {name: net.wires for name, net in self.design(twice).nets.items()})
        self.assertIn('3 nets with wires left as they were', err)

    def test_new_metal_keeps_its_distance(self):
        strap = '- s + ROUTED m2 100 ( 300 0 ) ( 300 2000 ) ;\n'
        text = self.BLOCK.replace('END NETS\n', f'END NETS\nSPECIALNETS 1 ;\n{strap}END SPECIALNETS\n')
        out, err = self.edited('ease-routing', text, STANDARD)
        self.assertIn('no room for a via at u1 Y of net far', err)
        self.assertIn('3 of 4 terminals', err)
        self.assertNotIn('( 300 900 ) V12', out)

    def test_spacing_of_exactly_the_layers_is_enough_and_less_is_not(self):
        for right, is_free in ((150, True), (152, False)):
            with self.subTest(right=right):
                strap = f'- s + ROUTED m2 100 ( {right - 50} 0 ) ( {right - 50} 2000 ) ;\n'
                text = self.BLOCK.replace('END NETS\n', f'END NETS\nSPECIALNETS 1 ;\n{strap}END SPECIALNETS\n')
                out, _ = self.edited('ease-routing', text, STANDARD)
                self.assertEqual('( 300 900 ) V12' in out, is_free)

    def test_new_metal_keeps_its_distance_from_blockages_of_its_layer(self):
        for layer, right, is_free in (('m2', 150, True), ('m2', 152, False), ('m1', 152, False), ('v1', 152, False), ('mark', 400, True)):
            with self.subTest(layer=layer, right=right):
                blockages = f'BLOCKAGES 2 ;\n- PLACEMENT RECT ( 0 0 ) ( 2000 4000 ) ;\n- LAYER {layer} RECT ( 0 800 ) ( {right} 1000 ) ;\nEND BLOCKAGES\n'
                library = self.file('mark.lef', 'LAYER mark TYPE OVERLAP ; END mark\n')
                out, _ = self.edited('ease-routing', self.BLOCK.replace('NETS 3', f'{blockages}NETS 3'), STANDARD, library)
                self.assertIn(blockages, out)
                self.assertEqual('( 300 900 ) V12' in out, is_free)

    def test_half_a_stub_where_a_whole_one_has_no_room(self):
        strap = '- s + ROUTED m2 100 ( 250 520 ) ( 350 520 ) ;\n'
        text = self.BLOCK.replace('END NETS\n', f'END NETS\nSPECIALNETS 1 ;\n{strap}END SPECIALNETS\n')
        out, err = self.edited('ease-routing', text, STANDARD)
        stubs = [wire[:5] for wire in self.design(out).nets['far'].wires if isinstance(wire, Segment) and wire.x1 == 300]
        self.assertEqual(stubs, [('m2', 300, 900, 300, 1100)])
        self.assertIn('4 of 4 terminals', err)

    def test_a_library_of_one_layer_is_refused(self):
        library = self.file('one.lef', 'LAYER m1 TYPE ROUTING ; DIRECTION HORIZONTAL ; WIDTH 0.1 ; END m1\n')
        self.assertEqual(self.refused('ease-routing', HEAD + 'END DESIGN\n', library), 'one.lef:1: the library has fewer than two routing layers')

    def test_layers_without_a_via_between_them_are_refused_in_the_library(self):
        layer = 'LAYER m{0} TYPE ROUTING ; DIRECTION {1} ; WIDTH 0.1 ; END m{0}\n'
        library = self.file('two.lef', layer.format(1, 'HORIZONTAL') + layer.format(2, 'VERTICAL'))
        self.assertEqual(self.refused('ease-routing', HEAD + 'END DESIGN\n', library), 'two.lef:2: m1 and m2 have no via between them, or one direction')

    def test_a_block_without_tracks_of_a_layer_is_refused(self):
        last = self.BLOCK.count('\n')
        self.assertEqual(self.refused('ease-routing', self.BLOCK.replace(TRACKS, ''), STANDARD), f'in.def:{last - 2}: there are no TRACKS along m1, at DESIGN')
        text = self.BLOCK.replace(TRACKS, TRACKS.splitlines()[1] + '\n')
        self.assertEqual(self.refused('ease-routing', text, STANDARD), f'in.def:{last - 1}: there are no TRACKS along m2, at DESIGN')

    def test_more_tracks_than_lefdef_routes_on_are_refused(self):
        text = self.BLOCK.replace('DO 20 STEP 200 LAYER m1', 'DO 100000000 STEP 1 LAYER m1')
        self.assertEqual(self.refused('ease-routing', text, STANDARD), 'in.def:6: there are more than 4194304 tracks, at TRACKS')

    def test_a_pin_that_is_not_there_is_refused(self):
        self.assertEqual(self.refused('ease-routing', self.BLOCK.replace('( u2 A )', '( u2 B )'), STANDARD), 'in.def:14: macro INV has no pin B')


class DropFillersTests(FlowCase):
    def components(self, out, library):
        return list(self.design(out, STANDARD, library).components)

    def test_macros_with_power_pins_alone_are_taken_out(self):
        library = self.file('fill.lef', FILLERS)
        out, err = self.edited('drop-fillers', FILLED, STANDARD, library)
        self.assertEqual(self.components(out, library), ['u1', 'f2', 'f3', 'g1'])
        self.assertIn('COMPONENTS 4 ;', out)
        for line in ('f2 stays: it is FIXED', 'f3 stays: a net names it', '1 filler taken out, 1 of FILL'):
            self.assertIn(line, err)

    def test_macros_by_their_names(self):
        library = self.file('fill.lef', FILLERS)
        status, out, err = self.run_tool('drop-fillers', self.file('in.def', FILLED), STANDARD, library, '--macro', 'G*')
        self.assertEqual(status, 0, err)
        self.assertEqual(self.components(out, library), ['u1', 'f1', 'f2', 'f3'])
        self.assertNotIn('( 1000 0 )', out)

    def test_a_name_that_no_macro_has_is_a_usage_error(self):
        library = self.file('fill.lef', FILLERS)
        done = self.run_tool('drop-fillers', self.file('in.def', FILLED), STANDARD, library, '--macro', 'FILL', '--macro', 'FIL')
        self.assertEqual(done, (64, '', 'drop-fillers: no macro is named FIL\n'))

    def test_a_component_without_a_macro_is_refused(self):
        self.assertEqual(self.refused('drop-fillers', FILLED.replace('u1 INV + PLACED ( 0 0 ) N', 'u1'), STANDARD), 'in.def:6: a component has a name and a macro, at -')


class OutputTests(FlowCase):
    """What holds of all tools that edit a DEF."""
    TOOLS = (('from-qflow', [STANDARD]), ('ease-routing', [STANDARD]), ('drop-fillers', [STANDARD]), ('plain-numbers', [STANDARD]))

    def test_nothing_is_overwritten_unasked(self):
        for tool, libraries in self.TOOLS:
            with self.subTest(tool=tool):
                text, out = self.file('in.def', EaseRoutingTests.BLOCK), self.file('out.def', 'kept')
                status, _, err = self.run_tool(tool, text, *libraries, '-o', out)
                self.assertEqual(status, 5)
                self.assertIn('out.def exists already', err)
                self.assertEqual(open(out, encoding='utf-8').read(), 'kept')
                self.assertEqual(self.run_tool(tool, text, *libraries, '-o', out, '--force')[0], 0)
                self.assertIn('END DESIGN', open(out, encoding='utf-8').read())

    def test_blockages_stay_byte_for_byte(self):
        blockages = 'BLOCKAGES 9 ;\n- LAYER m1 + PUSHDOWN\n  RECT ( 9 9 ) ( 0 0 );\n- placement RECT ( 0 0 ) ( 5 5 ) ; END BLOCKAGES\n'
        for tool, libraries in self.TOOLS:
            with self.subTest(tool=tool):
                self.assertIn(blockages, self.edited(tool, EaseRoutingTests.BLOCK.replace('NETS 3', f'{blockages}NETS 3'), *libraries)[0])

    def test_a_text_that_is_read_is_never_overwritten(self):
        for tool, libraries in self.TOOLS:
            with self.subTest(tool=tool):
                text = self.file('in.def', EaseRoutingTests.BLOCK)
                status, _, err = self.run_tool(tool, text, *libraries, '-o', text, '--force')
                self.assertEqual(status, 5)
                self.assertIn('is read: it is not overwritten', err)
                self.assertEqual(open(text, encoding='utf-8').read(), EaseRoutingTests.BLOCK)

    def test_a_refused_text_leaves_no_output(self):
        for tool, libraries in self.TOOLS:
            with self.subTest(tool=tool):
                out = os.path.join(self.room, 'new.def')
                status, _, err = self.run_tool(tool, self.file('in.def', HEAD + 'COMPONENTS 1 ;\n- u1 "'), *libraries, '-o', out)
                self.assertEqual(status, 2)
                self.assertIn('in.def:6: a quoted word is not closed', err)
                self.assertFalse(os.path.exists(out))

    def test_a_text_that_is_cut(self):
        for tool, libraries in self.TOOLS:
            with self.subTest(tool=tool):
                self.assertEqual(self.refused(tool, '', *libraries).splitlines()[1:], ['note: the text is empty'])
                for text, why in ((EaseRoutingTests.BLOCK.replace('END DESIGN', ''), 'the text ends too early, at NETS'),
                                  (EaseRoutingTests.BLOCK.replace('END COMPONENTS\n', ''), '(COMPONENTS|an entry or END) was expected, not NETS'),
                                  (EaseRoutingTests.BLOCK + 'NETS 0 ;\n', 'nothing may follow END DESIGN, at NETS')):
                    self.assertRegex(self.refused(tool, text, *libraries), f'^in.def:[0-9]+: {why}$')

    def test_a_text_that_is_cut_anywhere(self):
        for text in (FILLED, GENERATED, QFLOW):
            ends = [found.end() for found in re.finditer(r'\S+', text)]
            DefText('in.def', text)
            for end in ends[:-1]:
                with self.subTest(end=text[:end][-20:]), self.assertRaisesRegex(Refused, '^in.def:[0-9]+: (the text ends too early|.* was expected, not .*)$'):
                    DefText('in.def', text[:end])

    def test_a_file_that_is_missing(self):
        for tool, libraries in self.TOOLS:
            with self.subTest(tool=tool):
                self.assertEqual(self.run_tool(tool, 'none.def', *libraries), (5, '', f'{tool}: cannot read none.def: No such file or directory\n'))

    def test_a_text_of_the_other_format_is_noted(self):
        text = self.file('in.def', EaseRoutingTests.BLOCK)
        for tool, libraries in self.TOOLS[:2]:
            with self.subTest(tool=tool):
                for words, note in (((*libraries, text), 'this seems to be a DEF, where a LEF is needed'),
                                    ((*libraries, *libraries), 'this seems to be a LEF, where a DEF is needed')):
                    status, out, err = self.run_tool(tool, *words)
                    self.assertEqual((status, out), (2, ''))
                    self.assertEqual(err.splitlines()[1:], [f'note: {note}: the DEF is named first'])

    def test_a_text_that_is_compressed_is_noted(self):
        path = os.path.join(self.room, 'in.def.gz')
        with gzip.open(path, 'wb') as file:
            file.write(EaseRoutingTests.BLOCK.encode())
        for tool, libraries in self.TOOLS[:2]:
            with self.subTest(tool=tool):
                status, out, err = self.run_tool(tool, path, *libraries)
                self.assertEqual((status, out), (2, ''))
                self.assertIn('\nnote: the text is compressed: unpack it first, with gunzip\n', err)

    def test_output_that_fails(self):
        text = self.file('in.def', EaseRoutingTests.BLOCK)
        for tool, libraries in self.TOOLS:
            with self.subTest(tool=tool):
                status, _, err = self.run_tool(tool, text, *libraries, '-o', 'none/out.def')
                self.assertEqual((status, err), (5, f'{tool}: cannot write none/out.def: No such file or directory\n'))
                with open('/dev/full', 'w', encoding='utf-8') as full:
                    done = subprocess.run([sys.executable, os.path.join(TOP, 'tools', tool), text, *libraries], stdout=full, stderr=subprocess.PIPE,
                                          text=True, timeout=60, check=False)
                self.assertEqual((done.returncode, done.stderr), (5, f'{tool}: cannot write standard output: No space left on device\n'))

    def test_nothing_is_left_beside_the_tools(self):
        tools = os.path.join(self.room, 'tools')
        shutil.copytree(os.path.join(TOP, 'tools'), tools, ignore=shutil.ignore_patterns('__pycache__'))
        for tool, _ in self.TOOLS:
            subprocess.run([sys.executable, os.path.join(tools, tool), '--help'], stdout=subprocess.DEVNULL, timeout=60, check=True)
        self.assertEqual([name for name in os.listdir(tools) if name == '__pycache__'], [])

    def test_help_and_usage_errors(self):
        for tool, _ in self.TOOLS:
            with self.subTest(tool=tool):
                status, out, _ = self.run_tool(tool, '--help')
                self.assertEqual(status, 0)
                self.assertIn('Exit status', out)
                self.assertEqual(self.run_tool(tool)[0], 64)


class ExampleTests(FlowCase):
    RUN = os.path.join(TOP, 'examples', 'from-verilog', 'run')

    def test_the_missing_packages_are_named(self):
        done = subprocess.run(['/bin/sh', self.RUN], capture_output=True, text=True, cwd=self.room, timeout=60, env={'PATH': self.commands('dirname', 'sed')})
        self.assertEqual(done.returncode, 5)
        self.assertIn('missing Debian packages: qflow yosys graywolf qrouter python3', done.stderr)

    def commands(self, *names):
        """Returns a folder with these commands alone."""
        folder = os.path.join(self.room, 'commands')
        os.mkdir(folder)
        for name in names:
            found = next(os.path.join(at, name) for at in ('/usr/bin', '/bin') if os.path.exists(os.path.join(at, name)))
            os.symlink(found, os.path.join(folder, name))
        return folder

    def go_through(self, status=0, words=('made',), library=STANDARD, **bodies):
        """Runs a copy of the script that has its library here, with a qflow that writes a small block and a lefdef, named by a relative
        path, whose place-check ends with this status; `bodies` are those of other commands. Returns the run, and the commands of lefdef."""
        for folder in ('top/examples/from-verilog', 'commands'):
            os.makedirs(os.path.join(self.room, folder))
        os.symlink(os.path.join(TOP, 'tools'), os.path.join(self.room, 'top', 'tools'))
        shutil.copy(os.path.join(os.path.dirname(self.RUN), 'ring.v'), os.path.join(self.room, 'top', 'examples', 'from-verilog'))
        with open(self.RUN, encoding='utf-8') as file:
            text = file.read()
        copy = self.file('top/examples/from-verilog/run', text.replace('\nlibrary=/usr', f'\nlibrary={library}\n: /usr'))
        self.file('placed.def', EaseRoutingTests.BLOCK)
        self.file('calls', '')
        answers = {'place-check': f'exit {status}', 'legalise': 'cat "$2"', 'route': 'cat "$2"', **bodies.pop('lefdef', {})}
        cases = ' '.join(f'{command}) {body};;' for command, body in answers.items())
        programs = {'qflow': f'for name; do :; done; cp {self.room}/placed.def "$name.def"', 'yosys': '', 'graywolf': '', 'qrouter': '',
                    'lefdef': f'echo "$1" >>{self.room}/calls\ncase $1 in {cases} *) echo "$1";; esac', **bodies}
        for name, body in programs.items():
            os.chmod(self.file(f'commands/{name}', f'#!/bin/sh\n{body}\n'), 0o755)
        path = os.pathsep.join([os.path.join(self.room, 'commands'), os.path.dirname(sys.executable), '/usr/bin', '/bin'])
        done = subprocess.run(['/bin/sh', copy, *words], capture_output=True, text=True, cwd=self.room, timeout=60,
                              env={'PATH': path, 'LEFDEF': 'commands/lefdef'}, check=False)
        with open(os.path.join(self.room, 'calls'), encoding='utf-8') as calls:
            return done, calls.read().split()

    def test_a_placement_that_is_legal_is_routed(self):
        done, calls = self.go_through(0)
        self.assertEqual((done.returncode, calls), (0, ['place-check', 'route', 'measure', 'check']), done.stderr)

    def test_a_placement_that_is_not_legal_is_legalised(self):
        done, calls = self.go_through(1)
        self.assertEqual((done.returncode, calls), (0, ['place-check', 'legalise', 'route', 'measure', 'check']), done.stderr)

    def test_a_placement_that_is_not_judged_ends_the_run(self):
        done, calls = self.go_through(2)
        self.assertEqual((done.returncode, calls), (2, ['place-check']), done.stderr)
        self.assertIn('run: the placement was not checked', done.stderr)

    def test_a_block_that_is_not_routed_is_finished(self):
        done, calls = self.go_through(lefdef={'route': 'echo "UNROUTABLE n"; exit 3', 'finish': 'cat "$2"'})
        self.assertEqual((done.returncode, calls), (0, ['place-check', 'route', 'finish', 'measure', 'check']), done.stderr)

    def test_a_block_that_is_not_finished_needs_more_room(self):
        failing = {'route': 'echo "UNROUTABLE n"; exit 3', 'finish': 'echo "unfinished 2"; exit 3'}
        done, calls = self.go_through(words=('made', self.file('ring.v', 'module ring (a);\n'), 'osu035', '0.7'), lefdef=failing)
        self.assertEqual((done.returncode, done.stdout, calls), (1, 'UNROUTABLE n\nunfinished 2\n', ['place-check', 'route', 'finish']))
        self.assertIn('osu035 0.5, or a number below 0.7\n', done.stderr)
        self.assertFalse(os.path.exists(os.path.join(self.room, 'made', 'routed.def')))

    def test_a_block_that_is_not_legalised_needs_more_room(self):
        done, _ = self.go_through(1, lefdef={'legalise': 'echo "NOROOM u1"; exit 3'})
        self.assertEqual((done.returncode, done.stdout), (1, 'NOROOM u1\n'))
        self.assertIn('run: not legalised\nrun: give it more room:', done.stderr)

    def test_a_design_of_ones_own_with_a_density(self):
        self.file('own.v', '  module  top(a);\ninput a;\nendmodule\n')
        qflow = f'echo "$*" >>words; for name; do :; done; [ "$3" = synthesize ] || cp {self.room}/placed.def "$name.def"'
        done, _ = self.go_through(words=('made', 'own.v', 'osu050', '0.4'), qflow=qflow)
        self.assertEqual(done.returncode, 0, done.stderr)
        self.assertEqual(self.text_of('made/words'), '-T osu050 synthesize top\n-T osu050 place top\n')
        self.assertEqual(self.text_of('made/project_vars.sh'), 'set initial_density = 0.4\n')
        self.assertEqual(self.text_of('made/source/top.v'), self.text_of('own.v'))

    def test_of_several_modules_the_top_one_has_the_name_of_the_file(self):
        text = 'module first (a);\nendmodule\nmodule second (a);\nendmodule\n'
        done, _ = self.go_through(words=('made', self.file('second.v', text)))
        self.assertEqual((done.returncode, os.listdir(os.path.join(self.room, 'made', 'source'))), (0, ['second.v']), done.stderr)

    def test_a_top_module_that_is_not_known_is_asked_for(self):
        text = 'module first (a);\nendmodule\nmodule second (a);\nendmodule\n'
        done, _ = self.go_through(words=('made', self.file('both.v', text)))
        self.assertEqual(done.returncode, 5)
        self.assertIn('It has:\nrun: first\nrun: second\nrun: name the file after it', done.stderr)

    def test_a_folder_with_files_is_not_touched(self):
        os.mkdir(os.path.join(self.room, 'made'))
        self.file('made/routed.def', 'mine')
        done, calls = self.go_through()
        self.assertEqual((done.returncode, calls, self.text_of('made/routed.def')), (5, [], 'mine'))
        self.assertIn('run: the folder made has files, which are not overwritten', done.stderr)

    def test_a_design_that_is_missing(self):
        done, _ = self.go_through(words=('made', 'nosuch.v'))
        self.assertEqual((done.returncode, done.stderr), (5, 'run: cannot read the design nosuch.v\n'))
        self.assertFalse(os.path.exists(os.path.join(self.room, 'made')))

    def test_a_text_without_a_module(self):
        path = self.file('none.v', '// module\n')
        done, calls = self.go_through(words=('made', path))
        self.assertEqual((done.returncode, calls), (5, []))
        self.assertEqual(done.stderr, f'run: {path} has no module: none of its lines begins with the word module and a name\n')
        self.assertFalse(os.path.exists(os.path.join(self.room, 'made')))

    def test_a_technology_that_is_not_installed_is_named(self):
        done, _ = self.go_through(words=('made', 'ring.v', 'osu035'), library='/nosuch')
        self.assertEqual((done.returncode, done.stderr), (5, 'run: missing Debian packages: qflow-tech-osu035\nrun: apt-get install -y qflow-tech-osu035\n'))

    def test_words_that_mean_nothing(self):
        for words, said in ((('made', 'ring.v', 'osu018', '1.5'), '1.5 is no density'), (('made', 'ring.v', 'osu018', '0.00'), '0.00 is no density'),
                            (('made', 'ring.v', 'osu018', '0.5x'), '0.5x is no density'), (('made', 'ring.v', 'other'), 'there is no technology other'),
                            (('made', 'ring.v', 'osu018', '0.5', 'more'), 'more than four words'), (('--force',), 'there is no option --force')):
            with self.subTest(words=words):
                done = subprocess.run(['/bin/sh', self.RUN, *words], capture_output=True, text=True, cwd=self.room, timeout=60, check=False)
                self.assertEqual(done.returncode, 64)
                self.assertIn(said, done.stderr)
                self.assertIn('usage: ', done.stderr)

    def test_a_design_that_qflow_does_not_place(self):
        done, calls = self.go_through(qflow='echo "ERROR: no such gate"')
        self.assertEqual((done.returncode, calls), (1, []))
        self.assertIn('ERROR: no such gate', done.stderr)
        self.assertIn('run: qflow wrote no ring.def; its whole output is in', done.stderr)

    def text_of(self, name):
        with open(os.path.join(self.room, name), encoding='utf-8') as file:
            return file.read()

    def test_help(self):
        done = subprocess.run(['/bin/sh', self.RUN, '--help'], capture_output=True, text=True, timeout=60)
        self.assertEqual(done.returncode, 0)
        self.assertIn('From Verilog to a block', done.stdout)


if __name__ == '__main__':
    unittest.main()
