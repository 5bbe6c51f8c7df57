"""Tests of where tools/ease-routing lays vias and stubs: off the tracks, beside one another, and in how many looks."""
import os
import sys
import unittest

sys.path.insert(0, os.path.dirname(os.path.abspath(__file__)))

from doctored import script
from flow_tests import HEAD, STANDARD, TRACKS, FlowCase

ease = script('tools/ease-routing')

from lefdef_text import Segment, ViaAt, read_design, read_library  # noqa: E402

PAD = 'MACRO PAD CLASS PAD ; SIZE 90 BY 90 ; PIN P PORT LAYER m1 ; RECT 0 0 90 90 ; END END P END PAD\n'
# Two pins in one column, a track apart, with a crossing of tracks each.
PAIR = '''MACRO PAIR CLASS CORE ; SIZE 0.4 BY 2.0 ; SITE core ;
PIN A PORT LAYER m1 ; RECT 0.05 0.65 0.15 0.75 ; END END A
PIN Y PORT LAYER m1 ; RECT 0.05 0.85 0.15 0.95 ; END END Y
END PAIR
'''


class PlaceTests(FlowCase):
    """Where the via and the stub of a pin lie, for one pin of one component."""

    def placed(self, tracks, macro='INV', nets='- n ( u A ) ;', *libraries):
        """Returns the vias and the stubs of a block of one component, and what was said."""
        block = f'{HEAD}{tracks}COMPONENTS 1 ; - u {macro} + PLACED ( 0 0 ) N ; END COMPONENTS\nNETS 2 ;\n{nets}\nEND NETS\nEND DESIGN\n'
        out, err = self.edited('ease-routing', block, STANDARD, *libraries)
        wires = [wire for net in self.design(out, STANDARD, *libraries).nets.values() for wire in net.wires]
        return [wire[1:] for wire in wires if isinstance(wire, ViaAt)], [wire[:5] for wire in wires if isinstance(wire, Segment)], err

    def test_a_pin_off_the_lower_tracks_has_a_stub_to_the_tracks_on_both_sides(self):
        vias, stubs, err = self.placed('TRACKS X 100 DO 9 STEP 200 LAYER m2 ;\nTRACKS Y 700 DO 2 STEP 700 LAYER m1 ;\n')
        self.assertEqual((vias, stubs), ([(100, 950)], [('m2', 100, 700, 100, 1400)]))
        self.assertIn('1 of 1 terminal given a via and a stub;', err)

    def test_a_pin_beside_the_outermost_track_has_a_stub_to_it(self):
        for start, stub in ((1300, ('m2', 100, 950, 100, 1300)), (300, ('m2', 100, 500, 100, 950))):
            with self.subTest(start=start):
                vias, stubs, _ = self.placed(f'TRACKS X 100 DO 9 STEP 200 LAYER m2 ;\nTRACKS Y {start} DO 2 STEP 200 LAYER m1 ;\n')
                self.assertEqual((vias, stubs), ([(100, 950)], [stub]))

    def test_a_pin_off_the_tracks_whose_stub_has_no_room_is_left(self):
        strap = '- u ( u A ) ;\n- s + ROUTED m2 ( 0 1200 ) ( 200 1200 ) NEW m2 ( 0 700 ) ( 200 700 ) ;'
        vias, stubs, err = self.placed('TRACKS X 100 DO 9 STEP 200 LAYER m2 ;\nTRACKS Y 500 DO 2 STEP 900 LAYER m1 ;\n', 'INV', strap)
        self.assertEqual((vias, len(stubs)), ([], 2))
        self.assertIn('no room for a via at u A of net u', err)

    def test_a_pin_off_the_upper_tracks_is_left(self):
        vias, _, err = self.placed('TRACKS X 200 DO 9 STEP 200 LAYER m2 ;\nTRACKS Y 100 DO 9 STEP 200 LAYER m1 ;\n')
        self.assertEqual(vias, [])
        self.assertIn('no room for a via at u A of net n', err)

    def test_vias_come_before_stubs(self):
        library = self.file('pair.lef', PAIR)
        vias, stubs, err = self.placed(TRACKS, 'PAIR', '- n ( u A ) ;\n- o ( u Y ) ;', library)
        self.assertEqual(sorted(vias), [(100, 700), (100, 900)])
        self.assertEqual(sorted(stubs), [('m2', 100, 500, 100, 700), ('m2', 100, 900, 100, 1100)])
        self.assertIn('2 of 2 terminals given a via and a stub;', err)

    def test_a_via_alone_where_no_stub_has_room(self):
        strap = '- u ( u A ) ;\n- s + ROUTED m2 ( 0 620 ) ( 200 620 ) NEW m2 ( 0 1180 ) ( 200 1180 ) ;'
        vias, stubs, err = self.placed(TRACKS, 'INV', strap)
        self.assertEqual((vias, len(stubs)), ([(100, 900)], 2))
        self.assertIn('1 of 1 terminal given a via and a stub, 1 of them the via alone, for want of room;', err)


class LookTests(FlowCase):
    """How much metal is looked at: a macro of the library that is as large as the block does not matter."""

    def looks(self, rows, *libraries):
        """Returns how often metal was looked at for each terminal of a block."""
        places = [(column, row) for row in range(rows) for column in range(rows)]
        components = ''.join(f'- u{x}_{y} INV + PLACED ( {400 * x} {2000 * y} ) N ;\n' for x, y in places)
        nets = ''.join(f'- n{x}_{y} ( u{x}_{y} A ) ( u{x}_{y} Y ) ;\n' for x, y in places)
        tracks = f'TRACKS X 100 DO {2 * rows} STEP 200 LAYER m2 ;\nTRACKS Y 100 DO {10 * rows} STEP 200 LAYER m1 ;\n'
        text = f'{HEAD}{tracks}COMPONENTS {len(places)} ;\n{components}END COMPONENTS\nNETS {len(places)} ;\n{nets}END NETS\nEND DESIGN\n'
        design = read_design(self.file('block.def', text), read_library(libraries))
        field, looked = ease.field_of(design), []
        near = field.near
        field.near = lambda layer, rect: map(lambda it: looked.append(it) or it, near(layer, rect))
        layers = ease.lowest_layers(design.library, design.library, libraries)
        found, count = ease.chosen(design, ease.Access(design, *layers), field, self.fail)
        self.assertEqual((len(found), count), (2 * len(places), 2 * len(places)))
        return len(looked) / count

    def test_a_pad_in_the_library_costs_nothing(self):
        self.assertEqual(self.looks(8, STANDARD, self.file('pad.lef', PAD)), self.looks(8, STANDARD))

    def test_a_larger_block_costs_no_more_for_each_terminal(self):
        self.assertLess(self.looks(16, STANDARD), 1.2 * self.looks(8, STANDARD))
        self.assertLess(self.looks(16, STANDARD), 200)


if __name__ == '__main__':
    unittest.main()
