"""Tests of tools/plain-numbers: numbers of a DEF or a LEF written as the units that they lie at, or a refusal with its place."""
import os
import sys
import unittest

sys.path.insert(0, os.path.dirname(os.path.abspath(__file__)))

from flow_tests import FlowCase
from wide_texts import CELLS, EVERY_FORM, TECHNOLOGY, block

NOISE = 'is more than a millionth of a database unit from'
# Cells of which lengths are written otherwise.
ODD_CELLS = CELLS.replace('SIZE 0.4 BY 2.0', 'SIZE 0.4000000000000001 BY 20e-1').replace('END INV', 'PROPERTY area 0.80000000000000001 ;\nEND INV')


class LefTests(FlowCase):
    """Lengths of a LEF."""

    def test_lengths_lie_at_a_unit_and_all_else_stays(self):
        technology = self.file('tech.lef', TECHNOLOGY)
        out, err = self.edited('plain-numbers', ODD_CELLS, technology)
        self.assertEqual(out, ODD_CELLS.replace('0.4000000000000001 BY 20e-1', '0.4 BY 2'))
        self.assertEqual(err, 'plain-numbers: 2 numbers written as the unit that each lies at, the first in line 4\n')
        self.assertEqual(self.edited('plain-numbers', out, technology), (out, 'plain-numbers: no number is to be rewritten\n'))

    def test_numbers_of_each_form(self):
        for old, new, plain in (('RECT 0.3 0.85', 'RECT 3e-1 0.85', 'RECT 0.3 0.85'), ('POLYGON 0 0.8', 'POLYGON 0 8.0e-1', 'POLYGON 0 0.8'),
                                ('STEP 0.2 0.3', 'STEP 0.2000000001 0.3', 'STEP 0.2 0.3'), ('ITERATE 0 0.1', 'ITERATE 0e0 0.1', 'ITERATE 0 0.1')):
            with self.subTest(new=new):
                out, _ = self.edited('plain-numbers', CELLS.replace(old, new), self.file('tech.lef', TECHNOLOGY))
                self.assertEqual(out, CELLS.replace(old, plain))
        out, _ = self.edited('plain-numbers', TECHNOLOGY.replace('WIDTH 0.24', 'WIDTH 24e-2').replace('RECT -0.1 -0.1', 'RECT -1e-1 -0.1'))
        self.assertEqual(out, TECHNOLOGY)

    def test_a_macro_that_the_wide_profile_drops_is_gone_past(self):
        text = CELLS.replace('RECT 0.3', 'PATH 0.3')
        self.assertEqual(self.edited('plain-numbers', text, self.file('tech.lef', TECHNOLOGY))[0], text)

    def test_layers_that_no_text_defines(self):
        status, out, err = self.run_tool('plain-numbers', self.file('in.lef', ODD_CELLS), '--units', '1000')
        self.assertEqual((status, out), (0, ODD_CELLS.replace('0.4000000000000001 BY 20e-1', '0.4 BY 2')), err)
        self.assertIn('give those of the DEF with --units', self.refused('plain-numbers', ODD_CELLS))

    def test_what_is_refused(self):
        technology = self.file('tech.lef', TECHNOLOGY)
        for old, new, why in (
                ('0.4000000000000001', '0.40000001', f'4: 0.40000001 {NOISE} 400 units, of which 1000 are a micron'),
                ('20e-1', '2e-4', f'4: 2e-4 {NOISE} 0 units, of which 1000 are a micron'),
                ('20e-1', '2e9', '4: 2e9 is beyond 2000000000 database units'),
                ('20e-1', 'two', '4: a length of at most six decimals was expected, not two'),
                ('END INV', '"', '18: a quoted word is not closed, at "')):
            with self.subTest(new=new):
                self.assertEqual(self.refused('plain-numbers', ODD_CELLS.replace(old, new, 1), technology), f'in.def:{why}')
        self.assertEqual(self.refused('plain-numbers', 'MACRO m OBS LAYER m1 ; RECT 0 0 1 1 ; END END m\n' + TECHNOLOGY), 'in.def:4: layer m1 is used before it is defined')

    def test_units(self):
        text = self.file('in.lef', ODD_CELLS.replace('0.4000000000000001', '0.40000000009'))
        technology = self.file('tech.lef', TECHNOLOGY)
        self.assertIn('0.40000000009 is more than', self.run_tool('plain-numbers', text, technology, '--units', '20000')[2])
        self.assertEqual(self.run_tool('plain-numbers', text, technology, '--units', '2000')[0], 0)
        self.assertIn('SIZE 0.4 BY 2 ;', self.run_tool('plain-numbers', text, technology)[1])
        none = self.file('none.lef', TECHNOLOGY.replace('UNITS DATABASE MICRONS 1000 ; END UNITS\n', ''))
        self.assertEqual(self.run_tool('plain-numbers', text, none), (
            2, '', f'{text}:4: a length of at most six decimals was expected, not 0.40000000009, and the units of a micron are not known: the LEF has no '
            'UNITS DATABASE MICRONS, so give those of the DEF with --units\n'))
        self.assertEqual(self.run_tool('plain-numbers', text, '--units', '0'), (64, '', 'plain-numbers: the units of a micron are 1 to 20000\n'))
        self.assertIn('are no length of at most six decimals',
                      self.run_tool('plain-numbers', self.file('third.lef', ODD_CELLS.replace('0.4000000000000001', '0.3333333333333')), technology, '--units', '3')[2])

    def test_files(self):
        text, out = self.file('in.lef', CELLS), self.file('out.lef', 'kept')
        technology = self.file('tech.lef', TECHNOLOGY)
        for words, why in ((('-o', out), 'exists already; with --force it is overwritten'), (('-o', technology, '--force'), 'is read: it is not overwritten'),
                           (('-o', text, '--force'), 'is read: it is not overwritten')):
            status, _, err = self.run_tool('plain-numbers', text, technology, *words)
            self.assertEqual(status, 5)
            self.assertIn(why, err)
        with open(out, encoding='utf-8') as file:
            self.assertEqual(file.read(), 'kept')


class DefTests(FlowCase):
    """Numbers of a DEF."""

    def setUp(self):
        super().setUp()
        self.lefs = [self.file('tech.lef', TECHNOLOGY), self.file('cells.lef', CELLS)]

    def test_every_form_of_the_wide_profile_stays(self):
        self.assertEqual(self.edited('plain-numbers', EVERY_FORM, *self.lefs), (EVERY_FORM, 'plain-numbers: no number is to be rewritten\n'))

    def test_numbers_lie_at_a_unit(self):
        text = block('- s + ROUTED m1 1e2 ( 0.0 5 ) ( 9.0000001 5. ) + RECT m1 ( -0.0000001 0 ) ( 2e1 +20.0 ) ;\n').replace('DIEAREA ( 0 0 )', 'DIEAREA ( 0.00 -0e3 )')
        text = text.replace('MICRONS 1000', 'MICRONS 1e3')
        out, err = self.edited('plain-numbers', text, *self.lefs)
        self.assertIn('UNITS DISTANCE MICRONS 1000 ;\nDIEAREA ( 0 0 ) ( 20000 20000 ) ;', out)
        self.assertIn('- s + ROUTED m1 100 ( 0 5 ) ( 9 5 ) + RECT m1 ( 0 0 ) ( 20 20 ) ;', out)
        self.assertIn('10 numbers written as the unit that each lies at, the first in line 3', err)

    def test_what_is_refused(self):
        for number, why in (('100.1', f'{NOISE} 100 units'), ('100.00001', f'{NOISE} 100 units'), ('1e10', 'is beyond 2000000000 database units'),
                            ('0x10', None), ('1e999', None), ('wide', None)):
            with self.subTest(number=number):
                message = f'{number} {why}' if why else f'a whole number was expected, not {number}'
                self.assertEqual(self.refused('plain-numbers', block(f'- s + ROUTED m1 {number} ( 0 0 ) ;\n'), *self.lefs), f'in.def:14: {message}')

    def test_a_def_needs_its_lefs(self):
        self.assertRegex(self.refused('plain-numbers', EVERY_FORM), r'^in\.def:[0-9]+: there is no ')


if __name__ == '__main__':
    unittest.main()
