"""Tests of the pages that tools/view writes for a browser: what is in them, and what is refused. A browser is not needed."""
import base64
import os
import re
import sys
import unittest
from array import array

sys.path.insert(0, os.path.dirname(os.path.abspath(__file__)))
from doctored import narrow_cases  # noqa: E402
from pages import HEAD, HOSTILE, Page, PageCase, shown_text  # noqa: E402
from view_tests import STANDARD, TOP, UNFINISHED_LINES, case, example  # noqa: E402


class PageTests(PageCase):
    """What is in a page."""

    def test_a_page_is_one_file_without_references(self):
        text = self.html(example('unfinished.def'), STANDARD, '--violations', '-', stdin=UNFINISHED_LINES)
        page = Page(text)
        self.assertTrue(text.startswith('<!DOCTYPE html>'))
        self.assertEqual([(tag, attribute) for tag, attributes in page.elements for attribute in attributes
                          if attribute in ('src', 'href', 'srcset', 'action', 'data', 'poster')], [])
        self.assertEqual([tag for tag, _ in page.elements if tag in ('link', 'iframe', 'object', 'embed', 'img', 'base', 'form')], [])
        self.assertIsNone(re.search(r'https?:|//[a-z]+\.|@import|url\(|\bimport\s*\(|fetch\(|XMLHttpRequest|WebSocket|sendBeacon', text))
        policy = next(attributes['content'] for tag, attributes in page.elements if attributes.get('http-equiv') == 'Content-Security-Policy')
        self.assertEqual(policy, "default-src 'none'; script-src 'unsafe-inline'; style-src 'unsafe-inline'")
        self.assertEqual(page.texts['title'], 'top: 2 violations')

    def test_controls_have_labels(self):
        page = self.page(example('wired.def'), STANDARD)
        controls = [attributes for tag, attributes in page.elements if tag in ('button', 'input', 'canvas')]
        self.assertGreater(len(controls), 5)
        self.assertEqual([attributes for attributes in controls if not attributes.get('aria-label')], [])

    def test_the_data_of_a_block(self):
        page = self.page(example('unfinished.def'), STANDARD, '--violations', '-', stdin=UNFINISHED_LINES)
        data = page.data
        self.assertEqual((data['title'], data['name'], data['units'], data['die'], data['hasTracks']), ('top', 'top', 1000, [0, 0, 800, 2000], False))
        self.assertEqual([(layer['name'], layer['colour'], layer['isCut'], layer['width']) for layer in data['layers']], [
            ('m1', '#2457d6', False, 100), ('v1', '#222222', True, 0), ('m2', '#d62222', False, 100)])
        self.assertEqual(data['rows'], [{'name': 'r0', 'site': 'core', 'x': 0, 'y': 0, 'orientation': 'N', 'count': 4, 'width': 200, 'height': 2000}])
        self.assertEqual(data['names'], {'components': ['u1', 'u2'], 'macros': ['INV'], 'nets': ['n1', 'n2'], 'pins': ['A', 'Y', 'VDD', 'VSS']})
        self.assertEqual(page.array('components', 'sides'), [0, 0, 400, 2000, 400, 0, 800, 2000])
        self.assertEqual((page.array('components', 'status'), page.array('components', 'orientation')), ([1, 1], [0, 0]))
        self.assertEqual(page.shapes(), [
            ('m1', (50, 850, 150, 1050), 'PIN', 'TERM u1 A', 0), ('m1', (250, 850, 350, 1050), 'PIN', 'NET n1', 0),
            ('m1', (0, 1900, 400, 2100), 'PIN', 'POWER', 0), ('m1', (0, -100, 400, 100), 'PIN', 'GROUND', 0),
            ('m1', (450, 850, 550, 1050), 'PIN', 'NET n1', 0), ('m1', (650, 850, 750, 1050), 'PIN', 'TERM u2 Y', 0),
            ('m1', (400, 1900, 800, 2100), 'PIN', 'POWER', 0), ('m1', (400, -100, 800, 100), 'PIN', 'GROUND', 0),
            ('m1', (250, 850, 430, 950), 'WIRE', 'NET n1', 0), ('m1', (600, 1140, 700, 1240), 'WIRE', 'NET n2', 0)])
        self.assertEqual(data['moves'], None)

    def test_violations_and_their_kinds(self):
        data = self.page(example('unfinished.def'), STANDARD, '--violations', '-', stdin=UNFINISHED_LINES).data
        self.assertEqual([kind['name'] for kind in data['kinds']], ['TOONEAR', 'OPEN'])
        self.assertEqual(data['violations'], [
            {'numbers': [1], 'kind': 'TOONEAR', 'text': UNFINISHED_LINES.split('\n', 1)[0], 'note': '90 apart, 100 wanted', 'box': [650, 1050, 700, 1140],
             'outlines': [[650, 850, 750, 1050], [600, 1140, 700, 1240]], 'gap': [675, 1050, 675, 1140]},
            {'numbers': [2], 'kind': 'OPEN', 'text': 'OPEN n1 u2 A', 'note': '20 from u2 A to WIRE 1; 1 piece here, 2 there', 'box': [430, 850, 450, 950],
             'outlines': [[450, 850, 550, 1050], [250, 850, 430, 950]], 'gap': [450, 900, 430, 900]}])

    def test_open_pieces_that_are_joined_to_one_another(self):
        block = self.write('block.def', HEAD + 'NETS 1 ; - n + ROUTED m1 ( 100 100 ) ( 200 100 ) NEW m1 ( 100 500 ) ( 200 500 ) NEW m1 ( 200 500 ) ( 300 500 ) '
                           'NEW m1 ( 100 900 ) ( 200 900 ) ; END NETS END DESIGN')
        page = self.page(block, STANDARD, '--violations', '-', stdin='OPEN n WIRE 2\nOPEN n WIRE 3\nOPEN n WIRE 4\nviolations 3\n')
        self.assertEqual([(mark['numbers'], mark['text'], mark['note']) for mark in page.data['violations']], [
            ([1, 2], 'OPEN n WIRE 2', '300 from WIRE 2 to WIRE 1; 2 pieces here, 1 there'),
            ([3], 'OPEN n WIRE 4', '300 from WIRE 4 to WIRE 2; 1 piece here, 2 there')])
        self.assertEqual(page.texts['title'], 'top: 3 violations')

    def test_a_list_without_violations_and_no_list(self):
        page = self.page(example('wired.def'), STANDARD, '--violations', '-', stdin='legal\n')
        self.assertEqual((page.texts['title'], page.data['violations']), ('top: 0 violations', []))
        page = self.page(example('wired.def'), STANDARD, '--force', '--title', 'my block')
        self.assertEqual((page.texts['title'], page.data['violations']), ('my block', None))

    def test_blockages_obstructions_tracks_and_components_without_a_place(self):
        name = 'check_blockages_of_both_kinds'
        page = self.page(case(name, 'block.def'), case(name, 'cells.lef'))
        self.assertEqual(page.data['placements'], [{'number': 1, 'box': [650, 0, 800, 2000]}, {'number': 4, 'box': [0, 0, 10, 10]},
                                                   {'number': 4, 'box': [100, 0, 150, 150]}])
        self.assertIn(('m1', (60, 400, 160, 800), 'BLOCKAGE', 'BLOCKAGE 2', 0), page.shapes())
        page = self.page(example('around.def'), STANDARD, '--tracks', '--force')
        self.assertIn(('m1', (500, 700, 700, 1200), 'OBS', 'OBS b1', 0), page.shapes())
        self.assertEqual(page.array('components', 'status'), [1, 2, 1])
        self.assertEqual(page.data['tracks'], [{'axis': 'X', 'start': 100, 'step': 200, 'count': 6, 'layer': 2},
                                               {'axis': 'Y', 'start': 100, 'step': 200, 'count': 10, 'layer': 0}])
        self.assertTrue(page.data['hasTracks'])
        name = 'check_an_unplaced_terminal'
        page = self.page(case(name, 'block.def'), case(name, 'cells.lef'), '--violations', case(name, 'stdout'), '--force')
        self.assertEqual(page.array('components', 'status'), [1, 0])
        self.assertEqual([mark['box'] for mark in page.data['violations']], [None, [250, 850, 350, 1050]])

    def test_wires_that_were_added(self):
        page = self.page(self.routed_around(), STANDARD, '--before', example('around.def'))
        self.assertEqual(page.data['moves'], [])
        added = [shape[:4] for shape in page.shapes() if shape[4]]
        self.assertEqual(len(added), 15)
        self.assertIn(('m1', (250, 450, 950, 550), 'WIRE', 'NET n1'), added)
        self.assertEqual({shape[2] for shape in added}, {'WIRE'})
        page = self.page(self.path('routed.def'), STANDARD, '--before', self.path('routed.def'), '--force')
        self.assertEqual([shape for shape in page.shapes() if shape[4]], [])

    def test_components_that_moved(self):
        page = self.page(self.legalised_rows(), STANDARD, '--before', example('rows.def'))
        names = page.data['names']['components']
        self.assertEqual([(names[move['component']], move['box'], move['orientation']) for move in page.data['moves']], [
            ('u2', [399, 0, 799, 2000], 'FN'), ('u4', [1100, 2000, 1500, 4000], 'S')])
        before = self.write('before.def', HEAD + 'COMPONENTS 2 ; - u1 INV ; - u2 INV + PLACED ( 400 0 ) FN ; END COMPONENTS END DESIGN')
        after = self.write('after.def', HEAD + 'COMPONENTS 2 ; - u1 INV + PLACED ( 0 0 ) N ; - u2 INV + PLACED ( 400 0 ) N ; END COMPONENTS END DESIGN')
        page = self.page(after, STANDARD, '--before', before, '--force')
        self.assertEqual(page.data['moves'], [
            {'component': 0, 'box': None, 'orientation': ''}, {'component': 1, 'box': [400, 0, 800, 2000], 'orientation': 'FN'}])

    def test_names_that_a_page_has_to_quote(self):
        components = ' '.join(f'- {name} INV + PLACED ( {at} 0 ) N ;' for at, name in enumerate(HOSTILE))
        block = self.write('block.def', HEAD.replace('top', HOSTILE[0]) + f'COMPONENTS {len(HOSTILE)} ; {components} END COMPONENTS END DESIGN')
        text = self.html(block, STANDARD)
        page = Page(text)
        self.assertEqual(page.data['names']['components'], list(HOSTILE))
        self.assertEqual(page.texts['title'], HOSTILE[0])
        self.assertEqual([tag for tag, _ in page.elements].count('script'), 2)
        self.assertEqual((text.count('</script>'), text.count('<!--')), (2, 0))

    def test_names_of_any_bytes(self):
        with open(self.path('block.def'), 'wb') as file:
            file.write(HEAD.encode().replace(b'top', b't\xff\x01') + b'COMPONENTS 2 ; - u\xff INV + PLACED ( 0 0 ) N ; - u\xfe INV ; END COMPONENTS END DESIGN')
        page = self.page(self.path('block.def'), STANDARD)
        self.assertEqual(page.texts['title'], 't\ufffd\ufffd')
        self.assertEqual(page.data['names']['components'], ['u\udcff', 'u\udcfe'])

    def test_coordinates_that_are_beyond_32_bits(self):
        sys.path.insert(0, os.path.join(TOP, 'tools'))
        from block_page import packed
        for numbers, kind in (([-2 ** 31 + 1, 2 ** 31 - 1], 'i32'), ([0, 2 ** 31], 'f64'), ([-10 ** 10, 10 ** 10], 'f64'), ([], 'i32')):
            found = packed('i32', numbers)
            self.assertEqual(found['type'], kind)
            self.assertEqual(list(array({'i32': 'i', 'f64': 'd'}[kind], base64.b64decode(found['data']))), numbers)

    def test_each_block_of_the_cases_of_the_program(self):
        tried = 0
        for name in narrow_cases()[::10]:
            if not all(os.path.exists(case(name, file)) for file in ('block.def', 'cells.lef', 'stdout')):
                continue
            with open(case(name, 'stdout'), encoding='utf-8') as file:
                refused = file.read().startswith(('REFUSED', 'SCALE'))
            if not refused:
                tried += 1
                with self.subTest(case=name):
                    self.view(case(name, 'block.def'), case(name, 'cells.lef'), '--svg', 'x.svg', '--html', 'page.html', '--force')
                    picture, page = self.text('x.svg'), Page(self.text('page.html'))
                    drawn = re.findall(r'<g class="(?:pin|obs|wire|blockage)".*?</g>', picture, re.DOTALL)
                    self.assertEqual(len(page.shapes()), sum(group.count('<rect') for group in drawn))
        self.assertGreater(tried, 5)


class RefusalTests(PageCase):
    """What isn't written, and why."""

    def refused(self, status, message, *words, stdin=''):
        before = sorted(os.listdir(self.room))
        done = self.run_view(*words, stdin=stdin)
        self.assertEqual((done.returncode, done.stdout), (status, ''))
        self.assertIn(message, done.stderr)
        self.assertNotIn('Traceback', done.stderr)
        self.assertEqual(sorted(os.listdir(self.room)), before)

    def test_words_that_say_nothing(self):
        wired = example('wired.def'), STANDARD
        for words, why in (
                ((*wired,), 'nothing is asked: give --html'), ((*wired, '--svg', 'x', '--before', example('wired.def')), '--before needs --html'),
                ((*wired, '--html', 'x', '--svg', './x'), '--html and --svg name one file'),
                ((*wired, '--violations', '-', '--html', '-', '--markers', '-'), '--html and --markers name one file'),
                ((*wired, '--violations', '-', '--html', 'x', '--around', '1'), '--around needs --svg')):
            with self.subTest(words=words):
                self.refused(64, why, *words)

    def test_a_text_before_that_is_refused(self):
        wired = example('wired.def'), STANDARD
        bad = self.write('bad.def', HEAD + '\nCOMPONENTS 1 ;\n- u1 NAND ;\nEND COMPONENTS END DESIGN')
        self.refused(2, f'{bad}:3: there is no macro NAND', *wired, '--before', bad, '--html', 'x.html')
        units = self.write('units.def', 'DESIGN top ;\nUNITS DISTANCE MICRONS 2000 ;\nDIEAREA ( 0 0 ) ( 800 2000 ) ; END DESIGN')
        self.refused(2, f'{units}:2: the units are 2000 a micron, and those of the block 1000', *wired, '--before', units, '--html', 'x.html')
        self.refused(2, 'note: this seems to be a LEF, where a DEF is needed', *wired, '--before', STANDARD, '--html', 'x.html')
        self.refused(5, 'cannot read none.def', *wired, '--before', 'none.def', '--html', 'x.html')

    def test_files_that_are_there(self):
        self.write('x.html', 'mine')
        before = self.write('before.def', shown_text('./lefdef legalise examples/rows.def examples/standard.lef'))
        self.refused(5, 'x.html exists already', example('wired.def'), STANDARD, '--html', 'x.html')
        self.refused(5, 'before.def is read: it is not overwritten', example('rows.def'), STANDARD, '--before', before, '--html', 'before.def', '--force')
        self.assertEqual(self.text('x.html'), 'mine')
        self.view(example('wired.def'), STANDARD, '--html', 'x.html', '--force')
        self.assertEqual(Page(self.text('x.html')).texts['title'], 'top')

    def test_standard_output_and_several_outputs(self):
        text = self.view(example('wired.def'), STANDARD, '--html', '-')
        self.assertEqual(Page(text).data['name'], 'top')
        words = '--violations', '-', '--html', 'a.html', '--svg', 'a.svg', '--markers', 'a.lyrdb'
        self.view(example('unfinished.def'), STANDARD, *words, stdin=UNFINISHED_LINES)
        self.assertEqual(sorted(os.listdir(self.room)), ['a.html', 'a.lyrdb', 'a.svg'])

    def test_help(self):
        text = self.view('--help')
        for word in ('--html', '--before', 'browser'):
            self.assertIn(word, text)


if __name__ == '__main__':
    unittest.main()
