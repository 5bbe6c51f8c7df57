"""Tests of tools/view: what is in its pictures and marker databases, what it refuses, and that it overwrites nothing unasked."""
import os
import re
import subprocess
import sys
import tempfile
import time
import unittest
import xml.etree.ElementTree as ElementTree

TOP = os.path.normpath(os.path.join(os.path.dirname(os.path.abspath(__file__)), '..', '..'))
VIEW = os.path.join(TOP, 'tools', 'view')
sys.path.insert(0, os.path.join(TOP, 'tools'))
sys.path.insert(0, os.path.dirname(os.path.abspath(__file__)))
from block_picture import MOST_IN_PATH  # noqa: E402
from doctored import narrow_cases  # noqa: E402
from lefdef_text import read_design, read_library, read_violations  # noqa: E402
from violation_marks import Finder  # noqa: E402

STANDARD = os.path.join(TOP, 'examples', 'standard.lef')
SVG = '{http://www.w3.org/2000/svg}'
UNFINISHED_LINES = 'TOONEAR m1 TERM u2 Y 650 850 750 1050 NET n2 600 1140 700 1240\nOPEN n1 u2 A\nviolations 2\n'


def example(name):
    return os.path.join(TOP, 'examples', name)


def case(name, file):
    return os.path.join(TOP, 'tests', 'program', name, file)


def sides(element):
    """Returns the left, lower, right and upper side of a rectangle of the block."""
    x, y, width, height = [int(element.get(name)) for name in ('x', 'y', 'width', 'height')]
    return x, y, x + width, y + height


class ViewCase(unittest.TestCase):
    """A test with a folder of its own, in which tools/view runs."""

    def setUp(self):
        room = tempfile.TemporaryDirectory()
        self.addCleanup(room.cleanup)
        self.room = room.name

    def path(self, name):
        return os.path.join(self.room, name)

    def write(self, name, text):
        with open(self.path(name), 'w', encoding='utf-8') as file:
            file.write(text)
        return self.path(name)

    def text(self, name):
        with open(self.path(name), encoding='utf-8') as file:
            return file.read()

    def run_view(self, *words, stdin=''):
        return subprocess.run([sys.executable, VIEW, *words], cwd=self.room, input=stdin, capture_output=True, text=True, encoding='utf-8', check=False)

    def view(self, *words, stdin=''):
        """Runs tools/view, which has to end well and say nothing on standard error."""
        done = self.run_view(*words, stdin=stdin)
        self.assertEqual((done.returncode, done.stderr), (0, ''))
        return done.stdout

    def picture(self, *words, stdin=''):
        self.view(*words, '--svg', 'picture.svg', stdin=stdin)
        return Picture(self.text('picture.svg'))

    def markers(self, *words, stdin=''):
        self.view(*words, '--markers', 'markers.lyrdb', stdin=stdin)
        return Markers(self.text('markers.lyrdb'))

    def markers_of(self, name):
        """Returns the markers of the case of tests/program with this name."""
        return self.markers(case(name, 'block.def'), case(name, 'cells.lef'), '--violations', case(name, 'stdout'))


class Picture:
    """A picture that was read."""

    def __init__(self, text):
        self.root = ElementTree.fromstring(text)

    def group(self, name):
        return self.root.find(f".//{SVG}g[@id='{name}']")

    def metal(self, layer, role):
        """Returns the sides of the metal of a role on a layer, in the order of the picture."""
        group = self.root.find(f".//{SVG}g[@data-name='{layer}']")
        found = [] if group is None else group.findall(f"{SVG}g[@class='{role}']/{SVG}rect")
        return [sides(rect) for rect in found]

    def components(self):
        return [sides(rect) for rect in self.group('components').findall(f'{SVG}rect')]

    def titles(self):
        return [title.text for title in self.root.iter(f'{SVG}title')]

    def names(self):
        return [text.text for text in self.group('names').iter(f'{SVG}text')]

    def window(self):
        return sides(self.root.find(f".//{SVG}clipPath[@id='window']/{SVG}rect"))

    def marks(self):
        """Returns for each mark its number and kind, its place, what it is between, and its gap."""
        found = []
        for mark in self.group('marks').findall(f"{SVG}g[@class='mark']"):
            rects = {which: [sides(rect) for rect in mark.findall(f"{SVG}rect[@class='{which}']")] for which in ('place', 'outline')}
            gap = mark.find(f"{SVG}path[@class='gap']")
            found.append((int(mark.get('data-number')), mark.get('data-kind'), rects['place'], rects['outline'], None if gap is None else gap.get('d')))
        return found

    def listed(self):
        return [text.text for text in self.group('violations').findall(f'{SVG}text')]

    def transform(self):
        """Returns how the block stands on the page: x, y and scale."""
        found = re.fullmatch(r'translate\((\S+) (\S+)\) scale\((\S+) -(\S+)\)', self.group('block').get('transform'))
        x, y, scale, other = [float(number) for number in found.groups()]
        assert scale == other
        return x, y, scale


class Markers:
    """A marker database that was read."""

    def __init__(self, text):
        self.root = ElementTree.fromstring(text)
        self.top = self.root.findtext('top-cell')
        self.cells = [cell.findtext('name') for cell in self.root.findall('cells/cell')]
        self.categories = [category.findtext('name') for category in self.root.findall('categories/category')]
        self.items = [(item.findtext('category'), item.findtext('cell'), [value.text for value in item.findall('values/value')])
                      for item in self.root.findall('items/item')]

    def places(self):
        """Returns for each item its category and those of its values that aren't texts."""
        return [(category, [value for value in values if not value.startswith('text: ')]) for category, _, values in self.items]


class PictureTests(ViewCase):
    """What is in a picture."""

    def test_a_legal_block(self):
        picture = self.picture(example('wired.def'), STANDARD)
        self.assertEqual(picture.components(), [(0, 0, 400, 2000), (400, 0, 800, 2000)])
        self.assertEqual(picture.metal('m1', 'pin'), [
            (50, 850, 150, 1050), (250, 850, 350, 1050), (0, 1900, 400, 2100), (0, -100, 400, 100),
            (450, 850, 550, 1050), (650, 850, 750, 1050), (400, 1900, 800, 2100), (400, -100, 800, 100)])
        self.assertEqual(picture.metal('m1', 'wire'), [(250, 850, 550, 950)])
        self.assertEqual(picture.metal('m2', 'wire'), [])
        self.assertEqual(picture.marks(), [])
        self.assertEqual(sorted(picture.names()), ['A', 'A', 'VDD', 'VDD', 'VSS', 'VSS', 'Y', 'Y', 'n1', 'r0', 'u1 INV', 'u2 INV'])
        self.assertIn('u1 Y, NET n1: m1 250 850 350 1050', picture.titles())
        self.assertIn('u1 A: m1 50 850 150 1050', picture.titles())
        self.assertIn('u1 VDD, POWER: m1 0 1900 400 2100', picture.titles())
        self.assertIn('wire 1 of n1: m1 250 850 550 950', picture.titles())
        self.assertIn('u2 INV PLACED ( 400 0 ) N', picture.titles())

    def test_the_window_of_the_whole_block_and_the_scale(self):
        # The die and the rails are 800 by 2200; the margin is 2200 / 24, rounded down: 91. The page has 640 pixels for 2382 units.
        picture = self.picture(example('wired.def'), STANDARD)
        self.assertEqual(picture.window(), (-91, -191, 891, 2191))
        x, y, scale = picture.transform()
        self.assertAlmostEqual(scale, 640 / 2382, places=6)
        self.assertAlmostEqual(x, 64 + 91 * scale, places=2)
        self.assertAlmostEqual(y, 40 + 2191 * scale, places=2)

    def test_the_usual_colours(self):
        block = self.write('block.def', 'DESIGN top ; UNITS DISTANCE MICRONS 1000 ; DIEAREA ( 0 0 ) ( 800 2000 ) ; NETS 1 ; '
                           '- n + ROUTED m1 ( 100 100 ) ( 500 100 ) V12 ( 500 900 ) ; END NETS END DESIGN')
        picture = self.picture(block, STANDARD)
        colours = {group.get('data-name'): group.get('fill') for group in picture.root.iter(f'{SVG}g') if group.get('class') == 'layer'}
        self.assertEqual(colours, {'m1': '#2457d6', 'v1': '#222222', 'm2': '#d62222'})
        self.assertEqual([text.text for text in picture.group('key').findall(f'{SVG}text')], ['m2', 'v1', 'm1'])
        self.assertEqual(picture.metal('m1', 'wire'), [(50, 50, 550, 150), (450, 50, 550, 150)])
        self.assertEqual(picture.metal('v1', 'wire'), [(450, 50, 550, 150)])
        self.assertEqual(picture.metal('m2', 'wire'), [(450, 50, 550, 150), (450, 50, 550, 950)])

    def test_obstructions_pins_of_the_design_and_tracks(self):
        picture = self.picture(example('around.def'), STANDARD, '--tracks')
        self.assertEqual(picture.metal('m1', 'obs'), [(500, 700, 700, 1200)])
        self.assertEqual([text.text for text in picture.group('key').findall(f'{SVG}text')], ['m1', 'm1 obstruction', 'component', 'fixed component', 'row'])
        paths = [path.get('d') for path in picture.group('tracks').findall(f'{SVG}path')]
        self.assertEqual(paths, [''.join(f'M{x} 0V2000' for x in range(100, 1200, 200)), ''.join(f'M0 {y}H1200' for y in range(100, 2000, 200))])
        self.assertIsNone(self.picture(example('around.def'), STANDARD, '--force').group('tracks'))
        pins = self.picture(case('check_pins_of_the_design', 'block.def'), case('check_pins_of_the_design', 'cells.lef'), '--force')
        self.assertEqual(pins.metal('m1', 'pin')[-2:], [(0, 400, 100, 500), (150, 400, 250, 500)])
        self.assertIn('PIN p, NET n1: m1 0 400 100 500', pins.titles())
        self.assertIn('PIN q: m1 150 400 250 500', pins.titles())

    def test_blockages_of_both_kinds(self):
        name = 'check_blockages_of_both_kinds'
        picture = self.picture(case(name, 'block.def'), case(name, 'cells.lef'), '--violations', case(name, 'stdout'))
        self.assertEqual(picture.metal('m1', 'blockage'), [(200, 1200, 300, 1300), (60, 400, 160, 800)])
        self.assertEqual(picture.metal('m2', 'blockage'), [(0, 0, 800, 2000)])
        group = picture.group('placement-blockages')
        self.assertEqual([sides(rect) for rect in group.findall(f'{SVG}rect')], [(650, 0, 800, 2000), (0, 0, 10, 10), (100, 0, 150, 150)])
        self.assertIn('blockage 2: m1 60 400 160 800', picture.titles())
        self.assertIn('placement blockage 4: 100 0 150 150', picture.titles())
        self.assertEqual([text.text for text in picture.group('key').findall(f'{SVG}text')], [
            'm2', 'm1', 'm1 blockage', 'm2 blockage', 'placement blockage', 'component', 'row', 'violation'])
        # (each is hatched in the colour of its layer)
        fills = {group.get('fill') for layer in picture.root.iter(f'{SVG}g') for group in layer.findall(f"{SVG}g[@class='blockage']")}
        colours = {pattern.get('id'): pattern.find(f'{SVG}rect').get('fill') for pattern in picture.root.iter(f'{SVG}pattern')}
        self.assertEqual({colours[fill[len('url(#'):-1]] for fill in fills}, {'#2457d6', '#d62222'})
        self.assertIn(group.get('fill'), {f'url(#{name})' for name in colours})
        blocked = [mark for mark in picture.marks() if mark[1] == 'BLOCKED']
        self.assertEqual(blocked, [
            (3, 'BLOCKED', [(0, 0, 150, 150)], [(0, 0, 400, 2000), (0, 0, 10, 10), (100, 0, 150, 150)], None),
            (4, 'BLOCKED', [(650, 0, 700, 2000)], [(300, 0, 700, 2000), (650, 0, 800, 2000)], None)])
        self.assertIn('3: BLOCKED u1 (u1 stands in placement blockage 4)', picture.listed())

    def test_rows_and_their_sites(self):
        picture = self.picture(example('rows.def'), STANDARD)
        self.assertEqual([sides(rect) for rect in picture.group('rows').findall(f'{SVG}rect')], [(0, 0, 1600, 2000), (0, 2000, 1600, 4000)])
        self.assertEqual(picture.group('rows').find(f'{SVG}path').get('d'), ''.join(f'M{x} 0v2000' for x in range(200, 1600, 200)))

    def test_marks_of_violations(self):
        lines = self.write('lines', UNFINISHED_LINES)
        picture = self.picture(example('unfinished.def'), STANDARD, '--violations', lines)
        self.assertEqual([text.text for text in picture.group('key').findall(f'{SVG}text')], ['m1', 'component', 'row', 'violation'])
        self.assertEqual(picture.marks(), [
            (1, 'TOONEAR', [(650, 1050, 700, 1140)], [(650, 850, 750, 1050), (600, 1140, 700, 1240)], 'M675 1050L675 1140'),
            (2, 'OPEN', [(430, 850, 450, 950)], [(450, 850, 550, 1050), (250, 850, 430, 950)], 'M450 900L430 900')])
        self.assertEqual(picture.listed(), [
            '1: TOONEAR m1 TERM u2 Y 650 850 750 1050 NET n2 600 1140 700 1240 (90 apart, 100 wanted)',
            '2: OPEN n1 u2 A (20 from u2 A to WIRE 1; 1 piece here, 2 there)'])
        self.assertEqual([text.text for text in picture.group('mark-numbers').findall(f'{SVG}text')], ['1', '90', '2', '20'])

    def test_the_surroundings_of_a_violation(self):
        # The gap is 50 by 90, so 5 units more stand left and right, and five widths of m1 around.
        lines = self.write('lines', UNFINISHED_LINES)
        picture = self.picture(example('unfinished.def'), STANDARD, '--violations', lines, '--around', '1')
        self.assertEqual(picture.window(), (145, 550, 1205, 1640))
        self.assertEqual(picture.metal('m1', 'pin'), [(50, 850, 150, 1050), (250, 850, 350, 1050), (450, 850, 550, 1050), (650, 850, 750, 1050)])
        self.assertEqual(picture.metal('m1', 'wire'), [(250, 850, 430, 950), (600, 1140, 700, 1240)])
        self.assertEqual([mark[:2] for mark in picture.marks()], [(1, 'TOONEAR'), (2, 'OPEN')])
        self.assertEqual(picture.root.findtext(f'{SVG}title'), 'top: violation 1 of 2')
        near = self.picture(example('unfinished.def'), STANDARD, '--violations', lines, '--around', '1', '--margin', '30', '--force')
        self.assertEqual(near.window(), (615, 1020, 735, 1170))
        self.assertEqual(near.metal('m1', 'pin'), [(650, 850, 750, 1050)])
        self.assertEqual([mark[:2] for mark in near.marks()], [(1, 'TOONEAR')])

    def test_a_violation_without_a_place_is_shown_with_the_whole_block(self):
        name = 'check_an_unplaced_terminal'
        words = case(name, 'block.def'), case(name, 'cells.lef'), '--violations', case(name, 'stdout')
        picture = self.picture(*words, '--around', '1')
        self.assertEqual(picture.window(), self.picture(*words, '--force').window())
        self.assertEqual(picture.listed()[0], '1: UNPLACED u2 (u2 has no place)')
        self.assertEqual([mark[0] for mark in picture.marks()], [2])

    def test_a_place_that_is_one_point_gets_a_ring(self):
        name = 'check_a_short'
        picture = self.picture(case(name, 'block.def'), case(name, 'cells.lef'), '--violations', case(name, 'stdout'))
        self.assertEqual(picture.marks(), [(1, 'SHORT', [(300, 450, 300, 450)], [(100, 350, 300, 450), (300, 450, 500, 550)], None)])
        ring = picture.group('marks').find(f".//{SVG}rect[@class='ring']")
        middle = float(ring.get('x')) + float(ring.get('width')) / 2, float(ring.get('y')) + float(ring.get('height')) / 2
        self.assertAlmostEqual(middle[0], 300, places=2)
        self.assertAlmostEqual(middle[1], 450, places=2)

    def test_each_block_of_the_cases_of_the_program_is_drawn(self):
        drawn = 0
        for name in narrow_cases():
            if not all(os.path.exists(case(name, file)) for file in ('block.def', 'cells.lef', 'stdout')):
                continue
            with open(case(name, 'stdout'), encoding='utf-8') as file:
                refused = file.read().startswith(('REFUSED', 'SCALE'))
            if not refused:
                drawn += 1
                with self.subTest(case=name):
                    picture = self.picture(case(name, 'block.def'), case(name, 'cells.lef'), '--tracks', '--force')
                    self.assertEqual(len([title for title in picture.titles() if title == 'die']), 1)
        self.assertGreater(drawn, 50)

    def test_names_that_xml_and_markers_have_to_quote(self):
        block = self.write('block.def', 'DESIGN a<b ; UNITS DISTANCE MICRONS 1000 ; DIEAREA ( 0 0 ) ( 800 2000 ) ; COMPONENTS 2 ; '
                           '- u&1\'" INV + PLACED ( 0 0 ) N ; - \\x\x01> INV + PLACED ( 1 0 ) N ; END COMPONENTS END DESIGN')
        lines = self.write('lines', 'OVERLAP u&1\'" \\x\x01>\nviolations 1\n')
        picture = self.picture(block, STANDARD, '--violations', lines)
        self.assertIn('u&1\'" INV', picture.names())
        self.assertIn('1: OVERLAP u&1\'" \\x\ufffd> (they share 399 by 2000)', picture.listed())
        markers = self.markers(block, STANDARD, '--violations', lines)
        self.assertEqual((markers.top, markers.cells), ('a<b', ['a<b']))
        self.assertEqual(markers.items[0][2][1], 'text: \'OVERLAP u&1\\\'" \\\\x\ufffd>\'')

    def test_names_of_any_bytes(self):
        text = (b'DESIGN \xe4 ; UNITS DISTANCE MICRONS 1000 ; DIEAREA ( 0 0 ) ( 800 2000 ) ; COMPONENTS 2 ; '
                b'- u\xff INV + PLACED ( 0 0 ) N ; - \xc3\xa4 INV + PLACED ( 1 0 ) N ; END COMPONENTS END DESIGN')
        for name, data in (('block.def', text), ('lines', b'OVERLAP u\xff \xc3\xa4\nviolations 1\n'), ('other', b'OVERLAP u\xfe \xc3\xa4\nviolations 1\n')):
            with open(self.path(name), 'wb') as file:
                file.write(data)
        picture = self.picture(self.path('block.def'), STANDARD, '--violations', 'lines')
        self.assertIn('1: OVERLAP u\ufffd \xe4 (they share 399 by 2000)', picture.listed())
        self.assertEqual(self.markers(self.path('block.def'), STANDARD, '--violations', 'lines').cells, ['\ufffd'])
        done = self.run_view(self.path('block.def'), STANDARD, '--violations', 'other', '--svg', 'x.svg')
        self.assertEqual(done.returncode, 2)
        self.assertIn('other:1: there is no component u\\udcfe', done.stderr)

    def test_a_block_of_277000_shapes(self):
        subprocess.run([os.path.join(TOP, 'bench', 'metal', 'make'), self.room, '34750', '250'], check=True)
        text = self.text('block.def').replace('- u100_50 INV + PLACED ( 20000 200000 )', '- u100_50 INV + PLACED ( 20020 200000 )')
        block = self.write('moved.def', text)
        lines = self.write('lines', 'OFFSITE u100_50\nOVERLAP u100_50 u100_51\nviolations 2\n')
        began = time.monotonic()
        picture = self.picture(block, self.path('cells.lef'), '--violations', lines, '--around', '2')
        self.assertLess(time.monotonic() - began, 20)
        self.assertEqual(picture.window(), (20400 - 1000 - 656, 199000, 20420 + 1000 + 656, 203000))
        self.assertEqual([mark[:3] for mark in picture.marks()], [(1, 'OFFSITE', [(20020, 200000, 20420, 202000)]), (2, 'OVERLAP', [(20400, 200000, 20420, 202000)])])
        # Nine cells of three rows are seen, all of one row and the near parts of those below and above.
        self.assertEqual(len(picture.components()), 30)
        whole = self.picture(block, self.path('cells.lef'), '--violations', lines, '--force')
        drawn = sum(path.get('d').count('M') for path in whole.root.iter(f'{SVG}path') if path.get('class') in ('pin', 'wire', 'obs'))
        self.assertEqual(drawn, 277000)
        self.assertLessEqual(max(path.get('d').count('M') for path in whole.root.iter(f'{SVG}path')), MOST_IN_PATH)


class MarkerTests(ViewCase):
    """What is in a marker database, and where violations lie; coordinates are worked by hand."""

    def test_categories_items_and_the_cell(self):
        lines = self.write('lines', UNFINISHED_LINES)
        markers = self.markers(example('unfinished.def'), STANDARD, '--violations', lines)
        self.assertEqual((markers.top, markers.cells, markers.categories), ('top', ['top'], ['TOONEAR', 'OPEN']))
        self.assertEqual(markers.items, [
            ('TOONEAR', 'top', ['box: (0.65,1.05;0.7,1.14)', 'edge: (0.675,1.05;0.675,1.14)',
                                "text: 'TOONEAR m1 TERM u2 Y 650 850 750 1050 NET n2 600 1140 700 1240'", "text: '90 apart, 100 wanted'"]),
            ('OPEN', 'top', ['box: (0.43,0.85;0.45,0.95)', 'edge: (0.45,0.9;0.43,0.9)', "text: 'OPEN n1 u2 A'",
                             "text: '20 from u2 A to WIRE 1; 1 piece here, 2 there'"])])

    def test_where_components_stand(self):
        self.assertEqual(self.markers_of('kinds_stand_in_order').places(), [
            ('UNPLACED', []), ('OUTSIDE', ['box: (0.798,0;1.198,2)']), ('OFFSITE', ['box: (0.399,0;0.799,2)']), ('OFFSITE', ['box: (0.798,0;1.198,2)']),
            ('OVERLAP', ['box: (0.399,0;0.4,2)']), ('OVERLAP', ['box: (0.798,0;0.799,2)'])])

    def test_turned_components(self):
        self.assertEqual(self.markers_of('turned_components').places(), [('OUTSIDE', ['box: (0.4,0.4;2.4,0.8)']), ('OVERLAP', ['box: (1.6,0.4;2,0.8)'])])

    def test_shorts(self):
        self.assertEqual(self.markers_of('check_a_short').places(), [('SHORT', ['box: (0.3,0.45;0.3,0.45)'])])

    def test_shorts_with_supplies_and_obstructions(self):
        self.assertEqual(self.markers_of('check_whose_metal_it_is').places(), [
            ('SHORT', ['box: (0.1,1.95;0.3,2.05)']), ('SHORT', ['box: (0.1,-0.05;0.3,0.05)']), ('SHORT', ['box: (0.55,0.75;0.65,0.85)'])])

    def test_corners_that_are_too_near(self):
        markers = self.markers_of('check_shapes_too_near')
        self.assertEqual(markers.places(), [('TOONEAR', ['box: (0.3,0.45;0.36,0.529)', 'edge: (0.3,0.45;0.36,0.529)'])])
        self.assertEqual(markers.items[0][2][-1], "text: '99.2 apart, 100 wanted'")

    def test_pins_that_are_too_near(self):
        self.assertEqual(self.markers_of('check_all_kinds_in_order').places(), [
            ('OFFSITE', ['box: (0.399,0;0.799,2)']), ('OVERLAP', ['box: (0.399,0;0.4,2)']),
            ('TOONEAR', ['box: (0.35,0.85;0.449,1.05)', 'edge: (0.35,0.95;0.449,0.95)'])])

    def test_components_in_placement_blockages(self):
        markers = self.markers_of('kinds_stand_in_order_with_placement_blockages')
        self.assertEqual(markers.categories, ['UNPLACED', 'OUTSIDE', 'OFFSITE', 'OVERLAP', 'BLOCKED'])
        self.assertEqual(markers.places()[-2:], [('BLOCKED', ['box: (0,0;0.002,0.002)']), ('BLOCKED', ['box: (0.7,0;0.799,2)'])])
        self.assertEqual(markers.items[-2][2][1:], ["text: 'BLOCKED u1'", "text: 'u1 stands in placement blockage 2'"])

    def test_blockages_that_metal_is_too_near_to(self):
        self.assertEqual(self.markers_of('check_a_layer_blockage_too_near').places(), [
            ('TOONEAR', ['box: (0.35,0.85;0.38,1)', 'edge: (0.35,0.925;0.38,0.925)']),
            ('TOONEAR', ['box: (0.42,0.85;0.45,1)', 'edge: (0.45,0.925;0.42,0.925)']),
            ('OPEN', ['box: (0.35,0.85;0.45,1.05)', 'edge: (0.45,0.95;0.35,0.95)'])])

    def test_an_open_pin_of_a_component(self):
        self.assertEqual(self.markers_of('check_an_open_net').places(), [('OPEN', ['box: (0.35,0.85;0.45,1.05)', 'edge: (0.45,0.95;0.35,0.95)'])])

    def test_an_open_pin_of_the_design(self):
        self.assertEqual(self.markers_of('check_pins_of_the_design').places(), [
            ('TOONEAR', ['box: (0.1,0.4;0.15,0.5)', 'edge: (0.1,0.45;0.15,0.45)']), ('OPEN', ['box: (0.05,0.5;0.1,0.85)', 'edge: (0.075,0.5;0.075,0.85)'])])

    def test_open_wires_that_share_one_corner(self):
        for name, box in (('check_a_bare_corner', 'box: (0.25,0.45;0.25,0.45)'), ('check_one_bare_corner_of_two_rectangles', 'box: (0.1,0.1;0.1,0.1)')):
            markers = self.markers_of(name)
            self.assertEqual(markers.places(), [('OPEN', [box])])
            self.assertIn('shares one point alone with', markers.items[0][2][-1])
            os.remove(self.path('markers.lyrdb'))

    def test_pieces_that_are_joined_to_one_another_have_one_mark(self):
        # The wires 2 and 3 are joined, and the nearest metal of the other part is 200 from them.
        block = self.write('block.def', 'DESIGN top ; UNITS DISTANCE MICRONS 1000 ; DIEAREA ( 0 0 ) ( 2000 2000 ) ; COMPONENTS 1 ; '
                           '- u1 INV + PLACED ( 0 0 ) N ; END COMPONENTS NETS 1 ; - n ( u1 Y ) + ROUTED m1 ( 300 1000 ) ( 400 1000 ) '
                           'NEW m1 ( 700 1000 ) ( 1000 1000 ) ( 1000 1500 ) ; END NETS END DESIGN')
        lines = self.write('lines', 'OPEN n WIRE 2\nOPEN n WIRE 3\nviolations 2\n')
        markers = self.markers(block, STANDARD, '--violations', lines)
        self.assertEqual(markers.places(), [('OPEN', ['box: (0.45,0.95;0.65,1.05)', 'edge: (0.65,1;0.45,1)'])])
        self.assertEqual(markers.items[0][2][-2:], ["text: 'OPEN n WIRE 2'", "text: '200 from WIRE 2 to WIRE 1; 2 pieces here, 2 there'"])
        # (each of the two lines leads to the gap)
        windows = [self.picture(block, STANDARD, '--violations', lines, '--around', number, '--force').window() for number in ('1', '2')]
        self.assertEqual(windows, [(450 - 500, 950 - 500 - 16, 650 + 500, 1050 + 500 + 16)] * 2)

    def test_a_mark_for_each_joint_that_a_net_needs(self):
        # Four wires one above the other, 100, 300 and 200 apart, and one on m2 over the highest one.
        wires = ' NEW '.join(f'm1 ( 500 {y} ) ( 900 {y} )' for y in (100, 300, 700, 1000)) + ' NEW m2 ( 700 1000 ) ( 700 1300 )'
        block = self.write('block.def', 'DESIGN top ; UNITS DISTANCE MICRONS 1000 ; DIEAREA ( 0 0 ) ( 2000 2000 ) ; '
                           f'NETS 1 ; - n + ROUTED {wires} ; END NETS END DESIGN')
        lines = self.write('lines', ''.join(f'OPEN n WIRE {wire}\n' for wire in range(2, 6)) + 'violations 4\n')
        markers = self.markers(block, STANDARD, '--violations', lines)
        self.assertEqual([item[2][-1] for item in markers.items], [
            "text: '100 from WIRE 2 to WIRE 1; 1 piece here, 1 there'", "text: '300 from WIRE 3 to WIRE 2; 1 piece here, 1 there'",
            "text: '200 from WIRE 4 to WIRE 3; 1 piece here, 1 there'", "text: 'WIRE 5 over WIRE 4 on another layer; 1 piece here, 1 there'"])
        self.assertEqual(markers.places()[-1], ('OPEN', ['box: (0.65,0.95;0.75,1.05)']))

    def test_a_component_is_so_far_off_its_sites(self):
        # A row of six sites of 200, where an INV takes two, and one above it, in which no cell is N.
        def words(place, rows='ROW r0 core 1000 0 N DO 6 BY 1 STEP 200 0 ; ROW r1 core 1000 2000 FS DO 6 BY 1 STEP 200 0 ;'):
            block = self.write('block.def', f'DESIGN top ; UNITS DISTANCE MICRONS 1000 ; DIEAREA ( 0 0 ) ( 9000 9000 ) ; {rows} COMPONENTS 1 ; '
                               f'- u1 INV + PLACED {place} ; END COMPONENTS END DESIGN')
            lines = self.write('lines', 'OFFSITE u1\nviolations 1\n')
            return self.markers(block, STANDARD, '--violations', lines, '--force').items[0][2][-1][len("text: '"):-1]

        self.assertEqual(words('( 1430 70 ) N'), '30 right of a site of r0, 70 above it')
        self.assertEqual(words('( 1350 -5 ) N'), '50 left of a site of r0, 5 below it')
        self.assertEqual(words('( 1400 70 ) FN'), '70 above r0')
        self.assertEqual(words('( 1430 0 ) N'), '30 right of a site of r0')
        self.assertEqual(words('( 2100 0 ) N'), '300 right of the end of r0')
        self.assertEqual(words('( 700 10 ) N'), '300 left of the end of r0, 10 above it')
        self.assertEqual(words('( 1400 2000 ) N'), 'r1 is FS, which N does not fit')
        self.assertEqual(words('( 1410 1990 ) N'), '10 right of a site of r1, 10 below it; r1 is FS, which N does not fit')
        self.assertEqual(words('( 1400 0 ) W'), 'it is 400 high, and the site core is 2000')
        self.assertEqual(words('( 0 0 ) N', ''), 'no row has the site core')
        self.assertEqual(words('( 0 0 ) N', 'ROW r core 0 0 N DO 1 BY 1 STEP 200 0 ;'), 'it is 400 wide, and no row of its site is as long')

    def test_metal_over_metal_on_another_layer(self):
        block = self.write('block.def', 'DESIGN top ; UNITS DISTANCE MICRONS 1000 ; DIEAREA ( 0 0 ) ( 2000 2000 ) ; NETS 1 ; '
                           '- n + ROUTED m1 ( 300 1000 ) ( 400 1000 ) NEW m2 ( 400 1000 ) ( 400 1500 ) ; END NETS END DESIGN')
        lines = self.write('lines', 'OPEN n WIRE 2\nviolations 1\n')
        markers = self.markers(block, STANDARD, '--violations', lines)
        self.assertEqual(markers.places(), [('OPEN', ['box: (0.35,0.95;0.45,1.05)'])])
        self.assertEqual(markers.items[0][2][-1], "text: 'WIRE 2 over WIRE 1 on another layer; 1 piece here, 1 there'")

    def test_a_distance_is_rounded_down(self):
        # The corners are 14 and 99 apart, 99.98 in all.
        block = self.write('block.def', 'DESIGN top ; UNITS DISTANCE MICRONS 1000 ; DIEAREA ( 0 0 ) ( 2000 2000 ) ; SPECIALNETS 2 ; '
                           '- a + ROUTED m1 100 ( 100 400 ) ( 300 400 ) ; - b + ROUTED m1 100 ( 314 599 ) ( 500 599 ) ; END SPECIALNETS END DESIGN')
        lines = self.write('lines', 'TOONEAR m1 NET a 100 350 300 450 NET b 314 549 500 649\nviolations 1\n')
        markers = self.markers(block, STANDARD, '--violations', lines)
        self.assertEqual(markers.places(), [('TOONEAR', ['box: (0.3,0.45;0.314,0.549)', 'edge: (0.3,0.45;0.314,0.549)'])])
        self.assertEqual(markers.items[0][2][-1], "text: '99.9 apart, 100 wanted'")

    def test_an_open_piece_without_metal_lies_where_its_net_does(self):
        markers = self.markers_of('check_an_unplaced_terminal')
        self.assertEqual(markers.places(), [('UNPLACED', []), ('OPEN', ['box: (0.25,0.85;0.35,1.05)'])])
        self.assertEqual(markers.items[1][2][-1], "text: 'u2 A has no metal'")

    def test_a_wire_of_special_nets_is_counted_behind_those_of_nets(self):
        block = self.write('block.def', 'DESIGN top ; UNITS DISTANCE MICRONS 2000 ; DIEAREA ( 0 0 ) ( 9000 9000 ) ; '
                           'SPECIALNETS 1 ; - n + ROUTED m1 100 ( 5000 5000 ) ( 6000 5000 ) ; END SPECIALNETS '
                           'NETS 1 ; - n + ROUTED m1 ( 1000 1000 ) ( 2000 1000 ) ( 2000 2000 ) ; END NETS END DESIGN')
        lines = self.write('lines', 'OPEN n WIRE 3\nviolations 1\n')
        markers = self.markers(block, STANDARD, '--violations', lines)
        # The nearest points are (5000, 4950) and (2100, 2100) in database units: widths are 100 and 200, ends reach past by 0 and 100.
        self.assertEqual(markers.places(), [('OPEN', ['box: (1.05,1.05;2.5,2.475)', 'edge: (2.5,2.475;1.05,1.05)'])])

    def test_a_list_without_violations_gives_a_database_without_items(self):
        markers = self.markers(example('wired.def'), STANDARD, '--violations', '-', stdin='legal\n')
        self.assertEqual((markers.top, markers.categories, markers.items), ('top', [], []))

    @staticmethod
    def marks_of(name):
        design = read_design(case(name, 'block.def'), read_library([case(name, 'cells.lef')]))
        return Finder(design, case(name, 'stdout'), read_violations(case(name, 'stdout'))).marks()

    def test_each_list_of_the_cases_of_the_program(self):
        tried = 0
        for name in narrow_cases():
            if not all(os.path.exists(case(name, file)) for file in ('block.def', 'cells.lef', 'stdout', 'words')):
                continue
            with open(case(name, 'stdout'), encoding='utf-8') as file:
                lines = file.read().splitlines()
            if lines and re.fullmatch('violations [0-9]+|NOTCLEAN [0-9]+|FIXEDILLEGAL [0-9]+', lines[-1]):
                tried += 1
                with self.subTest(case=name):
                    markers = self.markers_of(name)
                    os.remove(self.path('markers.lyrdb'))
                    kinds, found = [line.split(' ')[0] for line in lines[:-1]], [category for category, _, _ in markers.items]
                    self.assertEqual([kind for kind in found if kind != 'OPEN'], [kind for kind in kinds if kind != 'OPEN'])
                    self.assertEqual(markers.categories, list(dict.fromkeys(kinds)))
                    # (each line is that of one item, and the items of OPEN are as many as the pieces that are not joined to one another)
                    marks = self.marks_of(name)
                    self.assertEqual(sorted(number for mark in marks for number in mark.numbers), list(range(1, len(kinds) + 1)))
                    self.assertEqual([mark.violation.kind for mark in marks], found)
                    self.assertEqual([mark.violation.text for mark in marks], [lines[mark.number - 1] for mark in marks])
        self.assertGreater(tried, 15)


class RefusalTests(ViewCase):
    """Bad input gets a message with the file and the line, on standard error, and a status above 0; nothing is written."""

    def refused(self, status, message, *words, stdin=''):
        before = sorted(os.listdir(self.room))
        done = self.run_view(*words, stdin=stdin)
        self.assertEqual((done.returncode, done.stdout), (status, ''))
        self.assertIn(message, done.stderr)
        self.assertNotIn('Traceback', done.stderr)
        self.assertEqual(sorted(os.listdir(self.room)), before)

    def test_bad_lefs(self):
        for text, line, why in (
                ('LAYER m1 TYPE ROUTING ;\nWIDTH 0.1 ;\nEND m1\n', 3, 'routing layer m1 needs a DIRECTION and a WIDTH'),
                ('LAYER m1 TYPE ROUTING ;\nDIRECTION VERTICAL ; WIDTH 1e3 ;\nEND m1\n', 2, 'a length of at most six decimals was expected, not 1e3'),
                ('MACRO a SIZE 1 BY 1 ;\nOBS LAYER m9 ;\nEND END a\n', 2, 'there is no layer m9'),
                ('MACRO a\nSIZE 1 BY', 2, 'the text ends too early'),
                ('VERSION "5.8 ;\n', 1, 'a quoted word is not closed'),
                ('LAYER m1 TYPE CUT ; END m1\nLAYER m1 TYPE CUT ; END m1\n', 2, 'layer m1 is defined twice')):
            with self.subTest(text=text):
                bad = self.write('bad.lef', text)
                self.refused(2, f'{bad}:{line}: {why}', example('wired.def'), STANDARD if 'm9' in text else bad, bad, '--svg', 'x.svg')

    def test_bad_defs(self):
        head = 'DESIGN top ; UNITS DISTANCE MICRONS 1000 ;\nDIEAREA ( 0 0 ) ( 800 2000 ) ;\n'
        for text, line, why in (
                (head + 'COMPONENTS 1 ;\n- u1 NAND + PLACED ( 0 0 ) N ;\n', 4, 'there is no macro NAND'),
                (head + 'COMPONENTS 1 ;\n- u1 INV + PLACED ( 0 zero ) N ;\n', 4, 'a whole number was expected, not zero'),
                (head + 'COMPONENTS 2 ;\n- u1 INV ;\n- u1 INV ;\n', 5, 'component u1 appears twice'),
                (head + 'NETS 1 ;\n- n ( u1 A ) ;\nEND NETS\n', 4, 'there is no component u1'),
                (head + 'NETS 1 ;\n- n + ROUTED m1 ( 0 0 )\n( 9 9 ) ;\nEND NETS\n', 5, 'neither horizontal nor vertical'),
                (head + 'NETS 1 ;\n- n + ROUTED m2 ( 0 0 ) V99 ;\n', 4, 'there is no via V99'),
                (head + 'BLOCKAGES 1 ;\n- PLACEMENT\n+ SOFT RECT ( 0 0 ) ( 1 1 ) ;\n', 5, 'SOFT of a blockage is not supported'),
                (head + 'BLOCKAGES 1 ;\n- PLACEMENT ;\n', 4, 'RECT was expected, not ;'),
                (head + 'ROW r core 0 0 W ;\n', 3, 'a row of orientation W is not supported'),
                (head, 2, 'the text ends too early'),
                ('DESIGN top ;\nEND DESIGN\n', 2, 'UNITS DISTANCE MICRONS is missing')):
            with self.subTest(text=text):
                bad = self.write('bad.def', text)
                self.refused(2, f'{bad}:{line}: ', bad, STANDARD, '--svg', 'x.svg')
                self.refused(2, why, bad, STANDARD, '--svg', 'x.svg')

    def test_the_word_at_fault(self):
        head = 'DESIGN top ; UNITS DISTANCE MICRONS 1000 ;\nDIEAREA ( 0 0 ) ( 800 2000 ) ;\n'
        bad = self.write('bad.def', head + 'BLOCKAGES 1 ;\n- PLACEMENT\n+ SOFT RECT ( 0 0 ) ( 1 1 ) ;\n')
        self.refused(2, f'{bad}:5: SOFT of a blockage is not supported\n', bad, STANDARD, '--svg', 'x.svg')
        bad = self.write('bad.def', head + 'NETS 1 ;\n- n + ROUTED m1 ( 0 0 )\n( 9 9 ) ;\n')
        self.refused(2, 'neither horizontal nor vertical, at (\n', bad, STANDARD, '--svg', 'x.svg')

    def test_lists_that_are_none(self):
        for text, line, why in (
                ('OFFSITE u2\n', 1, 'the list ends without its last line'),
                ('OFFSITE u2\nviolations 2\n', 2, '2 violations are counted, and 1 listed'),
                ('REFUSED 1 8 UnexpectedEnd\n', 1, 'this is no line of a list of violations: REFUSED 1 8 UnexpectedEnd'),
                ('legal\nlegal\n', 2, 'nothing may follow legal')):
            with self.subTest(text=text):
                lines = self.write('lines', text)
                self.refused(2, f'{lines}:{line}: {why}', example('unfinished.def'), STANDARD, '--violations', lines, '--svg', 'x.svg')

    def test_lists_of_another_block(self):
        for line, why in (
                ('OFFSITE u9', 'there is no component u9'),
                ('UNPLACED u2', 'component u2 is placed'),
                ('OVERLAP u1 u2', 'the two components do not overlap'),
                ('BLOCKED u2', 'u2 is in no placement blockage'),
                ('TOONEAR m1 TERM u2 Y 650 850 750 1050 BLOCKAGE 1 600 1140 700 1240', 'there is no metal of BLOCKAGE 1'),
                ('TOONEAR m1 TERM u2 Y 650 850 750 1050 NET n2 600 1141 700 1240', 'there is no metal of NET n2 with the sides 600 1141 700 1240 on m1'),
                ('TOONEAR m1 TERM u2 A 650 850 750 1050 NET n2 600 1140 700 1240', 'there is no metal of TERM u2 A'),
                ('TOONEAR m2 TERM u2 Y 650 850 750 1050 NET n2 600 1140 700 1240', 'on m2'),
                ('SHORT m1 TERM u2 Y 650 850 750 1050 NET n2 600 1140 700 1240', 'the two shapes share no point'),
                ('TOONEAR m1 TERM u1 A 50 850 150 1050 TERM u2 Y 650 850 750 1050', 'the two shapes are 500 apart, and the spacing of m1 is 100'),
                ('OFFSITE u1', 'u1 is on its sites'),
                ('OPEN n2 WIRE 1', 'there is no net n2 in NETS'),
                ('OPEN n1 WIRE 2', 'net n1 has no piece WIRE 2'),
                ('OPEN n1 u2 Y', 'net n1 has no piece u2 Y'),
                ('OPEN n1 WIRE 1', 'WIRE 1 is joined to u1 Y')):
            with self.subTest(line=line):
                lines = self.write('lines', f'OPEN n1 u2 A\n{line}\nviolations 2\n')
                self.refused(2, f'{lines}:2: ', example('unfinished.def'), STANDARD, '--violations', lines, '--markers', 'x.lyrdb')
                self.refused(2, why, example('unfinished.def'), STANDARD, '--violations', lines, '--markers', 'x.lyrdb')

    def test_a_fixed_component_is_never_blocked(self):
        name = 'a_fixed_component_in_a_placement_blockage'
        lines = self.write('lines', 'BLOCKED u1\nviolations 1\n')
        self.refused(2, f'{lines}:1: u1 may not be moved', case(name, 'block.def'), STANDARD, '--violations', lines, '--svg', 'x.svg')

    def test_a_number_that_no_violation_has(self):
        lines = self.write('lines', UNFINISHED_LINES)
        for number in ('0', '3', '-1'):
            self.refused(2, f'{lines}:3: 2 violations are listed, and none has the number {number}',
                         example('unfinished.def'), STANDARD, '--violations', lines, f'--around={number}', '--svg', 'x.svg')

    def test_texts_that_lefdef_refuses_are_refused_at_the_same_line(self):
        tried = 0
        for name in narrow_cases():
            if not all(os.path.exists(case(name, file)) for file in ('stdout', 'words')) or os.path.exists(case(name, 'make')):
                continue
            with open(case(name, 'stdout'), encoding='utf-8') as file:
                answer = file.read().split()
            if answer[:1] == ['REFUSED']:
                with open(case(name, 'words'), encoding='utf-8') as file:
                    command, *paths = file.read().split()
                if command.startswith('--'):
                    continue  # (the tool takes no options of the program)
                count = 2 if command == 'compare' else 1
                blocks, libraries = ([case(name, path) for path in part] for part in (paths[:count], paths[count:]))
                block = blocks[max(int(answer[1]) - len(libraries), 0)]
                tried += 1
                with self.subTest(case=name):
                    self.refused(2, f'{[*libraries, *blocks][int(answer[1])]}:{answer[2]}: ', block, *libraries, '--svg', 'x.svg')
        self.assertGreater(tried, 4)

    def test_files_that_are_not_there(self):
        self.refused(5, 'cannot read none.def: No such file', 'none.def', STANDARD, '--svg', 'x.svg')
        self.refused(5, 'cannot read none.lef: No such file', example('wired.def'), STANDARD, 'none.lef', '--svg', 'x.svg')
        self.refused(5, 'cannot read none: No such file', example('wired.def'), STANDARD, '--violations', 'none', '--svg', 'x.svg')
        self.refused(5, f'cannot read {self.room}: Is a directory', self.room, STANDARD, '--svg', 'x.svg')
        self.refused(5, 'cannot write none/x.svg: No such file', example('wired.def'), STANDARD, '--svg', 'none/x.svg')

    def test_words_that_say_nothing(self):
        wired = example('wired.def'), STANDARD
        for words, why in (
                ((), 'the following arguments are required'), (wired, 'nothing is asked'), ((*wired, '--markers', 'x'), 'need --violations'),
                ((*wired, '--svg', 'x', '--around', '1'), 'need --violations'), ((*wired, '--svg', 'x', '--margin', '9'), '--margin needs --around'),
                ((*wired, '--violations', '-', '--markers', 'x', '--around', '1'), '--around needs --svg'),
                ((*wired, '--violations', '-', '--svg', 'x', '--markers', 'x'), 'name one file'),
                ((*wired, '--violations', '-', '--svg', 'x', '--markers', './x'), 'name one file'),
                ((*wired, '--violations', '-', '--svg', '-', '--markers', '-'), 'name one file'),
                ((*wired, '--violations', '-', '--svg', 'x', '--around', 'first'), 'invalid int value'),
                ((*wired, '--violations', '-', '--svg', 'x', '--around', '1', '--margin', '0'), 'above 0'), ((*wired, '--draw'), '--draw')):
            with self.subTest(words=words):
                self.refused(64, why, *words)


class OutputTests(ViewCase):
    """What is written, and what isn't overwritten."""

    def test_help(self):
        text = self.view('--help')
        for word in ('--svg', '--markers', '--violations', '--around', '--force', 'DEF', 'LEF', 'Exit status'):
            self.assertIn(word, text)

    def test_standard_input_and_output(self):
        text = self.view(example('unfinished.def'), STANDARD, '--violations', '-', '--svg', '-', stdin=UNFINISHED_LINES)
        self.assertEqual(len(Picture(text).marks()), 2)
        text = self.view(example('unfinished.def'), STANDARD, '--violations', '-', '--markers', '-', stdin=UNFINISHED_LINES)
        self.assertEqual(len(Markers(text).items), 2)

    def test_a_file_that_is_there_is_overwritten_only_when_asked(self):
        self.write('x.svg', 'mine')
        done = self.run_view(example('wired.def'), STANDARD, '--svg', 'x.svg')
        self.assertEqual((done.returncode, done.stderr), (5, 'x.svg exists already; with --force it is overwritten\n'))
        self.assertEqual(self.text('x.svg'), 'mine')
        self.view(example('wired.def'), STANDARD, '--svg', 'x.svg', '--force')
        self.assertEqual(len(Picture(self.text('x.svg')).components()), 2)

    def test_neither_file_is_written_where_one_is_there(self):
        self.write('x.lyrdb', 'mine')
        lines = self.write('lines', UNFINISHED_LINES)
        done = self.run_view(example('unfinished.def'), STANDARD, '--violations', lines, '--svg', 'x.svg', '--markers', 'x.lyrdb')
        self.assertEqual(done.returncode, 5)
        self.assertEqual((os.path.exists(self.path('x.svg')), self.text('x.lyrdb')), (False, 'mine'))

    def test_a_text_that_is_read_is_never_overwritten(self):
        with open(example('wired.def'), encoding='utf-8') as file:
            text = file.read()
        block = self.write('wired.def', text)
        os.link(block, self.path('other.svg'))
        for path in ('wired.def', block, 'other.svg'):
            done = self.run_view('wired.def', STANDARD, '--svg', path, '--force')
            self.assertEqual((done.returncode, done.stderr), (5, f'{path} is read: it is not overwritten\n'))
            self.assertEqual(self.text('wired.def'), text)


if __name__ == '__main__':
    unittest.main()
