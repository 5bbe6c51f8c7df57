"""Tests of the tools in the wide profile: what they read of the cases of the program, and the options."""
import os
import random
import subprocess
import sys
import tempfile
import unittest

sys.path.insert(0, os.path.dirname(os.path.abspath(__file__)))

from doctored import TOP, script
from refused_forms import BLOCK, COMB, PIN_RECT, TECHNOLOGY, WIDE_FORMS, WIDE_LEF_FORMS, WIDE_RULES

refused = script('tools/refused')
judged = script('tools/judged')

from lefdef_text import NARROW, Profile, Refused, read_design, read_library  # noqa: E402
from lefdef_text.polygon import slabs_of  # noqa: E402

CASES = os.path.join(TOP, 'tests', 'program')
STANDARD = os.path.join(TOP, 'examples', 'standard.lef')
WIDE = Profile(is_wide=True)


def words_of(case):
    with open(os.path.join(CASES, case, 'words'), encoding='utf-8') as file:
        return file.read().splitlines()


def metal(design):
    """Returns what of a design a plain text says too."""
    return (design.rows, design.tracks, design.blockages, list(design.shapes()), {name: via.shapes for name, via in design.vias.items()},
            {name: [port.shapes for port in pin.ports] for name, pin in design.pins.items()},
            [(net.name, net.wires) for entries in (design.nets, design.special) for net in entries.values()])


class CaseTests(unittest.TestCase):
    """The cases in which the program compares a wide text with a plain one: the readers give the two the same meaning."""

    def test_wide_texts_mean_what_plain_ones_do(self):
        found = 0
        self.addCleanup(os.chdir, os.getcwd())
        for case in sorted(os.listdir(CASES)):
            if not os.path.isfile(os.path.join(CASES, case, 'wide.def')):
                continue
            options, files = split(words_of(case))
            os.chdir(os.path.join(CASES, case))
            with self.subTest(case=case):
                profile = Profile(True, '--masks' in options, dict(zip(options, options[1:])).get('--soft'))
                self.assertEqual(profile.options(), options)
                library = read_library(files[2:], profile)
                self.assertEqual(metal(read_design(files[0], library, profile)), metal(read_design(files[1], library)))
                with self.assertRaises(Refused):
                    read_design(files[0], library)
            found += 1
        self.assertGreater(found, 15)


def split(words):
    """Returns the options and the files of a line that compares two designs."""
    at = words.index('compare')
    return words[:at], words[at + 1:]


class Room(unittest.TestCase):
    """A test with a folder of its own, in which it works."""

    def setUp(self):
        room = tempfile.TemporaryDirectory()
        self.addCleanup(room.cleanup)
        self.addCleanup(os.chdir, os.getcwd())
        os.chdir(room.name)

    def write(self, name, text):
        with open(name, 'w', encoding='utf-8', newline='') as file:
            file.write(text)
        return name

    def library(self, text, profile=WIDE):
        return read_library([self.write('cells.lef', text)], profile)


class FormTests(Room):
    """tools/refused in the wide profile, on a block and its technology with one form changed."""

    def test_each_form_that_is_refused(self):
        for old, new, line, kind, why in WIDE_FORMS:
            with self.subTest(new=new):
                self.assertEqual(BLOCK.count(old), 1)
                lines, status = refused.lines_of(self.write('block.def', BLOCK.replace(old, new)), [self.write('tech.lef', TECHNOLOGY)], WIDE)
                self.assertEqual(([it for it in lines if ': not looked at, ' not in it], status),
                                 ([f'block.def:{line}: {kind}, 1 place: {why}', 'refused forms 1, places 1'], 2))

    def test_each_form_of_a_library_that_is_refused(self):
        for new, kind, why in WIDE_LEF_FORMS:
            with self.subTest(new=new):
                technology = TECHNOLOGY.replace(PIN_RECT, new).replace('END INV', 'END INW')
                lines, _ = refused.lines_of(self.write('block.def', BLOCK), [self.write('tech.lef', technology)], WIDE)
                self.assertEqual(lines[0], f'tech.lef:26: {kind}, 1 place: {why}')
                self.assertIn('END INV was expected, not INW', lines[1])

    def test_each_rule_of_a_library_that_is_refused(self):
        for new, kind, why in WIDE_RULES:
            with self.subTest(new=new):
                technology = TECHNOLOGY.replace('END LIBRARY', f'{new}\nEND LIBRARY')
                lines, _ = refused.lines_of(self.write('block.def', BLOCK), [self.write('tech.lef', technology)], WIDE)
                self.assertEqual([it for it in lines if ': not looked at, ' not in it], [f'tech.lef:40: {kind}, 1 place: {why}', 'refused forms 1, places 1'])

    def test_a_component_of_a_macro_that_is_dropped(self):
        technology = TECHNOLOGY.replace(PIN_RECT, 'PATH 0 0 1 1 ;')
        lines, _ = refused.lines_of(self.write('block.def', BLOCK), [self.write('tech.lef', technology)], WIDE)
        self.assertEqual(lines, [
            'block.def:11: UnknownName, 2 places (lines 11, 12): there is no macro INV. The macro is in tech.lef, and is dropped: in line 26, '
            'PATH with a slanted line is not supported.', 'refused forms 1, places 2'])
        lines, _ = refused.lines_of('block.def', ['tech.lef'])
        self.assertTrue(lines[0].startswith('tech.lef:26: Unsupported, '), lines)

    def test_a_component_of_a_macro_with_paths_that_are_read(self):
        technology = TECHNOLOGY.replace(PIN_RECT, 'PATH 0.1 0.1 0.2 0.1 ( 0.2 0.2 ) ; WIDTH 0.04 ; PATH 0.1 0.2 ; WIDTH ;')
        files = self.write('block.def', BLOCK), [self.write('tech.lef', technology)]
        self.assertEqual(refused.lines_of(*files, WIDE), (['no form is refused'], 0))
        self.assertIn('Unsupported, 2 places', refused.lines_of(*files)[0][0])


class MacroTests(Room):
    """Macros that are dropped, and those that are not."""
    LAYER = 'LAYER m1 TYPE ROUTING ; DIRECTION HORIZONTAL ; WIDTH 0.1 ; END m1\n'
    PATH = 'OBS LAYER m1 ; PATH 0 0 1 1 ; END'

    def test_it_goes_on_behind_the_first_end_of_its_name(self):
        text = f'{self.LAYER}MACRO a SIZE 1 BY 1 ; {self.PATH} PIN b END b END a\nMACRO b SIZE 1 BY 2 ; END b\nEND LIBRARY\n'
        library = self.library(text)
        self.assertEqual((list(library.macros), list(library.dropped)), (['b'], ['a']))
        self.assertEqual(library.dropped['a'].line, 2)
        with self.assertRaises(Refused):
            self.library(text, NARROW)

    def test_one_of_the_same_name_may_follow(self):
        library = self.library(f'{self.LAYER}MACRO a SIZE 1 BY 1 ; {self.PATH} END a\nMACRO a SIZE 1 BY 2 ; END a\n')
        self.assertEqual([macro.height for macro in library.macros.values()], [2_000_000])

    def test_one_that_was_kept_before_is_defined_twice(self):
        with self.assertRaisesRegex(Refused, 'cells.lef:3: '):
            self.library(f'{self.LAYER}MACRO a SIZE 1 BY 2 ; END a\nMACRO a SIZE 1 BY 1 ; {self.PATH} END a\n')

    def test_one_without_its_end_is_refused(self):
        with self.assertRaisesRegex(Refused, 'PATH with a slanted line is not supported'):
            self.library(f'{self.LAYER}MACRO a SIZE 1 BY 1 ; {self.PATH} END b\n')


class PolygonTests(Room):
    """Polygons of ports and of obstructions, each as its slabs."""
    LAYER = MacroTests.LAYER + 'LAYER o TYPE OVERLAP ; END o\n'

    def slabs(self, points, profile=WIDE, layer='m1'):
        """Returns the rectangles of a polygon in a port, whose coordinates are microns, and tries the same in obstructions."""
        found = []
        for before, behind in (('PIN A PORT', 'END END A'), ('OBS', 'END')):
            macro = self.library(f'{self.LAYER}MACRO a SIZE 9 BY 9 ; {before} LAYER {layer} ; POLYGON {points} ; {behind} END a\n', profile).macros['a']
            found.append(macro.pins['A'].shapes if macro.pins else macro.obstructions)
        self.assertEqual(*found)
        self.assertEqual({name for name, _ in found[0]} - {layer}, set())
        return [tuple(side / 10 ** 6 for side in rect) for _, rect in found[0]]

    def test_slabs(self):
        for points, slabs in (
                ('0 0 1 0 1 2 0 2', [(0, 0, 1, 2)]),
                ('( 0 2 ) ( 1 2 ) ( 1 0 ) ( 0 0 )', [(0, 0, 1, 2)]),
                # points that are passed over
                ('0 0 0 0 0.5 0 1 0 1 1 1 2 1 2 0 2 0 0', [(0, 0, 1, 2)]),
                # an L, a U, and a ring
                ('0 0 3 0 3 1 1 1 1 2 0 2', [(0, 0, 3, 1), (0, 1, 1, 2)]),
                ('0 0 3 0 3 2 2 2 2 1 1 1 1 2 0 2', [(0, 0, 3, 1), (0, 1, 1, 2), (2, 1, 3, 2)]),
                ('0 0 3 0 3 3 0 3 0 0 1 0 1 1 1 2 2 2 2 1 1 1 1 0', [(0, 0, 3, 1), (0, 1, 1, 2), (2, 1, 3, 2), (0, 2, 3, 3)]),
                # it crosses itself, and what is walked around twice is outside
                ('0 0 1 0 1 2 2 2 2 1 0 1', [(0, 0, 1, 1), (1, 1, 2, 2)]),
                ('0 0 3 0 3 3 1 3 1 1 2 1 2 2 0 2', [(0, 0, 3, 1), (0, 1, 1, 2), (2, 1, 3, 2), (1, 2, 3, 3)]),
                # a spike has no area, but its end is a corner
                ('0 0 1 0 1 2 0 2 0 1 -1 1 0 1', [(0, 0, 1, 1), (0, 1, 1, 2)]),
                ('0.000001 0 1 0 1 2 0.000001 2', [(0.000001, 0, 1, 2)])):
            with self.subTest(points=points):
                self.assertEqual(self.slabs(points), slabs)

    def test_masks_and_layers_without_metal(self):
        self.assertEqual(self.slabs('MASK 1 0 0 1 0 1 2 0 2', Profile(True, True)), [(0, 0, 1, 2)])
        for points in ('0 0 1 1', '', 'MASK ITERATE any'):
            self.assertEqual(self.slabs(points, layer='o'), [])
            self.assertEqual(self.slabs(points, NARROW, 'o'), [])

    def test_many_points_and_too_many_slabs(self):
        self.assertEqual(self.slabs('0 0 ' * 9997 + '1 0 1 2 0 2'), [(0, 0, 1, 2)])
        with self.assertRaises(KeyError):  # the macro is dropped
            self.slabs(f'0 0 {COMB}')

    def test_walks_that_cross_themselves(self):
        for seed in range(60):
            dice = random.Random(seed)
            count = dice.choice((2, 3, 5, 9))
            xs, ys = [[dice.randrange(7) for _ in range(count)] for _ in range(2)]
            walk = [(x, y) for x, after, y in zip(xs, xs[1:] + xs[:1], ys) for x in (x, after)]
            inside = {(x, y) for x in range(7) for y in range(7)
                      if sum(a == c <= x and min(b, d) <= y < max(b, d) for (a, b), (c, d) in zip(walk, walk[1:] + walk[:1])) % 2}
            squares = [(x, y) for rect in slabs_of(walk) for x in range(rect.x1, rect.x2) for y in range(rect.y1, rect.y2)]
            with self.subTest(walk=walk):
                self.assertEqual(sorted(squares), sorted(inside))
                self.assertEqual(slabs_of(walk), sorted(slabs_of(walk), key=lambda rect: (rect.y1, rect.x1)))


class OptionTests(Room):
    """The options of the tools."""

    def ran(self, tool, *words):
        return subprocess.run([sys.executable, os.path.join(TOP, 'tools', tool), *words], capture_output=True, text=True, check=False)

    def test_a_text_that_only_the_wide_profile_reads(self):
        design = os.path.join(CASES, 'wide_masks_in_wiring', 'wide.def')
        for tool, files in (('refused', [design, STANDARD]), ('judged', [STANDARD, design])):
            with self.subTest(tool=tool):
                self.assertEqual(self.ran(tool, *files).returncode, 2)
                self.assertEqual(self.ran(tool, '--wide', *files).returncode, 2)
                done = self.ran(tool, '--masks', 'drop', '--wide', *files)
                self.assertEqual((done.returncode, done.stderr), (0, ''), done)
        self.assertIn(f'past {design}:6 3 SPECIALNETS + MASK\n', self.ran('judged', '--wide', '--masks', 'drop', STANDARD, design).stdout)

    def test_polygons_of_a_library(self):
        folder = os.path.join(CASES, 'wide_a_polygon_on_a_layer_without_metal_in_a_port')
        files = [os.path.join(folder, name) for name in ('cells.lef', 'block.def')]
        self.assertIn(f'past {files[0]}:9 3 PORT POLYGON on a layer without metal\n', self.ran('judged', '--wide', *files).stdout)
        folder = os.path.join(CASES, 'wide_check_a_polygon_in_a_port')
        files = [os.path.join(folder, name) for name in ('cells.lef', 'block.def')]
        self.assertEqual(self.ran('judged', *files).returncode, 2)
        done = self.ran('judged', '--wide', *files)
        self.assertEqual((done.returncode, done.stderr), (0, ''), done)
        self.assertNotIn('POLYGON', done.stdout)

    def test_soft_blockages_by_both_options(self):
        design = os.path.join(CASES, 'wide_soft_blockages_that_are_hard', 'wide.def')
        for choice, count in (('drop', 2), ('hard', 5)):
            with self.subTest(choice=choice):
                self.assertEqual(self.ran('refused', '--wide', '--soft', choice, design, STANDARD).stdout, 'no form is refused\n')
                profile = Profile(True, soft=choice)
                self.assertEqual(len(read_design(design, read_library([STANDARD], profile), profile).blockages), count)

    def test_views_answers_and_wires(self):
        design = os.path.join(CASES, 'wide_generated_vias', 'wide.def')
        answer = self.write('answer', 'legal\n')
        for tool, words in (('view', ('--svg', '-')), ('view', ('--html', '-')), ('wiring', ('--special',)), ('to-json', ('--answer', answer))):
            with self.subTest(tool=tool, words=words):
                self.assertEqual(self.ran(tool, design, STANDARD, *words).returncode, 2)
                done = self.ran(tool, '--wide', design, STANDARD, *words)
                self.assertEqual((done.returncode, done.stderr), (0, ''), done)
        plain = design.replace('wide.def', 'plain.def')
        self.assertEqual(self.ran('wiring', '--special', '--wide', design, STANDARD).stdout, self.ran('wiring', '--special', plain, STANDARD).stdout)
        self.assertEqual(self.ran('view', '--wide', design, STANDARD, '--svg', '-').stdout, self.ran('view', plain, STANDARD, '--svg', '-').stdout)

    def test_options_that_are_wrong(self):
        for words in (('--masks', 'drop'), ('--soft', 'hard'), ('--wide', '--wide'), ('--wide', '--masks', 'keep'), ('--wide', '--soft'),
                      ('--wide', '--soft', 'drop', '--soft', 'drop'), ('--wide', '--masks')):
            for tool, *more in (('refused',), ('judged',), ('wiring',), ('to-json',), ('view', '--svg', '-')):
                with self.subTest(tool=tool, words=words):
                    done = self.ran(tool, *words, STANDARD, STANDARD, *more)
                    self.assertEqual((done.returncode, done.stdout), (64, ''), done)


if __name__ == '__main__':
    unittest.main()
