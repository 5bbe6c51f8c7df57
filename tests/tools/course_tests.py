"""Tests of examples/course: its blocks are as they are said to be, each violation is what its file says, and judge and score say what they should.
The program is that of LEFDEF, or the one that is built in the tree; where an answer of lefdef is given, a small script stands in for it."""
import os
import re
import subprocess
import sys
import tempfile
import unittest

TOP = os.path.normpath(os.path.join(os.path.dirname(os.path.abspath(__file__)), '..', '..'))
COURSE = os.path.join(TOP, 'examples', 'course')
CELLS = os.path.join(COURSE, 'cells.lef')
PROGRAM = os.environ.get('LEFDEF') or os.path.join(TOP, 'crates', 'lefdef', 'out', 'lefdef')
KINDS = ('UNPLACED', 'OUTSIDE', 'OFFSITE', 'OVERLAP', 'BLOCKED', 'SHORT', 'TOONEAR', 'OPEN')
NAMES = [f'{exercise}{number}' for exercise in ('place', 'route') for number in range(1, 6)]
sys.path.insert(0, os.path.join(TOP, 'tools'))

from lefdef_text import read_design, read_library

CELL_NAMES = ('INV', 'BUF', 'NAND2', 'NOR2', 'XOR2', 'MUX2', 'DFF', 'TIE', 'TAP', 'FILL')
# Answers `compare` and the judging command with given lines and statuses, and everything else as the program does.
STAND_IN = '''#!/bin/sh
case $1 in
compare) printf '{compared}'; exit {status};;
{judging}) {judged};;
*) exec {program} "$@";;
esac
'''


def read(path):
    with open(path, encoding='utf-8') as file:
        return file.read()


def block(name):
    return os.path.join(COURSE, name[:-1], f'{name}.def')


def asked(command, *paths):
    """Returns the status of a command of the program, and its lines."""
    done = subprocess.run([PROGRAM, command, *paths], capture_output=True, text=True, check=False, stdin=subprocess.DEVNULL)
    return done.returncode, done.stdout.splitlines()


class Room(unittest.TestCase):
    """A test with a folder of its own."""

    def setUp(self):
        room = tempfile.TemporaryDirectory()
        self.addCleanup(room.cleanup)
        self.room = room.name

    def file(self, name, text):
        path = os.path.join(self.room, name)
        with open(path, 'w', encoding='utf-8') as file:
            file.write(text)
        return path

    def run_script(self, script, *words, program=PROGRAM):
        """Returns the status of a script of the course, what it printed, and its messages."""
        done = subprocess.run([sys.executable, os.path.join(COURSE, script), *words], capture_output=True, text=True, cwd=self.room, check=False,
                              timeout=120, env={**os.environ, 'LEFDEF': program, 'PYTHONDONTWRITEBYTECODE': '1'})
        return done.returncode, done.stdout, done.stderr


class CellsTests(Room):
    """The library."""

    def test_cells_that_abut_are_legal_in_each_orientation(self):
        macros = read_library([CELLS]).at(1000).macros
        self.assertEqual(set(macros), set(CELL_NAMES))
        lines, x = [], 0
        for row, orientations in enumerate((('N', 'FN'), ('FS', 'S'))):
            x = 0
            for orientation in orientations:
                for before in CELL_NAMES:
                    for macro in (before, *CELL_NAMES):
                        lines.append(f'- u{len(lines)} {macro} + PLACED ( {x} {2000 * row} ) {orientation} ;')
                        x += macros[macro].width
        rows = ''.join(f'ROW r{row} core 0 {2000 * row} {side} DO {x // 200} BY 1 STEP 200 0 ;\n' for row, side in enumerate(('N', 'FS')))
        text = (f'DESIGN all ;\nUNITS DISTANCE MICRONS 1000 ;\nDIEAREA ( 0 0 ) ( {x} 4000 ) ;\n{rows}COMPONENTS {len(lines)} ;\n' + '\n'.join(lines)
                + '\nEND COMPONENTS\nEND DESIGN\n')
        self.assertEqual(asked('check', self.file('all.def', text), CELLS), (0, ['legal']))

    def test_each_pin_has_a_crossing_of_tracks(self):
        for macro in read_library([CELLS]).at(1000).macros.values():
            for name, pin in macro.pins.items():
                if pin.use not in ('POWER', 'GROUND'):
                    crossings = [(x, y) for _, (x1, y1, x2, y2) in pin.shapes for x in range(100, macro.width, 200) for y in range(100, macro.height, 200)
                                 if x1 < x < x2 and y1 < y < y2]
                    self.assertTrue(crossings, (macro.name, name))


class ViolationsTests(unittest.TestCase):
    """The block for each kind of violation."""

    def test_each_block_has_its_kind_alone(self):
        folder = os.path.join(COURSE, 'violations')
        self.assertEqual(sorted(os.listdir(folder)), sorted(f'{kind.lower()}.{ending}' for kind in KINDS for ending in ('def', 'txt')))
        for kind in KINDS:
            with self.subTest(kind=kind):
                path = os.path.join(folder, kind.lower())
                status, lines = asked('check', f'{path}.def', CELLS)
                self.assertEqual((status, lines), (1, read(f'{path}.txt').splitlines()))
                self.assertEqual({line.split()[0] for line in lines}, {kind, 'violations'})
                self.assertRegex(read(f'{path}.def'), rf'\A# {kind}: .*\.\n')


class BlocksTests(Room):
    """The blocks of the exercises."""

    def test_they_are_what_the_generator_writes(self):
        status, out, err = self.run_script('generate', self.room)
        self.assertEqual((status, out, err), (0, '', ''))
        for name in NAMES:
            self.assertEqual(read(os.path.join(self.room, name[:-1], f'{name}.def')), read(block(name)), name)

    def test_blocks_that_are_there_are_not_overwritten(self):
        folder = os.path.join(self.room, 'route')
        os.makedirs(folder)
        path = os.path.join(folder, 'route5.def')
        with open(path, 'w', encoding='utf-8') as file:
            file.write('kept')
        self.assertEqual(self.run_script('generate', self.room), (5, '', f'{path} exists already: nothing is written\n'))
        self.assertEqual(([path for path, _, names in os.walk(self.room) if names], read(path)), ([folder], 'kept'))
        self.assertEqual(self.run_script('generate', path), (5, '', f'cannot write {path}/place: Not a directory\n'))

    def test_those_to_be_legalised_are_not_legally_placed(self):
        for name in NAMES[:5]:
            status, lines = asked('place-check', block(name), CELLS)
            self.assertEqual(status, 1, lines[:1])
            self.assertLessEqual({'OFFSITE', 'OVERLAP'}, {line.split()[0] for line in lines}, name)

    def test_those_to_be_routed_have_open_nets_alone(self):
        for name in NAMES[5:]:
            status, lines = asked('check', block(name), CELLS)
            self.assertEqual((status, {line.split()[0] for line in lines}), (1, {'OPEN', 'violations'}), name)

    def test_the_last_one_needs_more_than_one_net_after_the_other(self):
        for name in NAMES[5:]:
            status, lines = asked('route', block(name), CELLS)
            self.assertEqual(status, 3 if name == 'route5' else 0, name)
        self.assertIn(f'(`{lines[-1]}`)', read(os.path.join(COURSE, 'README.md')))

    def test_the_table_of_the_page(self):
        rows = dict(re.findall(r'(?m)^\| ((?:place|route)[0-9]) \| ([0-9]+, [0-9]+) \|', read(os.path.join(COURSE, 'README.md'))))
        designs = {name: read_design(block(name), read_library([CELLS])) for name in NAMES}
        self.assertEqual(rows, {name: f'{len(design.components)}, {len(design.nets)}' for name, design in designs.items()})

    def test_the_definitions_of_the_page_are_those_of_the_files(self):
        given = [line[4:] for line in read(os.path.join(COURSE, 'README.md')).splitlines() if re.match(r'    (  )?pub ', line)]
        folder = os.path.join(TOP, 'crates', 'leg_rules', 'specs', 'Spacing')
        lines = [line for name in ('Violations', 'Comparable') for line in read(os.path.join(folder, f'{name}.antt')).splitlines()]
        self.assertEqual([line for line in given if line not in lines], [])
        self.assertEqual(len(given), 15)


class BestTests(Room):
    """The best known scores."""

    def test_they_are_what_the_program_reaches(self):
        self.assertEqual(self.run_script('score', '--own'), (0, read(os.path.join(COURSE, 'best.txt')), ''))


class JudgedCase(Room):
    """A test with answers of the program."""

    def answer(self, name, command):
        """Returns the path of the program's answer to a block."""
        done = subprocess.run([PROGRAM, command, block(name), CELLS], capture_output=True, text=True, check=True, stdin=subprocess.DEVNULL)
        return self.file(f'{name}.def', done.stdout)


class JudgeTests(JudgedCase):
    """What judge and score say of answers."""

    def stand_in(self, compared, status, judged='exit 70', judging='nothing'):
        path = self.file('lefdef', STAND_IN.format(compared=compared, status=status, judging=judging, judged=judged, program=PROGRAM))
        os.chmod(path, 0o755)
        return path

    def test_answers_that_are_legal_and_still_their_blocks(self):
        for name, command, compared in (('place1', 'legalise', 'places 15'), ('route1', 'route', 'wires 8')):
            path, program = self.answer(name, command), self.stand_in(f'{compared}\\n', 1)
            self.assertEqual(self.run_script('judge', path, program=program), (0, f'{name} legal\n', ''))

    def test_scores_are_beside_the_best_ones(self):
        path, program = self.answer('place1', 'legalise'), self.stand_in('places 15\\n', 1)
        numbers = next(line.split(' #')[0].split()[1:] for line in read(os.path.join(COURSE, 'best.txt')).splitlines() if line.startswith('place1 '))
        pairs = ' '.join(f'{word} {number} best {number}' for word, number in zip(numbers[::2], numbers[1::2]))
        self.assertEqual(self.run_script('score', path, program=program), (0, f'place1 {pairs}\n', ''))

    def test_a_block_as_it_was_handed_out(self):
        for name, kinds in (('place1', 'OFFSITE 15, OVERLAP 9'), ('route1', 'OPEN 8')):
            path, program = self.file(f'{name}.anna.def', read(block(name))), self.stand_in('same\\n', 0)
            for script in ('judge', 'score'):
                self.assertEqual(self.run_script(script, path, program=program), (1, f'{name} not legal: {kinds}\n', ''))

    def test_other_changes_than_those_of_the_exercise(self):
        moved = 'CHANGED COMPONENT t1 PLACE\\nCHANGED COMPONENT u2 PLACE\\ndiffers 2\\n'
        for name, compared, said in (('place3', moved, 'CHANGED COMPONENT t1 PLACE'), ('route1', 'GONE NET n1\\ndiffers 1\\n', 'GONE NET n1'),
                                     ('route1', 'CHANGED COMPONENT u2 PLACE\\nplaces 1\\n', 'CHANGED COMPONENT u2 PLACE'),
                                     ('place1', 'DIFFERS ROWS\\nGONE NET n1\\nCHANGED COMPONENT u2 PLACE\\ndiffers 3\\n', 'DIFFERS ROWS, and 1 more'),
                                     ('place1', 'CHANGED NET n1 MOREWIRES\\nwires 1\\n', 'CHANGED NET n1 MOREWIRES')):
            with self.subTest(compared=compared):
                judging = 'place-check | check'
                program = self.stand_in(compared, 1, 'echo legal', judging)
                self.assertEqual(self.run_script('judge', self.file(f'{name}.def', ''), program=program), (1, f'{name} another block: {said}\n', ''))

    def test_answers_that_are_not_judged(self):
        cut = self.file('place1.def', 'DESIGN d ;\n')
        status, out, _ = self.run_script('judge', cut, self.file('mine.def', ''), os.path.join(self.room, 'place2.def'))
        self.assertEqual(status, 2)
        lines = out.splitlines()
        self.assertRegex(lines[0], r'^place1 not read: .*place1\.def:1')
        self.assertRegex(lines[1], r'mine\.def no block has this name: it is place1\.def to route5\.def$')
        self.assertRegex(lines[2], r'^place2 not judged: cannot read .*place2\.def')
        status, out, _ = self.run_script('judge', self.file('route1.def', read(block('route1'))), program=self.stand_in('', 64))
        self.assertEqual((status, out), (2, 'route1 not judged: lefdef compare ended with status 64: \n'))

    def test_usage(self):
        for script in ('judge', 'score', 'generate'):
            for words in ([], ['--none'], [block('place1'), '--none']):
                self.assertEqual(self.run_script(script, *words)[:2], (64, ''), words)
            status, out, _ = self.run_script(script, '--help')
            self.assertEqual((status, f'examples/course/{script} ' in out), (0, True))


class ComparedTests(JudgedCase):
    """What judge says by the program's own `compare`."""

    def judged(self, name, text):
        """Returns the status of judge, and what it says of this text as an answer to a block."""
        status, out, err = self.run_script('judge', self.file(f'{name}.def', text))
        self.assertEqual(err, '')
        return status, out.partition(' ')[2].rstrip('\n')

    def changed(self, name, command, *changes):
        """Returns the program's answer to a block, in which each pattern, which stands there once, is replaced."""
        text = read(self.answer(name, command))
        for pattern, put in changes:
            text, count = re.subn(pattern, put, text, flags=re.MULTILINE | re.DOTALL)
            self.assertEqual(count, 1, pattern)
        return text

    def test_the_programs_own_answers(self):
        paths = [self.answer(name, 'legalise' if name in NAMES[:5] else 'finish') for name in NAMES]
        self.assertEqual(self.run_script('judge', *paths), (0, ''.join(f'{name} legal\n' for name in NAMES), ''))

    def test_components_in_another_order(self):
        text = self.changed('place1', 'legalise', (r'^(- u0 [^\n]*\n)(.*)(?=END COMPONENTS)', r'\2\1'))
        self.assertEqual(self.judged('place1', text), (0, 'legal'))

    def test_an_empty_block(self):
        for name, corner in (('place1', '10000 4000'), ('route1', '10000 2000')):
            text = f'DESIGN {name} ;\nUNITS DISTANCE MICRONS 1000 ;\nDIEAREA ( 0 0 ) ( {corner} ) ;\nEND DESIGN\n'
            status, said = self.judged(name, text)
            self.assertEqual((status, said.split(',')[0]), (1, 'another block: DIFFERS ROWS'))

    def test_a_lost_net(self):
        text = self.changed('route1', 'route', (r'^- n1 .*?;\n', ''))
        self.assertEqual(self.judged('route1', text), (1, 'another block: GONE NET n1'))

    def test_a_lost_terminal(self):
        text = self.changed('route1', 'route', (r'^(- n1 \( \w+ \w+ \)) \( \w+ \w+ \)(.*?;\n)', r'\1 ;\n'))
        self.assertEqual(self.judged('route1', text), (1, 'another block: CHANGED NET n1 TERMINALS'))

    def test_a_fixed_component_that_is_moved(self):
        text = self.changed('place3', 'legalise', (r'^- t1 TAP \+ FIXED \( 0 2000 \)', '- t1 TAP + FIXED ( 200 2000 )'))
        self.assertEqual(self.judged('place3', text), (1, 'another block: CHANGED COMPONENT t1 PLACE'))

    def test_a_fixed_component_that_is_no_longer_fixed(self):
        text = self.changed('place3', 'legalise', (r'^- t1 TAP \+ FIXED', '- t1 TAP + PLACED'))
        self.assertEqual(self.judged('place3', text), (1, 'another block: CHANGED COMPONENT t1 STATUS'))

    def test_a_component_that_is_moved_in_a_block_to_be_routed(self):
        text = read(block('route1'))
        moved = re.sub(r'^(- u0 \w+ \+ PLACED \( )[0-9]+', r'\g<1>9800', text, flags=re.MULTILINE)
        self.assertEqual(self.judged('route1', moved), (1, 'another block: CHANGED COMPONENT u0 PLACE'))

    def test_an_earlier_wire_that_is_lost(self):
        text = self.changed('route4', 'finish', (r'm2 \( 500 300 \) \( 500 13700 \)', 'm2 ( 500 500 ) ( 500 13700 )'))
        self.assertEqual(self.judged('route4', text), (1, 'another block: CHANGED NET i0 LOSTWIRES'))


if __name__ == '__main__':
    unittest.main()
