"""Tests of docs/SCRIPTS.md and examples/count-violations: each line that lefdef prints matches exactly one of the regular expressions."""
import os
import re
import subprocess
import sys
import tempfile
import unittest

TOP = os.path.normpath(os.path.join(os.path.dirname(os.path.abspath(__file__)), '..', '..'))
CASES = os.path.join(TOP, 'tests', 'program')
COUNT = os.path.join(TOP, 'examples', 'count-violations')

# Lines of each answer that docs/FORMATS.md names and that no case of tests/program prints.
# What asks of the program itself, and not of a block.
ABOUT_ITSELF = [['--help'], ['-h'], ['--version'], ['-V']]
OTHER_LINES = (
    'MEMORY', 'SCALE core TooLarge', 'DIVIDERCHAR "/" ;', 'BUSBITCHARS "[ ]" ;', 'VIAS 1 ;', 'END VIAS', '# greatest 0',
    '- w + RECT m1 ( -50 -50 ) ( 50 50 ) ;', '- p + NET n + USE "a b" + PORT + LAYER m1 ( 0 0 ) ( 1 1 ) + PLACED ( 0 0 ) N ;', '- n',
    '  NEW m1 100 ( 0 0 ) ( 9 0 5 ) ;', 'TRACKS Y -100 DO 2 STEP 200 ;', 'TRACKS X 0 DO 1 STEP 1 LAYER m1 m2 ;', 'SPECIALNETS 2 ;', 'PINS 1 ;',
    'OPEN a PIN p', 'OPEN a WIRE 12', 'SHORT m1 POWER -1 -2 3 4 GROUND 1 2 3 4', 'TOONEAR m1 OBS u1 1 2 3 4 TERM PIN p 1 2 3 4',
    'SHORT m1 NET BLOCKAGE 1 2 3 4 BLOCKAGE 12 1 2 3 4', 'DESIGN END ;')


def expressions():
    """Returns the regular expressions of the page, in their order."""
    with open(os.path.join(TOP, 'docs', 'SCRIPTS.md'), encoding='utf-8') as file:
        blocks = re.findall(r'```regex\n(.*?)```', file.read(), re.DOTALL)
    return [line for block in blocks for line in block.splitlines()]


def cases():
    """Yields the name, the words and the lines of each case of the program that prints something."""
    for name in sorted(os.listdir(CASES)):
        path = os.path.join(CASES, name, 'stdout')
        if os.path.isfile(path):
            with open(path, 'rb') as file:
                lines = file.read().decode('utf-8', 'surrogateescape').split('\n')[:-1]
            words = []
            if os.path.exists(os.path.join(CASES, name, 'words')):
                with open(os.path.join(CASES, name, 'words'), encoding='utf-8') as file:
                    words = file.read().splitlines()
            if lines and words not in ABOUT_ITSELF:
                yield name, words, lines


class ExpressionTests(unittest.TestCase):
    """The regular expressions of docs/SCRIPTS.md."""

    def matching(self, line):
        return [text for text in expressions() if re.fullmatch(text, line)]

    def test_each_printed_line_matches_exactly_one(self):
        count = 0
        for name, _, lines in cases():
            for line in lines:
                count += 1
                with self.subTest(case=name, line=line):
                    self.assertEqual(len(self.matching(line)), 1, self.matching(line))
        self.assertGreater(count, 200)

    def test_other_lines_match_exactly_one(self):
        for line in OTHER_LINES:
            with self.subTest(line=line):
                self.assertEqual(len(self.matching(line)), 1, self.matching(line))

    def test_each_expression_is_matched(self):
        lines = [*OTHER_LINES, *(line for _, _, lines in cases() for line in lines)]
        for text in expressions():
            with self.subTest(expression=text):
                self.assertTrue(any(re.fullmatch(text, line) for line in lines))
        self.assertEqual(len(set(expressions())), len(expressions()))

    def test_help_and_version_alone_are_left_out(self):
        printing = [name for name in os.listdir(CASES) if os.path.exists(os.path.join(CASES, name, 'stdout')) and os.path.getsize(os.path.join(CASES, name, 'stdout'))]
        self.assertEqual(set(printing) - {name for name, _, _ in cases()}, {'help_as_the_one_word', 'help_by_one_letter', 'the_version', 'the_version_by_one_letter'})

    def test_lines_that_lefdef_does_not_print_match_none(self):
        for line in ('', 'Legal', 'legal ', ' legal', 'violations', 'OFFSITE', 'OFFSITE a b', 'OVERLAP a', 'OPEN n WIRE', 'hpwl -1', 'REFUSED 0 1',
                     'SHORT m1 NET a 1 2 3 4 NET b 1 2 3', 'SHORT m1 OBS 1 2 3 4 NET b 1 2 3 4',
                     'SHORT m1 BLOCKAGE b 1 2 3 4 NET b 1 2 3 4', 'BLOCKED a b', 'TOONEAR m1 NET a 1 2 3 4', 'END LIBRARY'):
            with self.subTest(line=line):
                self.assertEqual(self.matching(line), [])

    def test_grep_takes_them_too(self):
        lines = [line for _, _, lines in cases() for line in lines]
        with tempfile.TemporaryDirectory() as room:
            for name, these in (('expressions', expressions()), ('lines', lines)):
                with open(os.path.join(room, name), 'w', encoding='utf-8', errors='surrogateescape') as file:
                    file.write('\n'.join(these) + '\n')
            left = subprocess.run(['grep', '-vExf', 'expressions', 'lines'], cwd=room, stdout=subprocess.PIPE, text=True, check=False)
            self.assertEqual((left.returncode, left.stdout), (1, ''))


class CountTests(unittest.TestCase):
    """examples/count-violations, run with a program that prints what a case of tests/program holds."""

    def count(self, name, print_it='cat'):
        with tempfile.TemporaryDirectory() as room:
            program = os.path.join(room, 'lefdef')
            with open(program, 'w', encoding='utf-8') as file:
                file.write(f'#!/bin/sh\n[ "$*" = "check a.def b.lef c.lef" ] || exit 99\n{print_it} "{CASES}/{name}/stdout"\n'
                           f'exit "$(cat "{CASES}/{name}/status" 2>/dev/null || echo 0)"\n')
            os.chmod(program, 0o755)
            return subprocess.run([sys.executable, COUNT, 'a.def', 'b.lef', 'c.lef'], env={**os.environ, 'LEFDEF': program}, capture_output=True,
                                  text=True, check=False)

    def test_a_legal_block(self):
        done = self.count('check_a_wired_net')
        self.assertEqual((done.returncode, done.stderr), (0, ''))
        self.assertEqual([line.split() for line in done.stdout.splitlines()],
                         [[kind, '0'] for kind in ('UNPLACED', 'OUTSIDE', 'OFFSITE', 'OVERLAP', 'BLOCKED', 'SHORT', 'TOONEAR', 'OPEN')])

    def test_violations_fail_the_build(self):
        done = self.count('kinds_stand_in_order')
        self.assertEqual((done.returncode, done.stderr), (1, ''))
        self.assertEqual(done.stdout.split(), 'UNPLACED 1 OUTSIDE 1 OFFSITE 2 OVERLAP 2 BLOCKED 0 SHORT 0 TOONEAR 0 OPEN 0'.split())
        done = self.count('check_blockages_of_both_kinds')
        self.assertEqual(done.stdout.split(), 'UNPLACED 0 OUTSIDE 0 OFFSITE 1 OVERLAP 1 BLOCKED 2 SHORT 1 TOONEAR 1 OPEN 1'.split())

    def test_what_the_page_shows(self):
        with open(os.path.join(TOP, 'docs', 'SCRIPTS.md'), encoding='utf-8') as file:
            shown = re.search(r'    \$ examples/count-violations examples/unfinished.def examples/standard.lef\n((?:    .*\n)+)', file.read())[1]
        done = self.count('standard_input_of_an_open_net')
        self.assertEqual(done.returncode, 1)
        self.assertEqual(done.stdout, shown.replace('    ', '', 1).replace('\n    ', '\n'))

    def test_a_list_that_is_cut(self):
        for print_it in ('head -n 3', 'tail -n 2', 'head -c 0'):
            done = self.count('kinds_stand_in_order', print_it)
            self.assertEqual((done.returncode, done.stdout, done.stderr), (5, '', 'not checked: the list is cut\n'))

    def run_with(self, program, *words):
        return subprocess.run([sys.executable, COUNT, *words], env={**os.environ, 'LEFDEF': program}, capture_output=True, text=True, check=False)

    def test_a_list_with_another_word(self):
        done = self.count('kinds_stand_in_order', 'sed s/OFFSITE/OFFROW/')
        self.assertEqual((done.returncode, done.stdout, done.stderr), (5, '', 'not checked: the list is cut\n'))

    def test_a_program_that_does_not_run_to_its_end(self):
        done = self.count('kinds_stand_in_order', 'kill -9 $$; :')
        self.assertEqual((done.returncode, done.stdout, done.stderr), (70, '', 'not checked, status -9:\n'))
        done = self.run_with('/nosuch', 'a.def', 'b.lef')
        self.assertEqual((done.returncode, done.stdout, done.stderr), (70, '', 'cannot run /nosuch: No such file or directory\n'))

    def test_usage(self):
        shown = self.run_with('/nosuch', '--help')
        self.assertEqual((shown.returncode, shown.stderr), (0, ''))
        self.assertIn('examples/count-violations BLOCK.def LIBRARY.lef...', shown.stdout)
        for words in ((), ('a.def',), ('--nothing', 'a.def', 'b.lef')):
            done = self.run_with('/nosuch', *words)
            self.assertEqual((done.returncode, done.stdout, done.stderr), (64, '', shown.stdout))

    def test_an_answer_that_is_no_list(self):
        done = self.count('a_macro_that_is_not_there')
        self.assertEqual((done.returncode, done.stdout), (2, ''))
        self.assertEqual(done.stderr, 'not checked, status 2: REFUSED 1 7 UnknownName\n')


if __name__ == '__main__':
    unittest.main()
