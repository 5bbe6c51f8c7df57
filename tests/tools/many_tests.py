"""Tests of examples/many and tools/summary: many blocks asked about by make, by GNU parallel and by the tasks of a Slurm array, and the table of
their answers. A small script stands in for lefdef."""
import csv
import os
import re
import shutil
import subprocess
import sys
import tempfile
import unittest

TOP = os.path.normpath(os.path.join(os.path.dirname(os.path.abspath(__file__)), '..', '..'))
MANY = os.path.join(TOP, 'examples', 'many')
SUMMARY = os.path.join(TOP, 'tools', 'summary')
# Prints what the block's text has after a line with the status to end with, and notes the words of the call.
LEFDEF = '''#!/bin/sh
echo "$*" >>"$CALLS"
[ -f "$2" ] || { echo "no file $2" >&2; exit 5; }
echo "a message on $2" >&2
sed 1d "$2"
exit "$(head -n 1 "$2")"
'''
# Blocks whose texts are the answers on them.
BLOCKS = {
    'clean': '0\nlegal\n',
    'dirty': '1\nUNPLACED u1\nSHORT m1 NET a 1 2 3 4 NET b 1 2 3 4\nSHORT m1 NET a 1 2 3 4 NET c 1 2 3 4\nOPEN n u2 A\nviolations 4\n',
    'misspelt': '2\nREFUSED 2 7 UnknownName\n',
    'of_a_lef': '2\nREFUSED 0 3 Unsupported\n',
    'large': '2\nTOOMANY\n',
    'stuck': '3\nUNROUTABLE n1\n',
    'not_clean': '3\nOFFSITE u1\nNOTCLEAN 1\n',
    'crowded': '3\nUNFINISHED n1\nUNFINISHED n2\nunfinished 2\n',
    'cut_off': '3\nUNREACHABLE n1 u1 A\n',
    'short_of_memory': '4\nMEMORY\n',
    'measured': '0\nhpwl 120\n',
    'placed': '0\nVERSION 5.8 ;\nEND DESIGN\n# total 0\n# greatest 0\n',
    'finished': '0\nVERSION 5.8 ;\nEND DESIGN\n# length 0\n# vias 0\n',
}


class Room(unittest.TestCase):
    """A test with a folder of blocks and two LEFs."""

    def setUp(self):
        room = tempfile.TemporaryDirectory()
        self.addCleanup(room.cleanup)
        self.room = room.name
        self.file('lefdef', LEFDEF)
        os.chmod(os.path.join(self.room, 'lefdef'), 0o755)
        self.file('calls', '')
        for name in ('a.lef', 'b.lef'):
            self.file(name, '')

    def file(self, name, text):
        path = os.path.join(self.room, name)
        os.makedirs(os.path.dirname(path), exist_ok=True)
        with open(path, 'w', encoding='utf-8') as file:
            file.write(text)

    def read(self, name):
        with open(os.path.join(self.room, name), encoding='utf-8') as file:
            return file.read()

    def blocks(self, *names):
        for name in names:
            self.file(f'blocks/{name}.def', BLOCKS[name])

    def run_here(self, *words, **variables):
        """Returns the status, the output and the messages of a command."""
        env = {**os.environ, 'LEFDEF': os.path.join(self.room, 'lefdef'), 'CALLS': os.path.join(self.room, 'calls'), **variables}
        ran = subprocess.run(words, cwd=self.room, env=env, capture_output=True, text=True, check=False)
        return ran.returncode, ran.stdout, ran.stderr

    def calls(self):
        """Returns the calls of lefdef since the last time that this was asked."""
        found = sorted(self.read('calls').splitlines())
        self.file('calls', '')
        return found

    def kept(self):
        return sorted(os.listdir(os.path.join(self.room, 'answers')))


class AskTests(Room):
    """examples/many/ask, which asks about one block."""

    def ask(self, name, *words):
        return self.run_here(os.path.join(MANY, 'ask'), f'answers/{name}', f'blocks/{name}.def', *words)

    def test_the_answer_is_kept_with_its_status_and_its_files(self):
        for name, text in BLOCKS.items():
            with self.subTest(block=name):
                self.blocks(name)
                self.assertEqual(self.ask(name, 'a.lef', 'b.lef'), (0, '', ''))
                status, _, answer = text.partition('\n')
                self.assertEqual(self.read(f'answers/{name}.answer'), answer)
                self.assertEqual(self.read(f'answers/{name}.messages'), f'a message on blocks/{name}.def\n')
                self.assertRegex(self.read(f'answers/{name}.run'),
                                 rf'\Astatus {status}\nseconds \d+\.\d\d\d\nfile a\.lef\nfile b\.lef\nfile blocks/{name}\.def\n\Z')
                self.assertEqual(self.calls(), [f'check blocks/{name}.def a.lef b.lef'])

    def test_what_is_no_answer_fails_and_leaves_none(self):
        self.blocks('clean')
        for text, status in (('5\nOFFSITE u1\n', 5), ('64\n', 64), ('70\n', 70)):
            with self.subTest(status=status):
                self.assertEqual(self.ask('clean', 'a.lef')[0], 0)
                self.file('blocks/clean.def', text)
                said = f'ask: blocks/clean.def: no answer, status {status}: a message on blocks/clean.def\n'
                self.assertEqual(self.ask('clean', 'a.lef'), (status, '', said))
                self.assertEqual(self.kept(), ['clean.messages', 'clean.run'])
                self.blocks('clean')
        self.assertEqual(self.run_here(os.path.join(MANY, 'ask'), 'answers/x', 'blocks/clean.def', 'a.lef', LEFDEF='/nosuch')[0], 127)

    def test_the_command_may_be_another(self):
        self.blocks('measured')
        self.assertEqual(self.run_here(os.path.join(MANY, 'ask'), 'answers/m', 'blocks/measured.def', 'a.lef', COMMAND='measure')[0], 0)
        self.assertEqual(self.calls(), ['measure blocks/measured.def a.lef'])

    def test_usage(self):
        for words in ((), ('answers/a',), ('answers/a', 'blocks/a.def')):
            status, out, err = self.run_here(os.path.join(MANY, 'ask'), *words)
            self.assertEqual((status, out), (64, ''))
            self.assertIn('examples/many/ask ANSWER BLOCK.def LIBRARY.lef...', err)


class MakeTests(Room):
    """examples/many/Makefile."""

    def make(self, *words):
        return self.run_here('make', '-f', os.path.join(MANY, 'Makefile'), '--no-print-directory', '-j4', 'LEFS=a.lef b.lef', *words)

    def test_each_block_is_asked_about_and_the_table_printed(self):
        self.blocks(*BLOCKS)
        status, out, err = self.make()
        self.assertEqual((status, err), (0, ''))
        self.assertEqual(self.calls(), sorted(f'check blocks/{name}.def a.lef b.lef' for name in BLOCKS))
        self.assertEqual(out.splitlines()[-1], 'blocks 13, legal 1, done 3, with violations 1, refused 3, not done 4, out of memory 1')

    def test_a_block_is_asked_about_again_only_if_its_files_have_changed(self):
        self.blocks('clean', 'dirty')
        self.file('blocks/dirty.lefs', 'b.lef c.lef\n')
        self.file('c.lef', '')
        self.assertEqual(self.make()[0], 0)
        self.assertEqual(self.calls(), ['check blocks/clean.def a.lef b.lef', 'check blocks/dirty.def b.lef c.lef'])
        answered = max(os.path.getmtime(os.path.join(self.room, 'answers', f'{name}.answer')) for name in ('clean', 'dirty'))
        for changed, asked in ((), []), (('blocks/clean.def',), ['clean']), (('c.lef',), ['dirty']), (('blocks/dirty.lefs',), ['dirty']), (
                ('a.lef',), ['clean']), (('b.lef',), ['clean', 'dirty']):
            with self.subTest(changed=changed):
                answered += 10
                for name in changed:
                    os.utime(os.path.join(self.room, name), (answered, answered))
                self.assertEqual(self.make()[0], 0)
                self.assertEqual([re.findall(r'\w+(?=\.def)', call)[0] for call in self.calls()], asked)
                for name in ('clean', 'dirty'):
                    os.utime(os.path.join(self.room, 'answers', f'{name}.answer'), (answered, answered))
        self.make('--always-make')
        self.assertEqual(len(self.calls()), 2)

    def test_one_without_an_answer_fails_and_the_others_are_kept(self):
        self.blocks('clean', 'dirty', 'stuck')
        self.file('blocks/clean.def', '70\n')
        status, out, err = self.make('--keep-going')
        self.assertEqual((status, out), (2, ''))
        self.assertIn('ask: blocks/clean.def: no answer, status 70: a message on blocks/clean.def\n', err)
        self.assertEqual([it for it in self.kept() if it.endswith('.answer')], ['dirty.answer', 'stuck.answer'])
        self.calls()
        self.blocks('clean')
        self.assertEqual(self.make()[0], 0)
        self.assertEqual(self.calls(), ['check blocks/clean.def a.lef b.lef'])

    def test_folders_and_the_command_may_be_others(self):
        self.file('some/placed.def', BLOCKS['placed'])
        status, out, err = self.make('BLOCKS=some', 'ANSWERS=more/answers', 'COMMAND=legalise')
        self.assertEqual((status, err), (0, ''))
        self.assertRegex(out, r'\Ablock   answer    seconds\nplaced  a DEF  +\d+\.\d+\nblocks 1, done 1\n\Z')
        self.assertEqual(self.calls(), ['legalise some/placed.def a.lef b.lef'])


class OtherWaysTests(Room):
    """GNU parallel, and the tasks of a Slurm array."""

    def test_parallel(self):
        # (another program of that name has other words)
        if not shutil.which('parallel') or 'GNU parallel' not in self.run_here('parallel', '--version')[1]:
            print('many_tests: GNU parallel is not installed, so its recipe was not tried', file=sys.stderr)
            return
        with open(os.path.join(TOP, 'docs', 'RECIPES.md'), encoding='utf-8') as file:
            shown = re.search(r'\n    (ls blocks/\*\.def \| parallel examples/many/ask .*)\n', file.read())[1]
        self.blocks('clean', 'dirty', 'misspelt')
        command = shown.replace('examples/many', MANY).replace('parallel', 'parallel --will-cite').replace('tech.lef cells.lef', 'a.lef b.lef')
        self.assertEqual(self.run_here('sh', '-c', command), (0, '', ''))
        self.assertEqual(self.calls(), [f'check blocks/{name}.def a.lef b.lef' for name in ('clean', 'dirty', 'misspelt')])
        self.assertEqual(self.run_here(SUMMARY, 'answers', 'blocks')[1].splitlines()[-1], 'blocks 3, legal 1, with violations 1, refused 1')
        self.file('blocks/clean.def', '5\n')
        self.assertEqual(self.run_here('sh', '-c', command)[0], 1)

    def test_each_task_of_an_array_takes_its_block(self):
        self.blocks('clean', 'dirty', 'misspelt')
        for number, name in enumerate(('clean', 'dirty', 'misspelt'), 1):
            asked = self.run_here('sh', os.path.join(MANY, 'slurm'), TOP, 'blocks', 'answers', 'a.lef', 'b.lef', SLURM_ARRAY_TASK_ID=str(number))
            self.assertEqual(asked, (0, '', ''))
            self.assertEqual(self.calls(), [f'check blocks/{name}.def a.lef b.lef'])
        self.assertEqual([it for it in self.kept() if it.endswith('.answer')], ['clean.answer', 'dirty.answer', 'misspelt.answer'])


class SummaryTests(Room):
    """tools/summary."""

    ROWS = {
        'clean': 'legal', 'dirty': 'UNPLACED 1, SHORT 2, OPEN 1', 'misspelt': 'blocks/misspelt.def:7 UnknownName', 'of_a_lef': 'a.lef:3 Unsupported',
        'large': 'TOOMANY', 'stuck': 'UNROUTABLE n1', 'not_clean': 'NOTCLEAN 1, OFFSITE 1', 'short_of_memory': 'MEMORY', 'measured': 'hpwl 120',
        'placed': 'a DEF', 'finished': 'a DEF', 'crowded': 'unfinished 2', 'cut_off': 'UNREACHABLE n1 u1 A'}

    def asked(self, *names):
        self.blocks(*names)
        for name in names:
            self.assertEqual(self.run_here(os.path.join(MANY, 'ask'), f'answers/{name}', f'blocks/{name}.def', 'a.lef', 'b.lef')[0], 0)

    def test_a_row_for_each_answer(self):
        self.asked(*BLOCKS)
        status, out, err = self.run_here(SUMMARY, 'answers')
        self.assertEqual((status, err), (2, ''))
        rows = [re.fullmatch(r'(\w+) +(.*?) +(\d+\.\d{3})', line).group(1, 2) for line in out.splitlines()[1:-1]]
        self.assertEqual(rows, sorted(self.ROWS.items()))
        self.assertEqual(len({len(line) for line in out.splitlines()[:-1]}), 1)

    def test_rows_with_commas(self):
        self.asked(*BLOCKS)
        rows = list(csv.reader(self.run_here(SUMMARY, '--csv', 'answers')[1].splitlines()))
        self.assertEqual(rows[0], ['block', 'answer', 'status', 'seconds'])
        self.assertEqual([row[:3] for row in rows[1:]], sorted([name, self.ROWS[name], BLOCKS[name][0]] for name in BLOCKS))

    def test_the_status_is_that_of_the_worst_answer(self):
        for names, status in ((['clean'], 0), (['clean', 'measured', 'placed'], 0), (['clean', 'dirty'], 1), (['dirty', 'misspelt'], 2), (['stuck'], 2),
                              (['short_of_memory', 'clean'], 2)):
            with self.subTest(blocks=names):
                shutil.rmtree(os.path.join(self.room, 'answers'), ignore_errors=True)
                self.asked(*names)
                self.assertEqual(self.run_here(SUMMARY, 'answers')[0], status)

    def test_a_block_without_an_answer_has_a_row(self):
        self.asked('clean')
        self.blocks('dirty')
        self.file('blocks/failed.def', '70\n')
        self.run_here(os.path.join(MANY, 'ask'), 'answers/failed', 'blocks/failed.def', 'a.lef')
        self.file('blocks/clean.lefs', 'a.lef')
        status, out, _ = self.run_here(SUMMARY, 'answers', 'blocks')
        self.assertEqual(status, 2)
        self.assertEqual([line.split()[:3] for line in out.splitlines()[2:3]], [['dirty', 'no', 'answer']])
        self.assertIn('failed  no answer, status 70', out)
        self.assertTrue(out.endswith('\nblocks 3, legal 1, without an answer 2\n'))
        self.assertNotIn('dirty', self.run_here(SUMMARY, 'answers')[1])

    def test_an_answer_that_is_cut_is_none(self):
        self.asked('dirty', 'clean')
        for name, text in (('dirty', 'UNPLACED u1\n'), ('clean', ''), ('dirty', 'violations 1')):
            self.file(f'answers/{name}.answer', text)
            self.assertEqual(self.run_here(SUMMARY, 'answers')[0], 2)
        self.assertEqual(self.run_here(SUMMARY, 'answers')[1].splitlines()[-1], 'blocks 2, without an answer 2')

    def test_without_a_block_there_is_nothing_to_say(self):
        os.mkdir(os.path.join(self.room, 'answers'))
        self.assertEqual(self.run_here(SUMMARY, 'answers'), (2, 'block  answer    seconds\nblocks 0\n', ''))

    def test_what_cannot_be_read(self):
        self.assertEqual(self.run_here(SUMMARY, 'none'), (5, '', 'summary: none: No such file or directory\n'))
        self.asked('clean')
        self.assertEqual(self.run_here(SUMMARY, 'answers', 'none'), (5, '', 'summary: none: No such file or directory\n'))

    def test_usage(self):
        for words in ((), ('a', 'b', 'c'), ('--some', 'a')):
            status, out, err = self.run_here(SUMMARY, *words)
            self.assertEqual((status, out), (64, ''))
            self.assertRegex(err, r'\Asummary: [^\n]*; tools/summary --help says more\n\Z')


if __name__ == '__main__':
    unittest.main()
