"""Tests of tools/dist, which packs the program that was built and says whether that of dist/ is the same, and of the suite tests/dist/run. Small
scripts stand in for the program and for the cases of tests/program."""
import gzip
import hashlib
import os
import shutil
import subprocess
import tempfile
import unittest

TOP = os.path.normpath(os.path.join(os.path.dirname(os.path.abspath(__file__)), '..', '..'))

# Answers as far as the suite asks.
PROGRAM = """#!/bin/sh
[ "$1" != --help ] || exec echo help
printf 'OPEN n1 u2 A\\nOPEN n1 u3 A\\nviolations 2\\n'
exit 1
"""
# Notes the programs that are tried, and passes.
CASES = """#!/bin/sh
for program; do
    cksum <"$program" >>"$ROOM/tried"
done
echo '9 passed, 0 failed'
"""
SOURCES = 'tools/sources-sum'


class Room(unittest.TestCase):
    """A test with a repository of its own, in which a program was built."""

    def setUp(self):
        room = tempfile.TemporaryDirectory()
        self.addCleanup(room.cleanup)
        self.room = room.name
        self.commands = os.path.join(self.room, 'commands')
        for name in ('tools/dist', SOURCES, 'tests/dist/run'):
            os.makedirs(os.path.dirname(os.path.join(self.room, name)), exist_ok=True)
            shutil.copy(os.path.join(TOP, name), os.path.join(self.room, name))
        self.file('crates.txt', 'lefdef:\n')
        self.file('crates/lefdef/src/main.rt', 'fn main() {}\n')
        self.script('tests/program/run', CASES)
        os.mkdir(os.path.join(self.room, 'dist'))
        self.build(PROGRAM)

    def file(self, name, text):
        path = os.path.join(self.room, name)
        os.makedirs(os.path.dirname(path), exist_ok=True)
        with open(path, 'w', encoding='utf-8') as file:
            file.write(text)
        return path

    def script(self, name, text):
        os.chmod(self.file(name, text), 0o755)

    def read(self, name):
        with open(os.path.join(self.room, name), 'rb') as file:
            return file.read()

    def run_script(self, *words, at='.'):
        """Returns the status, the output and the messages of a call."""
        path = os.pathsep.join([self.commands, '/usr/bin', '/bin'])
        ran = subprocess.run(
            [os.path.join(self.room, words[0]), *words[1:]], cwd=os.path.join(self.room, at), env={'PATH': path, 'ROOM': self.room},
            capture_output=True, text=True, check=False)
        return ran.returncode, ran.stdout, ran.stderr

    def note(self, program, kit):
        """Returns what stands in built-from of a program of these sources."""
        return f'{self.run_script(SOURCES, "lefdef")[1]}{kit}\n{hashlib.blake2b(program.encode()).hexdigest()}  -\n'

    def build(self, program, kit='kit 1'):
        """Puts a program where a build leaves it, as one of the sources that are here."""
        self.script('crates/lefdef/out/lefdef', program)
        self.file('crates/lefdef/out/built-from', self.note(program, kit))

    def doctor(self, program):
        """Puts another program into dist/lefdef.gz alone."""
        with open(os.path.join(self.room, 'dist', 'lefdef.gz'), 'wb') as file:
            file.write(gzip.compress(program.encode()))


class DistTests(Room):
    """tools/dist."""

    def pack(self):
        status, out, err = self.run_script('tools/dist')
        self.assertEqual((status, err), (0, ''), out)

    def check_says(self, status, said):
        """Checks what --check says."""
        self.assertEqual(self.run_script('tools/dist', '--check'), (status, f'dist: {said}\n', ''))

    def test_it_packs_the_program_that_was_built(self):
        self.pack()
        self.assertEqual(sorted(os.listdir(os.path.join(self.room, 'dist'))), ['built-from', 'lefdef.gz'])
        self.assertEqual(gzip.decompress(self.read('dist/lefdef.gz')), PROGRAM.encode())
        self.assertEqual(self.read('dist/built-from'), self.read('crates/lefdef/out/built-from'))

    def test_the_same_program_is_packed_alike(self):
        self.pack()
        packed = self.read('dist/lefdef.gz')
        os.utime(os.path.join(self.room, 'crates/lefdef/out/lefdef'), (1_000_000_000, 1_000_000_000))
        self.pack()
        self.assertEqual(self.read('dist/lefdef.gz'), packed)

    def test_it_packs_into_another_folder(self):
        for folder, at in (('dist/a b', '.'), ('a b', 'dist'), (os.path.join(self.room, 'dist', 'a b'), '/')):
            with self.subTest(folder=folder, at=at):
                os.mkdir(os.path.join(self.room, 'dist', 'a b'))
                self.assertEqual(self.run_script('tools/dist', folder, at=at)[0], 0)
                self.assertEqual(gzip.decompress(self.read('dist/a b/lefdef.gz')), PROGRAM.encode())
                shutil.rmtree(os.path.join(self.room, 'dist', 'a b'))
        self.assertEqual(self.run_script('tools/dist', 'none')[::2], (1, f'dist: there is no folder {self.room}/none\n'))

    def check_refused(self, said):
        """Checks that nothing is packed, and that dist/ stays as it is."""
        before = {name: self.read(f'dist/{name}') for name in os.listdir(os.path.join(self.room, 'dist'))}
        status, out, err = self.run_script('tools/dist')
        self.assertEqual((status, out), (1, ''))
        self.assertTrue(err.startswith(f'dist: {said}'), err)
        self.assertEqual({name: self.read(f'dist/{name}') for name in os.listdir(os.path.join(self.room, 'dist'))}, before)

    def test_a_program_of_other_sources_is_not_packed(self):
        self.pack()
        self.file('crates/lefdef/src/main.rt', 'fn main() { }\n')
        self.check_refused('no program was built here from these sources: ')

    def test_a_program_that_was_changed_is_not_packed(self):
        self.script('crates/lefdef/out/lefdef', PROGRAM + 'echo\n')
        self.check_refused('no program was built here from these sources: ')

    def test_without_a_program_nothing_is_packed(self):
        for name in ('built-from', 'lefdef'):
            os.remove(os.path.join(self.room, 'crates/lefdef/out', name))
            self.check_refused('no program was built here from these sources: ')

    def test_on_another_system_nothing_is_packed(self):
        self.script('commands/uname', '#!/bin/sh\necho Linux aarch64\n')
        self.check_refused('a program for Linux on x86_64 is packed, and this is Linux aarch64')

    def test_other_words_are_a_usage_error(self):
        for words in (['--pack'], ['dist', 'dist'], ['--check', 'dist']):
            self.assertEqual(self.run_script('tools/dist', *words), (64, '', 'dist: the words are a folder, or --check, or none\n'))

    def test_the_same_program_is_told(self):
        self.pack()
        self.check_says(0, 'the program of dist/ is the one that was built here from these sources, byte for byte')
        self.build(PROGRAM, 'kit 2')
        self.check_says(0, 'the program of dist/ is the one that was built here from these sources, byte for byte')

    def test_a_program_that_differs_under_one_kit_is_wrong(self):
        self.pack()
        self.build(PROGRAM + '\n')
        self.check_says(1, 'the program of dist/ is of these sources and this kit, and differs from the one that was built here')

    def test_programs_of_two_kits_have_to_answer_alike(self):
        self.pack()
        self.build(PROGRAM + '\n', 'kit 2')
        said = 'dist: the program of dist/ is of another kit than the one that was built here from these sources, and '
        self.assertEqual(self.run_script('tools/dist', '--check'), (0, f'9 passed, 0 failed\n{said}both answer all cases\n', ''))
        sums = [subprocess.run(['cksum'], input=text.encode(), stdout=subprocess.PIPE, check=True).stdout for text in (PROGRAM, PROGRAM + '\n')]
        self.assertEqual(self.read('tried'), b''.join(sums))
        self.script('tests/program/run', '#!/bin/sh\nexit 1\n')
        self.assertEqual(self.run_script('tools/dist', '--check'), (1, f'{said}not both answer all cases\n', ''))

    def test_a_packed_program_that_was_changed_is_wrong(self):
        self.pack()
        self.doctor(PROGRAM + 'echo\n')
        for sources in ('fn main() {}\n', 'fn main() { }\n'):
            self.file('crates/lefdef/src/main.rt', sources)
            self.check_says(1, 'dist/lefdef.gz has not the sum that is in dist/built-from')
        self.file('dist/lefdef.gz', 'no archive\n')
        status, out, _ = self.run_script('tools/dist', '--check')
        self.assertEqual((status, out), (1, 'dist: dist/lefdef.gz cannot be unpacked\n'))

    def test_one_file_without_the_other_is_wrong(self):
        for name in ('built-from', 'lefdef.gz'):
            self.pack()
            os.remove(os.path.join(self.room, 'dist', name))
            self.check_says(1, 'of dist/lefdef.gz and dist/built-from one is missing')

    def test_where_nothing_can_be_said_that_is_said(self):
        self.check_says(3, 'there is no program in dist/')
        self.pack()
        self.file('crates/lefdef/src/main.rt', 'fn main() { }\n')
        self.check_says(3, 'the program of dist/ is of other sources; tools/dist packs that of these')
        self.file('crates/lefdef/src/main.rt', 'fn main() {}\n')
        os.remove(os.path.join(self.room, 'crates/lefdef/out/built-from'))
        self.check_says(3, 'the program of dist/ is of these sources; no program was built here from them to compare it with')


class SuiteTests(Room):
    """tests/dist/run."""

    def check_suite(self, passed, *failures):
        """Checks how many trials passed, and which failed."""
        status, out, _ = self.run_script('tests/dist/run')
        lines = out.splitlines()
        self.assertEqual([line for line in lines if line.startswith('FAILED: ')], [f'FAILED: {failure}' for failure in failures])
        self.assertEqual((status, lines[-1]), (int(bool(failures)), f'{passed} passed, {len(failures)} failed'), out)
        return out

    def test_what_it_tries_without_a_program_in_dist(self):
        self.assertIn('dist: there is no program in dist/\n', self.check_suite(7))

    def test_what_it_tries_of_one_of_these_sources(self):
        self.assertEqual(self.run_script('tools/dist')[0], 0)
        self.assertIn('byte for byte\n', self.check_suite(12))

    def test_one_of_other_sources_is_no_failure(self):
        self.assertEqual(self.run_script('tools/dist')[0], 0)
        self.file('crates/lefdef/src/main.rt', 'fn main() { }\n')
        self.build(PROGRAM + '\n')
        self.assertIn('dist: the program of dist/ is of other sources; tools/dist packs that of these\n', self.check_suite(10))

    def test_one_that_was_changed_is_a_failure(self):
        self.assertEqual(self.run_script('tools/dist')[0], 0)
        self.doctor('#!/bin/sh\nexit 3\n')
        wrong = ('is that of these sources', 'has the sum that stands beside it', 'runs')
        self.check_suite(8, *(f'the program of dist/ {what}' for what in wrong))

    def test_one_that_differs_from_what_was_built_is_a_failure(self):
        self.assertEqual(self.run_script('tools/dist')[0], 0)
        self.build(PROGRAM + '\n')
        self.check_suite(10, 'the program of dist/ is that of these sources')

    def test_a_program_that_answers_otherwise_is_a_failure(self):
        for change in (('violations 2', 'violations 3'), ('exit 1', 'exit 0'), ('exit 1', 'echo odd >&2\nexit 1')):
            self.build(PROGRAM.replace(*change))
            self.check_suite(6, 'it answers an example')

    def test_without_a_program_of_these_sources_it_fails(self):
        os.remove(os.path.join(self.room, 'crates/lefdef/out/built-from'))
        self.assertEqual(self.run_script('tests/dist/run')[0], 1)


if __name__ == '__main__':
    unittest.main()
