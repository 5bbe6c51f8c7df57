"""Tests of the gate: the script `test`, on a copy in which small scripts stand in for its suites and for the kit's `rt`; and of what its suites
tests/library/run and tests/design/run hold a program to."""
import glob
import os
import re
import shutil
import subprocess
import tempfile
import unittest

TOP = os.path.normpath(os.path.join(os.path.dirname(os.path.abspath(__file__)), '..', '..'))
SUITES = sorted({*(os.path.relpath(path, TOP) for path in glob.glob(os.path.join(TOP, 'tests', '*', 'run'))), 'tests/program/failures'})
# The wrong bodies are two parts of the gate: those of its list, and others.
PARTS = sorted([*SUITES, 'tests/edits/run'])

# Leaves a program, as `rt ci` does, and passes.
RT = '''#!/bin/sh
[ "$1" != version ] || exec echo a kit
[ "$1" = ci ] || exec echo unasked
mkdir -p crates/lefdef/out
printf '#!/bin/sh\\necho ran "$@"\\n' >crates/lefdef/out/lefdef
chmod +x crates/lefdef/out/lefdef
'''
PASSED = "echo '100 passed, 0 failed'\n"
# What each suite says where nothing is wrong.
SUITE = "#!/bin/sh\necho some words\necho '3 passed, 0 failed'\n"


class Room(unittest.TestCase):
    """A test with a folder of its own."""

    def setUp(self):
        room = tempfile.TemporaryDirectory()
        self.addCleanup(room.cleanup)
        self.room = room.name

    def file(self, name, text):
        path = os.path.join(self.room, name)
        os.makedirs(os.path.dirname(path), exist_ok=True)
        with open(path, 'w', encoding='utf-8') as file:
            file.write(text)
        return path

    def script(self, name, text):
        os.chmod(self.file(name, text), 0o755)

    def copy(self, name):
        path = os.path.join(self.room, name)
        os.makedirs(os.path.dirname(path), exist_ok=True)
        shutil.copy(os.path.join(TOP, name), path)
        return path


class GateTests(Room):
    def setUp(self):
        super().setUp()
        for name in ('test', 'lefdef', 'tools/sources-sum', 'tests/edits/libraries.py'):
            self.copy(name)
        self.file('crates.txt', 'lefdef:\n')
        self.file('crates/lefdef/src/main.rt', 'fn main() {}\n')
        self.commands = os.path.join(self.room, 'commands')
        self.all_good()

    def all_good(self):
        self.script('commands/rt', RT + PASSED)
        for suite in SUITES:
            self.script(suite, SUITE)

    def started(self, name='test', *words):
        path = os.pathsep.join([self.commands, '/usr/bin', '/bin'])
        return subprocess.Popen(
            [os.path.join(self.room, name), *words], cwd='/', env={'PATH': path, 'ROOM': self.room, 'TMPDIR': self.room}, text=True,
            stdout=subprocess.PIPE, stderr=subprocess.STDOUT)

    def run_gate(self):
        """Returns the status and the lines of the gate."""
        started = self.started()
        out = started.communicate(timeout=60)[0]
        return started.returncode, out.splitlines()

    def check_fails(self, name, last, failed=1):
        """Checks that the gate fails, names what failed, and counts so many failures."""
        status, lines = self.run_gate()
        self.assertNotEqual(status, 0)
        self.assertEqual([line for line in lines if line.startswith('FAILED: ')], [f'FAILED: {name}: {last}'])
        self.assertRegex(lines[-1], rf'^\d+ passed, {failed} failed$')

    def test_it_is_green_where_all_pass(self):
        status, lines = self.run_gate()
        self.assertEqual((status, lines[-1]), (0, f'{100 + 3 * len(PARTS)} passed, 0 failed'))
        self.assertEqual([line for line in lines if line.startswith('FAILED: ')], [])

    def test_each_suite_of_the_repository_is_in_it(self):
        names = [line.split()[1] for line in self.run_gate()[1] if line.startswith('== ')]
        self.assertEqual(sorted(names), PARTS)
        for suite in SUITES:
            self.assertTrue(os.access(os.path.join(TOP, suite), os.X_OK), suite)

    def test_wrong_bodies_are_those_of_the_gate(self):
        self.script('tests/edits/run', SUITE + 'case "$*" in --gate) ;; "--changed --minutes "[1-9]) ;; *) exit 1 ;; esac\n')
        self.assertEqual(self.run_gate()[0], 0)
        for words in ('--gate', '--changed*'):
            self.script('tests/edits/run', SUITE + f'case "$*" in {words}) exit 1 ;; esac\n')
            status, lines = self.run_gate()
            self.assertEqual((status, lines[-1].split(', ')[1]), (1, '1 failed'), lines)

    def test_a_suite_that_is_missing_is_a_failure(self):
        for suite in SUITES:
            with self.subTest(suite=suite):
                os.remove(os.path.join(self.room, suite))
                status, lines = self.run_gate()
                named = [line for line in lines if line.startswith(f'FAILED: {suite}')]
                self.assertEqual((status, len(named)), (1, PARTS.count(suite)), lines)
                self.assertEqual(lines[-1], f'{100 + 3 * (len(PARTS) - len(named))} passed, {len(named)} failed')
                self.all_good()

    def test_a_suite_that_cannot_be_run_is_a_failure(self):
        os.chmod(os.path.join(self.room, 'tests/library/run'), 0o644)
        status, lines = self.run_gate()
        self.assertEqual(len([line for line in lines if line.startswith('FAILED: tests/library/run: status 126, and last ')]), 1, lines)
        self.assertEqual((status, lines[-1]), (1, f'{97 + 3 * len(PARTS)} passed, 1 failed'))

    def test_a_suite_that_says_it_passed_and_has_another_status_is_a_failure(self):
        self.script('tests/docs/run', SUITE + 'exit 1\n')
        self.check_fails('tests/docs/run', "status 1, and last '3 passed, 0 failed'")

    def test_a_suite_that_is_killed_is_a_failure(self):
        self.script('tests/docs/run', SUITE + 'kill -9 $$\n')
        status, lines = self.run_gate()
        self.assertEqual((status, lines[-1].split(', ')[1]), (1, '1 failed'))
        self.assertTrue(any(line.startswith('FAILED: tests/docs/run: status 137, and last ') for line in lines), lines)

    def test_a_suite_that_tried_nothing_is_a_failure(self):
        self.script('tests/docs/run', "#!/bin/sh\necho '0 passed, 0 failed'\n")
        self.check_fails('tests/docs/run', "status 0, and last '0 passed, 0 failed'")

    def test_a_suite_that_says_nothing_is_a_failure(self):
        self.script('tests/tools/run', '#!/bin/sh\n')
        self.check_fails('tests/tools/run', "status 0, and last ''")

    def test_a_suite_whose_last_line_does_not_count_is_a_failure(self):
        for last in ('3 passed', 'all passed, 0 failed', '3 passed, 0 failed, 1 skipped', '3 passed, no failed', '- passed, - failed', 'what 3 passed, 0 failed'):
            with self.subTest(last=last):
                self.script('tests/program/failures', f"{SUITE}echo '{last}'\n")
                self.check_fails('tests/program/failures', f"status 0, and last '{last}'")

    def test_failures_that_a_suite_counts_are_counted(self):
        for status in (0, 1):
            self.script('tests/design/run', f"#!/bin/sh\necho '0 passed, 2 failed'\nexit {status}\n")
            self.check_fails('tests/design/run', f"status {status}, and last '0 passed, 2 failed'", 2)

    def test_rt_is_held_to_the_same(self):
        for last, status in (('100 passed, 0 failed', 1), ('0 passed, 0 failed', 0), ('rt: ok', 0), ('', 0)):
            with self.subTest(last=last, status=status):
                self.script('commands/rt', f"{RT}echo '{last}'\nexit {status}\n")
                self.check_fails('rt ci', f"status {status}, and last '{last}'")
        self.script('commands/rt', RT + "echo '99 passed, 1 failed'\nexit 1\n")
        self.check_fails('rt ci', "status 1, and last '99 passed, 1 failed'")

    def test_without_rt_it_fails(self):
        os.remove(os.path.join(self.commands, 'rt'))
        status, lines = self.run_gate()
        self.assertEqual(status, 1)
        self.assertTrue(any(line.startswith('FAILED: rt ci: status 127, and last ') for line in lines), lines)
        self.assertEqual(lines[-1], f'{3 * len(PARTS)} passed, 1 failed')

    def test_what_rt_says_is_shown_while_it_runs(self):
        os.mkfifo(os.path.join(self.room, 'seen'))
        self.script('commands/rt', RT + f'echo begun\ncat "$ROOM/seen"\n{PASSED}')
        started = self.started()
        self.assertEqual(started.stdout.readline(), 'begun\n')
        with open(os.path.join(self.room, 'seen'), 'w', encoding='utf-8') as file:
            file.write('seen\n')
        self.assertEqual(started.communicate(timeout=60)[0].splitlines()[:2], ['seen', '100 passed, 0 failed'])
        self.assertEqual(started.returncode, 0)

    def test_wrong_bodies_begin_when_their_crates_are_proved(self):
        self.file('tests/edits/gate', '# words\nlow/some f\nhigh/other g::h\n')
        self.script('tests/edits/run', SUITE + '[ "$1" != --gate ] || touch "$ROOM/begun"\n')
        for last, begins in (('rt: high proved', True), ('rt: high is kept: from a run before', True), ('rt: high NOT PROVED', False)):
            with self.subTest(last=last):
                waits = 'for i in 1 2 3 4 5 6 7 8; do [ -e "$ROOM/begun" ] || sleep 0.5; done\n[ ! -e "$ROOM/begun" ] || echo early\n'
                self.script('commands/rt', f"{RT}echo 'rt: low proved'\necho '{last}'\n{waits}{PASSED}")
                status, lines = self.run_gate()
                self.assertEqual((status, 'early' in lines), (0, begins), lines)
                os.remove(os.path.join(self.room, 'begun'))

    def test_wrong_bodies_are_tried_part_by_part(self):
        self.file('tests/edits/gate', '# words\nlow/some f\nlow/more f\nleast/a b\n# others\nhigh/other g::h\n')
        self.script('tests/edits/run', SUITE + 'echo "$*" >>"$ROOM/words"\ncase "$*" in *low*) touch "$ROOM/begun" ;; esac\n')
        waits = 'for i in 1 2 3 4 5 6 7 8; do [ -e "$ROOM/begun" ] || sleep 0.5; done\n[ ! -e "$ROOM/begun" ] || echo early\n'
        self.script('commands/rt', f"{RT}echo 'rt: low proved'\necho 'rt: least proved'\n{waits}echo 'rt: high proved'\n{PASSED}")
        status, lines = self.run_gate()
        self.assertEqual((status, 'early' in lines, lines[-1]), (0, True, f'{103 + 3 * len(PARTS)} passed, 0 failed'), lines)
        told = [line for line in lines if line.startswith('== tests/edits/run --gate')]
        self.assertEqual(told, ['== tests/edits/run --gate least low', '== tests/edits/run --gate high'])
        with open(os.path.join(self.room, 'words'), encoding='utf-8') as file:
            self.assertEqual(file.read().splitlines()[:2], [f'--gate least low --jobs {(len(os.sched_getaffinity(0)) + 1) // 2}', '--gate high'])
        for words in ('*low*', '*high*'):
            self.script('tests/edits/run', SUITE + f'case "$*" in {words}) exit 1 ;; esac\n')
            status, lines = self.run_gate()
            self.assertEqual((status, lines[-1].split(', ')[1]), (1, '1 failed'), lines)

    def test_wrong_bodies_that_are_left_at_the_end_are_tried_beside_those_that_are_being_tried(self):
        def wait(name):
            return f'for i in 1 2 3 4 5 6 7 8; do [ -e "$ROOM/{name}" ] || sleep 0.5; done\n[ -e "$ROOM/{name}" ] || exit 1\n'
        self.file('tests/edits/gate', '# words\nlow/some f\n# others\nhigh/other g::h\n')
        self.script('tests/edits/run', f'#!/bin/sh\ncase "$*" in\n*low*)\ntouch "$ROOM/low"\n{wait("high")};;\n*high*) touch "$ROOM/high" ;;\nesac\n{PASSED}')
        self.script('commands/rt', f"{RT}echo 'rt: low proved'\n{wait('low')}{PASSED}")
        status, lines = self.run_gate()
        told = [line for line in lines if line.startswith('== tests/edits/run --gate')]
        self.assertEqual((status, told), (0, ['== tests/edits/run --gate low', '== tests/edits/run --gate high']), lines)

    def test_wrong_bodies_of_crates_that_are_kept_are_tried_at_once(self):
        self.file('tests/edits/gate', '# words\nlow/some f\nlow/more f\nleast/a b\n# others\nhigh/other g::h\n# last\ntop/of i\n')
        kept = ''.join(f"echo 'rt: {it} is kept: from a run before'\n" for it in ('least', 'low', 'high', 'top'))
        self.script('commands/rt', f'{RT}{kept}{PASSED}')
        status, lines = self.run_gate()
        told = [line for line in lines if line.startswith('== tests/edits/run --gate')]
        self.assertEqual((status, told), (0, ['== tests/edits/run --gate high least low top']), lines)
        self.script('tests/edits/run', SUITE + 'case "$*" in *high*) exit 1 ;; esac\n')
        status, lines = self.run_gate()
        self.assertEqual((status, lines[-1].split(', ')[1]), (1, '1 failed'), lines)

    # What ends the shell that tries the list, and the status that it has then.
    ENDS = (('exit 0', 0), ('exit 3', 3), ("sh -c 'kill -9 $PPID'", 137))
    # Ends when the wrong bodies of the first crate are being tried.
    RT_IN_PARTS = (f'{RT}rm -f "$ROOM/begun"\necho "rt: low proved"\n'
                   f'for i in 1 2 3 4 5 6 7 8; do [ -e "$ROOM/begun" ] || sleep 0.5; done\n{PASSED}')

    def check_list_fails(self, line, ends, why):
        """Checks that a gate with this further line behind this one of its script fails, and says this of the list of wrong bodies."""
        self.copy('test')
        with open(os.path.join(self.room, 'test'), encoding='utf-8') as file:
            text = file.read()
        self.assertEqual(text.count(f'{line}\n'), 1)
        self.script('test', text.replace(f'{line}\n', f'{line}\n{ends}\n'))
        status, lines = self.run_gate()
        self.assertNotEqual(status, 0)
        self.assertIn(f'FAILED: the list of wrong bodies: {why}', lines)
        self.assertRegex(lines[-1], r'^\d+ passed, 1 failed$')

    def test_a_list_of_wrong_bodies_that_is_not_begun_is_a_failure(self):
        for ends, status in self.ENDS:
            with self.subTest(ends=ends):
                self.check_list_fails('try_wrong_bodies() {', ends, f'status {status}, and not tried: all')

    def test_a_list_of_wrong_bodies_that_is_not_tried_to_its_end_is_a_failure(self):
        self.file('tests/edits/gate', '# words\nlow/some f\n# others\nhigh/other g::h\nhigh_up/other i\n')
        self.script('commands/rt', self.RT_IN_PARTS)
        self.script('tests/edits/run', SUITE + 'touch "$ROOM/begun"\n')
        self.assertEqual(self.run_gate()[0], 0)
        # (the first of its parts is tried to its end)
        for ends, status in self.ENDS:
            with self.subTest(ends=ends):
                self.check_list_fails('        part=$((part + 1))', f'wait\n{ends}', f'status {status}, and not tried: high high_up')

    def test_proofs_that_are_killed_with_the_shell_around_them_are_a_failure(self):
        self.file('tests/edits/gate', '# words\nlow/some f\n# others\nhigh/other g::h\n')
        self.script('commands/rt', f'{RT}kill -9 $PPID\n')
        self.check_fails('rt ci', "status unknown, and last ''")

    def test_a_part_of_the_list_that_is_killed_is_a_failure(self):
        self.file('tests/edits/gate', '# words\nlow/some f\n# others\nhigh/other g::h\n')
        self.script('commands/rt', self.RT_IN_PARTS)
        for suite in ('low', 'high'):
            with self.subTest(suite=suite):
                self.script('tests/edits/run', SUITE + f'touch "$ROOM/begun"\ncase "$*" in *{suite}*) kill -9 $PPID ;; esac\n')
                self.check_fails(f'tests/edits/run --gate {suite}', "status unknown, and last '3 passed, 0 failed'")

    def test_the_program_that_it_proved_is_not_built_again(self):
        self.run_gate()
        called = self.started('lefdef', 'check')
        self.assertEqual((called.communicate(timeout=60)[0], called.returncode), ('ran check\n', 0))
        self.file('crates/lefdef/src/main.rt', 'fn main() { }\n')
        self.assertIn('lefdef: not built, or not from these sources', self.started('lefdef', 'check').communicate(timeout=60)[0])

    def test_a_program_whose_proof_failed_is_built_again(self):
        self.script('commands/rt', f'{RT}{PASSED}exit 1\n')
        self.run_gate()
        self.assertIn('lefdef: not built, or not from these sources', self.started('lefdef', 'check').communicate(timeout=60)[0])


class ListTests(Room):
    """The suites that try a list of texts, each on a copy with lists of one text and with a program that always answers the same."""

    def said(self, suite, line, status, **lists):
        """Returns what a suite says of a program that prints this line and ends with this status."""
        self.copy(f'tests/{suite}/run')
        for name in ('wired.def', 'standard.lef'):
            self.file(f'examples/{name}', '')
        for name, text in {'read': 'READ\n', 'refused': 'Kind ^REFUSED\n', **lists}.items():
            self.file(f'tests/{suite}/{name}', text)
        self.script('program', f'#!/bin/sh\necho {line}\nexit {status}\n')
        ran = subprocess.run(
            [os.path.join(self.room, 'tests', suite, 'run'), os.path.join(self.room, 'program')], capture_output=True, text=True, check=False)
        self.assertNotEqual(ran.returncode, 0)
        self.assertRegex(ran.stdout, r'\d+ passed, [1-9]\d* failed\n\Z')
        return ran.stdout

    def check_said(self, suite, line, status, passes):
        """Checks which of a text that is read, one that is refused and an empty text, as the cuts of an example are, passes with this answer."""
        said = self.said(suite, line, status)
        texts = {'read': r'READ( END DESIGN)?', 'refused': r'REFUSED\n(END\nDESIGN\n)?'}
        for name, text in texts.items():
            found = re.search(rf'^FAILED: {text}: {line}\nstatus {status} in place of ', said, re.MULTILINE)
            self.assertEqual(found is None, name in passes, said)
        read, odd = int((line, status) == ('legal', 0)), int('cut' not in passes)
        self.assertRegex(said, rf"(?m)^FAILED: the cuts {'0' * read} are read in place of -?\d[\d ]*, and {odd} are neither read nor refused$")
        self.assertNotIn('has no text', said)

    def test_an_answer_to_a_library_passes_only_with_its_status(self):
        for line, status, passes in (
                ('legal', 0, ['read', 'cut']), ('legal', 3, []), ('legal', 2, []), ('violations 1', 1, []), ('REFUSED 0 4 Kind', 2, ['refused', 'cut']),
                ('REFUSED 0 4 Kind', 1, []), ('REFUSED 0 4 Kind', 0, []), ('REFUSED 0 5 Kind', 2, ['cut']), ('REFUSED 1 4 Kind', 2, [])):
            with self.subTest(line=line, status=status):
                self.check_said('library', line, status, passes)

    def test_an_answer_to_a_design_passes_only_with_its_status(self):
        for line, status, passes in (
                ('legal', 0, ['read', 'cut']), ('legal', 3, []), ('REFUSED 2 5 Kind', 2, ['refused']), ('REFUSED 2 5 Kind', 1, []),
                ('REFUSED 1 5 Kind', 2, ['cut']), ('REFUSED 1 5 Kind', 0, [])):
            with self.subTest(line=line, status=status):
                self.check_said('design', line, status, passes)

    def test_a_list_without_a_text_is_a_failure(self):
        for suite in ('library', 'design'):
            for name in ('read', 'refused'):
                with self.subTest(suite=suite, list=name):
                    self.assertIn(f'FAILED: the list {name} has no text\n', self.said(suite, 'legal', 0, **{name: ''}))


if __name__ == '__main__':
    unittest.main()
