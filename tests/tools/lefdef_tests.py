"""Tests of the script `lefdef`: when it builds the program, when it runs that of dist/, and what it says of both; and of tools/sources-sum,
by which it knows. A small script stands in for the kit's `rt`."""
import glob
import gzip
import hashlib
import os
import re
import shutil
import signal
import subprocess
import tempfile
import time
import unittest

TOP = os.path.normpath(os.path.join(os.path.dirname(os.path.abspath(__file__)), '..', '..'))

# Notes each call, and does what a build does as far as the script knows: `rt run` makes the program and runs it.
RT = '''#!/bin/sh
[ "$1" != version ] || exec cat "$KIT"
echo "$1" >>"$CALLS"
case $1 in all | lib | check) eval "$PROVING" ;; esac
[ "$1" = run ] || exit 0
eval "$DURING"
mkdir -p out
printf '#!/bin/sh\\necho ran "$@"\\n' >out/lefdef
chmod +x out/lefdef
exit 64
'''


class Room(unittest.TestCase):
    """A test with a repository of its own: the program stands on the crate `low`, and on `other` it does not."""

    def setUp(self):
        room = tempfile.TemporaryDirectory()
        self.addCleanup(room.cleanup)
        self.room, self.top = room.name, os.path.join(room.name, 'top')
        for name in ('lefdef', 'tools/sources-sum'):
            os.makedirs(os.path.dirname(os.path.join(self.top, name)), exist_ok=True)
            shutil.copy(os.path.join(TOP, name), os.path.join(self.top, name))
        self.source = self.file('top/crates/lefdef/src/main.rt', 'fn main() {}\n')
        self.low = self.file('top/crates/low/proofs/a b/Answers.antt', 'proof\n')
        self.other = self.file('top/crates/other/src/lib.rt', '')
        self.file('top/crates.txt', '# Each crate.\nlow:\nother: low\nlefdef: low clap\n')

    def file(self, name, text):
        path = os.path.join(self.room, name)
        os.makedirs(os.path.dirname(path), exist_ok=True)
        with open(path, 'w', encoding='utf-8') as file:
            file.write(text)
        return path

    def write_older(self, path, text):
        """Replaces a text by one with an older time."""
        self.file(path, text)
        os.utime(path, (1_000_000_000, 1_000_000_000))


class CallTests(Room):
    """A test that calls the script."""

    def setUp(self):
        super().setUp()
        self.kit = self.file('kit', 'kit 1\n')
        os.chmod(self.file('commands/rt', RT), 0o755)
        self.calls = self.file('calls', '')
        self.commands = os.path.join(self.room, 'commands')
        self.program = os.path.join(self.top, 'crates', 'lefdef', 'out', 'lefdef')

    def started(self, program=None, during='', commands=None, scratch=None, words=('check',), proving='', **variables):
        """Starts the script, in a session of its own; `during` are commands of the build, and `proving` of its proofs. A variable may be None,
        and is not set then."""
        path = os.pathsep.join([self.commands if commands is None else commands, '/usr/bin', '/bin'])
        env = {
            'PATH': path, 'CALLS': self.calls, 'KIT': self.kit, 'DURING': during, 'PROVING': proving, 'SOURCE': self.source,
            'TMPDIR': scratch or self.room, **variables}
        started = subprocess.Popen(
            [program or os.path.join(self.top, 'lefdef'), *words], cwd=self.room, text=True, stdout=subprocess.PIPE, stderr=subprocess.PIPE,
            start_new_session=True, env={name: value for name, value in env.items() if value is not None})
        self.addCleanup(self.end, started)
        return started

    @staticmethod
    def end(started):
        """Ends a call that a test has left running, with all that it started."""
        if started.poll() is None:
            os.killpg(started.pid, signal.SIGKILL)
        started.communicate()

    def run_script(self, **given):
        """Returns the status, the output and the messages of a call."""
        started = self.started(**given)
        out, err = started.communicate(timeout=60)
        return started.returncode, out, err

    def builds(self):
        with open(self.calls, encoding='utf-8') as file:
            return file.read().split().count('run')

    def wait_for_builds(self, count):
        for _ in range(200):
            if self.builds() == count:
                return
            time.sleep(0.05)
        self.fail('no build began')



class BuildTests(CallTests):
    """When the program is built."""

    def check_builds(self, count):
        """Checks that the next call runs the program, and that there were so many builds by then; and that another one builds nothing."""
        status, out, err = self.run_script()
        self.assertEqual((status, out, self.builds()), (0, 'ran check\n', count), err)
        self.assertEqual(self.run_script(), (0, 'ran check\n', ''))

    def test_the_first_call_builds_and_the_next_does_not(self):
        status, out, err = self.run_script()
        self.assertEqual((status, out), (0, 'ran check\n'), err)
        self.assertIn('lefdef: not built, or not from these sources with this kit; proving and building it', err)
        self.assertIn('lefdef: built in ', err)
        self.assertEqual(self.run_script(), (0, 'ran check\n', ''))
        self.assertEqual(self.builds(), 1)

    def test_times_of_files_do_not_count(self):
        self.check_builds(1)
        for folder, _, names in os.walk(self.top):
            for name in names:
                os.utime(os.path.join(folder, name))
        self.check_builds(1)

    def test_a_source_that_changes_is_seen_whatever_its_time(self):
        self.check_builds(1)
        self.write_older(self.source, 'fn main() { }\n')
        self.check_builds(2)
        self.write_older(self.low, 'another proof\n')
        self.check_builds(3)
        self.file(self.source, 'fn main() {}\n')
        self.check_builds(4)

    def test_a_source_that_is_new_or_removed_or_has_another_name_is_seen(self):
        more = os.path.join(os.path.dirname(self.source), 'more.rt')
        self.check_builds(1)
        self.file(more, '')
        self.check_builds(2)
        os.rename(more, more.replace('more', 'less'))
        self.check_builds(3)
        os.remove(more.replace('more', 'less'))
        self.check_builds(4)

    def test_what_the_program_does_not_stand_on_does_not_count(self):
        self.check_builds(1)
        self.file(self.other, 'fn other() {}\n')
        self.file('top/crates/low/out/kept', 'kept\n')
        self.file('top/crates/lefdef/stdin', 'a run\n')
        self.file('top/crates.txt', '# Every crate.\nlow:\nlefdef: low clap\nother:\n')
        self.check_builds(1)
        self.file('top/crates.txt', 'low:\nlefdef: low\nother:\n')
        self.check_builds(2)

    def test_another_kit_is_seen(self):
        self.check_builds(1)
        self.file('kit', 'kit 2\n')
        self.check_builds(2)

    def test_a_kit_that_has_its_name_in_a_file_is_not_asked(self):
        os.chmod(self.file('of kit/bin/rt', RT.replace('exec cat "$KIT"', 'exit 3')), 0o755)
        os.remove(os.path.join(self.commands, 'rt'))
        os.symlink('../of kit/bin/rt', os.path.join(self.commands, 'rt'))
        self.file('of kit/KIT-ID', 'kit 1')
        self.check_builds(1)
        self.file('of kit/KIT-ID', 'kit 2')
        self.check_builds(2)

    def test_a_program_that_was_changed_or_removed_is_built(self):
        self.check_builds(1)
        self.write_older(self.program, '#!/bin/sh\necho other\n')
        self.check_builds(2)
        os.chmod(self.program, 0o644)
        self.check_builds(3)
        os.remove(self.program)
        self.check_builds(4)
        os.remove(os.path.join(os.path.dirname(self.program), 'built-from'))
        self.check_builds(5)

    def test_a_source_that_changes_during_the_build_is_seen(self):
        self.run_script(during='echo "// more" >>"$SOURCE"; touch -d @1000000000 "$SOURCE"')
        self.assertEqual(self.builds(), 1)
        self.check_builds(2)

    def test_two_first_calls_build_once(self):
        first = self.started(during='sleep 1')
        self.wait_for_builds(1)
        status, out, err = self.run_script(during='sleep 1')
        self.assertEqual((status, out), (0, 'ran check\n'), err)
        self.assertEqual(err, 'lefdef: waiting for another call, which is building the program\n')
        self.assertEqual(first.communicate(timeout=60)[0], 'ran check\n')
        self.assertEqual(self.builds(), 1)

    def test_a_build_that_is_cut_off_leaves_nothing_that_fits(self):
        self.check_builds(1)
        self.file(self.source, 'fn main() { }\n')
        cut = self.started(during='sleep 60')
        self.wait_for_builds(2)
        os.killpg(cut.pid, signal.SIGKILL)
        cut.communicate()
        # (the program is that of the first build, but the second one might have made another)
        self.file(self.source, 'fn main() {}\n')
        self.check_builds(3)

    def test_it_may_be_called_by_a_link(self):
        link = os.path.join(self.room, 'link')
        os.symlink('top/lefdef', link)
        self.assertEqual(self.run_script(program=link)[:2], (0, 'ran check\n'))

    def test_a_build_that_fails_is_reported(self):
        status, out, err = self.run_script(during='echo no proof; exit 1')
        self.assertEqual((status, out), (70, ''))
        self.assertIn('no proof\n', err)
        self.assertIn('lefdef: not built; all that the build said is in ', err)
        self.check_builds(2)

    def test_without_the_kit_a_program_of_these_sources_runs(self):
        self.check_builds(1)
        self.assertEqual(self.run_script(commands=''), (0, 'ran check\n', ''))

    def test_without_the_kit_nothing_is_built(self):
        for build in (False, True):
            with self.subTest(built_before=build):
                if build:
                    self.check_builds(1)
                    self.file(self.source, 'fn main() { }\n')
                status, out, err = self.run_script(commands='')
                self.assertEqual((status, out), (70, ''))
                self.assertIn("it cannot be built here: the Rattle kit's command rt is not on the PATH", err)

    def test_whatever_goes_wrong_before_the_program_runs_is_no_answer(self):
        self.assertEqual(self.run_script(scratch=os.path.join(self.room, 'none'))[:2], (70, ''))
        os.remove(os.path.join(self.top, 'tools', 'sources-sum'))
        self.assertEqual(self.run_script()[:2], (70, ''))
        os.remove(os.path.join(self.top, 'crates.txt'))
        self.assertEqual(self.run_script()[:2], (70, ''))
        self.assertEqual(self.builds(), 0)

    def test_without_its_folder_nothing_is_built(self):
        shutil.rmtree(os.path.join(self.top, 'crates', 'lefdef'))
        status, out, _ = self.run_script()
        self.assertEqual((status, out, self.builds()), (70, '', 0))

    def test_without_b2sum_that_is_said(self):
        self.check_builds(1)
        bare = os.path.join(self.room, 'bare')
        os.mkdir(bare)
        for name in ('dirname', 'readlink'):
            os.symlink(shutil.which(name), os.path.join(bare, name))
        status, out, err = self.run_script(PATH=bare)
        self.assertEqual((status, out), (70, ''))
        self.assertRegex(err, r'\Alefdef: there is no command b2sum on the PATH, [^\n]*\n\Z')


# What `rt all` says of a crate, with its verdict in the last line.
PROVED = """echo '== {0}
fn {0}::f: proved
logic=proved functions=1'
"""
NOT_PROVED = PROVED.replace('logic=proved', 'logic=not-proved')


class ProvingTests(CallTests):
    """What is said of each crate while it is proved."""

    def said(self, proving, during=''):
        """Returns what the script says of crates while `rt all`, and then `rt run`, has these commands."""
        status, out, err = self.run_script(proving=proving, during=during)
        self.assertEqual((status, out), (0, 'ran check\n'), err)
        return re.findall(r'(?m)^lefdef: proved (\S+ \(.*\)), 0 min \d+ s$', err)

    def test_each_crate_that_is_proved_has_a_line(self):
        self.assertEqual(self.said(PROVED.format('low') + PROVED.format('lefdef')), ['low (1 of 2)', 'lefdef (2 of 2)'])

    def test_the_line_comes_when_the_crate_is_proved(self):
        seen = os.path.join(self.room, 'seen')
        os.mkfifo(seen)
        started = self.started(proving=f"{PROVED.format('low')}cat '{seen}'\n")
        self.assertIn('proving and building it', started.stderr.readline())
        self.assertRegex(started.stderr.readline(), r'\Alefdef: proved low \(1 of 2\), ')
        with open(seen, 'w', encoding='utf-8') as file:
            file.write('seen\n')
        self.assertEqual((started.communicate(timeout=60)[0], started.returncode), ('ran check\n', 0))

    def test_one_that_is_not_proved_has_none(self):
        self.assertEqual(self.said(NOT_PROVED.format('low') + PROVED.format('lefdef')), ['lefdef (1 of 2)'])

    def test_one_that_an_earlier_build_proved_is_counted(self):
        self.file('top/crates/low/out/rlib/stamp', '')
        for said in ('', "echo 'rt: low: begins with what a check kept in another place'\n"):
            with self.subTest(said=said):
                self.assertEqual(self.said("echo '== low'\n" + said + PROVED.format('lefdef')), ['lefdef (2 of 2)'])
                self.file(self.source, said)

    def test_one_of_which_nothing_is_known_is_not(self):
        self.assertEqual(self.said("echo '== low'\n" + PROVED.format('lefdef')), ['lefdef (1 of 2)'])

    def test_what_is_proved_one_at_a_time_has_a_line_too(self):
        one = PROVED.replace('== ', 'crate ').replace('\nfn', ': modules loaded=1 checked=2\nfn')
        proving = NOT_PROVED.format('lefdef') + 'exit 1\n'
        self.assertEqual(self.said(proving, one.format('low') + one.format('lefdef')), ['low (1 of 2)', 'lefdef (2 of 2)'])


# What `rt lib` and `rt check` say of the crate in whose folder they are.
PROVED_HERE = """name=$(basename "$PWD")
echo "crate $name: modules loaded=1 checked=2"
echo "logic=proved functions=1"
"""


class ProveTests(ProvingTests):
    """The same where tools/prove proves the crates; and that `rt all` does where it cannot."""

    def setUp(self):
        super().setUp()
        shutil.copy(os.path.join(TOP, 'tools', 'prove'), os.path.join(self.top, 'tools', 'prove'))
        self.file('top/crates/low/src/lib.rt', '')

    def calls_of(self):
        with open(self.calls, encoding='utf-8') as file:
            return file.read().split()

    def python_that(self, does):
        """Puts a script in the place of Python."""
        os.chmod(self.file('commands/python3', f'#!/bin/sh\n{does}\n'), 0o755)

    def test_each_crate_that_is_proved_has_a_line(self):
        self.assertEqual(self.said(PROVED_HERE), ['low (1 of 2)', 'lefdef (2 of 2)'])
        self.assertEqual(self.calls_of(), ['lib', 'check', 'run'])

    def test_the_line_comes_when_the_crate_is_proved(self):
        seen = os.path.join(self.room, 'seen')
        os.mkfifo(seen)
        started = self.started(proving=f"{PROVED_HERE}[ $name = low ] || cat '{seen}'\n")
        self.assertIn('proving and building it', started.stderr.readline())
        self.assertRegex(started.stderr.readline(), r'\Alefdef: proved low \(1 of 2\), ')
        with open(seen, 'w', encoding='utf-8') as file:
            file.write('seen\n')
        self.assertEqual((started.communicate(timeout=60)[0], started.returncode), ('ran check\n', 0))

    def test_one_that_is_not_proved_has_none(self):
        """It ends the build, with what rt said of it last."""
        status, out, err = self.run_script(proving="echo 'fn low::f: not proved'\necho logic=not-proved\nexit 1\n")
        self.assertEqual((status, out, self.calls_of()), (70, '', ['lib']))
        self.assertNotIn('lefdef: proved', err)
        self.assertIn('== low\nfn low::f: not proved\nlogic=not-proved\nthe build ended with status 1\nlefdef: not built; all that ', err)

    def test_one_that_an_earlier_build_proved_is_counted(self):
        self.file('top/crates/low/out/rlib/stamp', '')
        self.assertEqual(self.said(f'[ "$(basename "$PWD")" = lefdef ] || exit 0\n{PROVED_HERE}'), ['lefdef (2 of 2)'])

    def test_one_of_which_nothing_is_known_is_not(self):
        self.assertEqual(self.said(f'[ "$(basename "$PWD")" = lefdef ] || exit 0\n{PROVED_HERE}'), ['lefdef (1 of 2)'])

    def test_what_is_proved_one_at_a_time_has_a_line_too(self):
        self.assertEqual(self.said('exit 2', PROVED_HERE), ['lefdef (1 of 2)'])
        self.assertEqual(self.calls_of(), ['lib', 'all', 'run'])

    def test_without_python_rt_proves_all(self):
        for does in ('exit 127', 'exit 1'):
            with self.subTest(python=does):
                self.python_that(does)
                self.file('top/crates/low/src/lib.rt', does)
                self.file('calls', '')
                self.assertEqual(self.said(PROVED.format('low') + PROVED.format('lefdef')), ['low (1 of 2)', 'lefdef (2 of 2)'])
                self.assertEqual(self.calls_of(), ['all', 'run'])

    def test_where_no_copy_can_be_made_rt_proves_all(self):
        os.symlink('nowhere', os.path.join(self.top, 'crates', 'low', 'proofs', 'lost'))
        self.assertEqual(self.said(PROVED.format('low') + PROVED.format('lefdef')), ['low (1 of 2)', 'lefdef (2 of 2)'])
        self.assertEqual(self.calls_of(), ['all', 'run'])

    def test_a_build_that_is_ended_leaves_no_copy(self):
        scratch = os.path.join(self.room, 'scratch')
        os.mkdir(scratch)
        started = self.started(scratch=scratch, proving=': >"$CALLS.begun"; exec sleep 60')
        for _ in range(200):
            if os.path.exists(f'{self.calls}.begun'):
                break
            time.sleep(0.05)
        os.killpg(started.pid, signal.SIGTERM)
        started.communicate(timeout=60)
        for _ in range(200):
            if not [it for it in os.listdir(scratch) if it.startswith('prove-')]:
                return
            time.sleep(0.05)
        self.fail('a copy is left')


class PackedTests(CallTests):
    """When the program of dist/ is run."""

    def setUp(self):
        super().setUp()
        self.home = os.path.join(self.room, 'home')
        self.unpacked = os.path.join(self.top, 'dist', '.unpacked')
        self.pack('#!/bin/sh\necho packed "$@"\n')

    def pack(self, program):
        """Puts a program into dist/, as one of the sources that are here."""
        os.makedirs(os.path.join(self.top, 'dist'), exist_ok=True)
        with open(os.path.join(self.top, 'dist', 'lefdef.gz'), 'wb') as file:
            file.write(gzip.compress(program.encode()))
        sources = subprocess.run([os.path.join(self.top, 'tools', 'sources-sum'), 'lefdef'], capture_output=True, text=True, check=True).stdout
        self.file('top/dist/built-from', f'{sources}kit 1\n{hashlib.blake2b(program.encode()).hexdigest()}  -\n')

    def kept(self, *folder):
        """Returns the files in which calls have left the program, as paths from a folder."""
        found = glob.glob(os.path.join(*folder, '**', '*'), recursive=True)
        return sorted(os.path.relpath(path, os.path.join(*folder)) for path in found if os.path.isfile(path))

    def check_packed(self, **given):
        """Checks that the next call runs the program of dist/, and returns what it says."""
        status, out, err = self.run_script(**given)
        self.assertEqual((status, out, self.builds()), (0, 'packed check\n', 0), err)
        return err

    def check_built(self, said, **given):
        """Checks that the next call builds the program, and says why it does not run that of dist/."""
        status, out, err = self.run_script(**given)
        self.assertEqual((status, out, self.builds()), (0, 'ran check\n', 1), err)
        self.assertIn(f'lefdef: {said}\n', err)

    def test_it_is_run_without_a_build_and_said_once(self):
        said = self.check_packed(commands='')
        self.assertRegex(said, r'\Alefdef: running the program of dist/, built from these sources with kit 1 as dist/built-from has it; [^\n]*\n\Z')
        self.assertEqual(self.check_packed(commands=''), '')
        self.assertEqual(len(self.kept(self.unpacked)), 1)
        self.assertEqual(self.check_packed(), '')

    def test_it_gets_the_words_and_its_status_is_kept(self):
        self.pack('#!/bin/sh\n[ "$1" = --help ] || { printf "<%s>" "$@"; cat; exit 3; }\n')
        for _ in range(2):
            status, out, _ = self.run_script(words=['a b', '', '*'])
            self.assertEqual((status, out), (3, '<a b><><*>'))
        self.assertEqual(self.run_script(words=[])[:2], (3, '<>'))

    def test_its_path_is_printed_on_demand(self):
        status, out, _ = self.run_script(LEFDEF_PATH='1')
        self.assertEqual((status, out), (0, os.path.join(self.unpacked, *self.kept(self.unpacked)) + '\n'))
        self.assertEqual(self.run_script(LEFDEF_PROVE='1')[:2], (0, 'ran check\n'))
        self.assertEqual(self.run_script(LEFDEF_PATH='1'), (0, os.path.join(self.top, 'crates', 'lefdef', 'out', 'lefdef') + '\n', ''))

    def test_a_program_that_was_built_here_comes_first(self):
        self.assertEqual(self.run_script(LEFDEF_PROVE='1')[:2], (0, 'ran check\n'))
        self.assertEqual(self.run_script(), (0, 'ran check\n', ''))
        self.file('kit', 'kit 2\n')
        self.assertEqual(self.run_script()[:2], (0, 'packed check\n'))
        self.assertEqual(self.builds(), 1)

    def test_it_is_left_aside_on_demand(self):
        self.check_packed(LEFDEF_PROVE='0')
        self.check_packed(LEFDEF_PROVE='')
        status, out, err = self.run_script(LEFDEF_PROVE='1')
        self.assertEqual((status, out, self.builds()), (0, 'ran check\n', 1), err)
        self.assertNotIn('dist/', err)
        self.file(self.source, 'fn main() { }\n')
        self.assertEqual(self.run_script(LEFDEF_PROVE='1', commands='')[:2], (70, ''))

    def test_one_of_other_sources_is_not_run(self):
        self.check_packed()
        self.file(self.low, 'another proof\n')
        self.check_built('the program of dist/ is not of these sources')

    def test_one_that_has_not_its_sum_is_not_run(self):
        with open(os.path.join(self.top, 'dist', 'lefdef.gz'), 'wb') as file:
            file.write(gzip.compress(b'#!/bin/sh\necho doctored\n'))
        self.check_built('dist/lefdef.gz does not unpack to the program whose sum is in dist/built-from, so it is not run')
        self.assertEqual(self.kept(self.unpacked), [])

    def test_one_that_cannot_be_unpacked_is_not_run(self):
        self.file('top/dist/lefdef.gz', 'no archive\n')
        self.check_built('dist/lefdef.gz does not unpack to the program whose sum is in dist/built-from, so it is not run')

    def test_one_without_a_note_of_its_sources_is_not_run(self):
        os.remove(os.path.join(self.top, 'dist', 'built-from'))
        self.assertEqual(self.run_script()[:2], (0, 'ran check\n'))

    def test_one_that_does_not_run_here_is_told_of(self):
        self.pack('#!/nowhere/sh\n')
        self.check_built('the program of dist/ cannot be unpacked, or does not run here: it needs the C library glibc 2.34 or later', HOME=self.home)
        self.assertEqual(self.kept(self.unpacked) + self.kept(self.home), [])

    def test_on_another_system_that_is_said(self):
        os.chmod(self.file('commands/uname', '#!/bin/sh\necho Linux aarch64\n'), 0o755)
        self.check_built('the program of dist/ is for Linux on x86_64 alone, and this is Linux aarch64')

    def test_an_unpacked_program_that_was_changed_is_unpacked_again(self):
        self.check_packed()
        path = os.path.join(self.unpacked, *self.kept(self.unpacked))
        for text, mode in (('#!/bin/sh\necho doctored\n', 0o755), ('#!/bin/sh\necho packed "$@', 0o755), ('#!/bin/sh\necho packed "$@"\n', 0o644)):
            with self.subTest(text=text, mode=mode):
                self.write_older(path, text)
                os.chmod(path, mode)
                self.assertIn('running the program of dist/', self.check_packed())
                self.assertEqual(self.check_packed(), '')

    def test_a_tree_that_cannot_be_written_is_left_as_it_is(self):
        self.file('top/dist/.unpacked', 'no folder\n')
        for variables in ({'HOME': self.home}, {'XDG_CACHE_HOME': os.path.join(self.home, 'kept'), 'HOME': None}):
            self.assertIn('running the program of dist/', self.check_packed(**variables))
            self.assertEqual(self.check_packed(**variables), '')
        self.assertEqual([os.path.dirname(os.path.dirname(it)) for it in self.kept(self.home, '.')], ['kept/lefdef'])
        self.assertEqual(len(self.kept(self.home, '.cache', 'lefdef')), 1)

    def test_where_nothing_can_be_kept_it_is_run_all_the_same(self):
        self.file('top/dist/.unpacked', 'no folder\n')
        scratch = os.path.join(self.room, 'scratch')
        os.mkdir(scratch)
        for variables in ({'HOME': None}, {'HOME': self.file('no home', '')}, {'XDG_CACHE_HOME': self.file('no cache', '')}):
            for _ in range(2):
                self.assertIn('running the program of dist/', self.check_packed(scratch=scratch, **variables))
        self.assertEqual(os.listdir(scratch), [])

    def test_many_first_calls_at_a_time_all_answer(self):
        calls = [self.started() for _ in range(12)]
        for call in calls:
            self.assertEqual((call.communicate(timeout=60)[0], call.returncode), ('packed check\n', 0))
        self.assertEqual(len(self.kept(self.unpacked)), 1)

    def test_a_call_that_is_cut_off_leaves_nothing_that_is_run(self):
        self.pack('#!/bin/sh\n[ "$1" != --help ] || { [ -e "$WAITED" ] || { : >"$WAITED"; sleep 60; }; }\necho packed "$@"\n')
        waited = os.path.join(self.room, 'waited')
        cut = self.started(WAITED=waited)
        for _ in range(200):
            if os.path.exists(waited):
                break
            time.sleep(0.05)
        os.killpg(cut.pid, signal.SIGKILL)
        cut.communicate()
        self.assertNotIn('lefdef', [os.path.basename(path) for path in self.kept(self.unpacked)])
        self.check_packed(WAITED=waited)

    def test_whatever_goes_wrong_is_no_answer(self):
        os.chmod(os.path.join(self.top, 'tools', 'sources-sum'), 0o644)
        status, out, err = self.run_script()
        self.assertEqual((status, out, self.builds()), (70, '', 0))
        self.assertNotIn('not of these sources\n', err)


class SourcesSumTests(Room):
    def sum_of(self, *crates):
        found = subprocess.run([os.path.join(self.top, 'tools', 'sources-sum'), *crates], cwd=self.room, capture_output=True, text=True, check=True)
        self.assertRegex(found.stdout, r'\A[0-9a-f]{128}\n\Z')
        self.assertEqual(found.stderr, '')
        return found.stdout

    def sums(self):
        return [self.sum_of(*crates) for crates in ([], ['low'], ['other'], ['lefdef'], ['lefdef', 'other'])]

    def check_changes(self, before, *changes):
        """Checks which of the sums are others now, and returns them all."""
        now = self.sums()
        self.assertEqual([one != other for one, other in zip(before, now)], list(changes))
        return now

    def test_it_is_of_crates_and_of_those_below_them(self):
        sums = self.sums()
        self.assertEqual(len({*sums}), 4)
        self.assertEqual(sums[0], sums[4])
        self.write_older(self.other, 'fn other() {}\n')
        sums = self.check_changes(sums, True, False, True, False, True)
        self.write_older(self.low, 'another proof\n')
        sums = self.check_changes(sums, True, True, True, True, True)
        self.file('top/crates.txt', 'low:\nother: low itoa\nlefdef: low clap\n')
        self.check_changes(sums, True, False, True, False, True)

    def test_text_that_moves_from_one_file_to_the_next_counts(self):
        self.file('top/crates/low/src/a.rt', 'ab')
        self.file('top/crates/low/src/b.rt', 'c')
        sums = self.sums()
        self.file('top/crates/low/src/a.rt', 'a')
        self.file('top/crates/low/src/b.rt', 'bc')
        self.check_changes(sums, True, True, True, True, True)

    def test_what_is_no_source_does_not_count(self):
        sums = self.sums()
        self.file('top/crates/low/out/kept', 'kept\n')
        self.file('top/crates/lefdef/stdin', 'a run\n')
        self.file('top/crates.txt', '# Every crate.\nlefdef: low clap # and itoa\nother: low\n\nlow:\n')
        os.utime(self.low)
        self.check_changes(sums, False, False, False, False, False)

    def test_it_names_the_crates(self):
        for words, names in ((['lefdef'], 'lefdef low'), (['low'], 'low'), ([], 'lefdef low other')):
            found = subprocess.run([os.path.join(self.top, 'tools', 'sources-sum'), '--crates', *words], capture_output=True, text=True, check=True)
            self.assertEqual(found.stdout.split('\n'), [*names.split(), ''])

    def test_a_crate_that_is_none_is_named(self):
        for crates in (['none'], ['low', 'none']):
            found = subprocess.run([os.path.join(self.top, 'tools', 'sources-sum'), *crates], capture_output=True, text=True, check=False)
            self.assertEqual((found.returncode, found.stdout, found.stderr), (2, '', 'sources-sum: crates.txt has no crate none\n'))


if __name__ == '__main__':
    unittest.main()
