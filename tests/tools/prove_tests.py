"""Tests of tools/prove: which crate is proved when and with how many jobs, what it is proved on, and what is left where one fails. A small
script stands in for the kit's `rt`."""
import os
import shutil
import signal
import subprocess
import tempfile
import time
import unittest

import doctored

prove = doctored.script('tools/prove')

# Notes each call, with the crates that are there and what they have; makes what a check keeps, and a library where the crate is proved.
RT = '''#!/bin/sh
name=$(basename "$PWD")
echo "$name $*" >>"$CALLS"
{ cat ../../crates.txt; (cd .. && find . -type f | LC_ALL=C sort); } >"$CALLS.$name"
mkdir -p out/incremental
echo "kept of $name" >>out/incremental/kept
eval "$DURING"
mkdir -p out/rlib
echo "$name" >out/rlib/stamp
echo "fn $name::f: proved"
'''


class PlanTests(unittest.TestCase):
    """The order of the crates and their jobs, where each takes as long as its size."""

    @staticmethod
    def begun(uses, sizes, jobs):
        """Returns what begins at each time: crates with their jobs."""
        plan, found, ends, now = prove.Plan(uses, sizes, jobs), {}, {}, 0
        while plan.left or ends:
            begun = plan.next()
            for name, share in begun.items():
                ends[name] = now + sizes[name] / share
                assert sum(plan.running.values()) <= jobs
            if begun:
                found[now] = begun
            name = min(ends, key=ends.get)
            now = ends.pop(name)
            plan.ended(name)
        return found

    def test_one_job_at_a_time_takes_one_crate_at_a_time(self):
        self.assertEqual(self.begun({'a': [], 'b': ['a'], 'c': []}, {'a': 2, 'b': 2, 'c': 3}, 1), {0: {'a': 1}, 2: {'c': 1}, 5: {'b': 1}})

    def test_the_longest_chain_comes_first(self):
        uses = {'a': [], 'b': [], 'c': [], 'on b': ['b']}
        self.assertEqual(self.begun(uses, {'a': 5, 'b': 4, 'c': 6, 'on b': 3}, 2), {0: {'b': 1, 'c': 1}, 4: {'a': 1}, 6: {'on b': 1}})

    def test_processors_that_no_other_crate_can_use_go_to_the_longest_chain(self):
        self.assertEqual(self.begun({'a': []}, {'a': 4}, 2), {0: {'a': 2}})
        self.assertEqual(self.begun({'a': [], 'b': []}, {'a': 8, 'b': 2}, 4), {0: {'a': 3, 'b': 1}})
        self.assertEqual(self.begun({'a': []}, {'a': 4}, 9), {0: {'a': prove.MOST_JOBS}})
        self.assertEqual(self.begun({'a': [], 'b': []}, {'a': 8, 'b': 8}, 9)[0], {'a': prove.MOST_JOBS, 'b': prove.MOST_JOBS})

    def test_the_longest_chain_gets_half_although_others_wait(self):
        uses = {'a': [], 'b': [], 'c': [], 'd': [], 'on a': ['a']}
        sizes = {'a': 8, 'b': 3, 'c': 3, 'd': 2, 'on a': 4}
        self.assertEqual(self.begun(uses, sizes, 4), {0: {'a': 2, 'b': 1, 'c': 1}, 3: {'d': 1}, 4: {'on a': 3}})
        # (one that is longest of those that are ready has no more than its share while a longer chain runs)
        uses = {'a': [], 'b': [], 'c': ['b'], 'd': ['b'], 'e': ['b']}
        sizes = {'a': 90, 'b': 2, 'c': 8, 'd': 7, 'e': 6}
        self.assertEqual(self.begun(uses, sizes, 6)[1], {'c': 1, 'd': 1})

    def test_a_crate_waits_for_each_that_it_stands_on(self):
        begun = self.begun({'a': [], 'b': [], 'c': ['a', 'b']}, {'a': 3, 'b': 2, 'c': 4}, 2)
        self.assertEqual(begun, {0: {'a': 1, 'b': 1}, 3: {'c': 2}})


class ProveTests(unittest.TestCase):
    """A small repository: `top`, a program, stands on `left` and `right`, these on `low`, and `other` on `low`."""

    def setUp(self):
        room = tempfile.TemporaryDirectory()
        self.addCleanup(room.cleanup)
        self.room = os.path.realpath(room.name)
        self.file('tools/prove', open(os.path.join(doctored.TOP, 'tools', 'prove'), encoding='utf-8').read(), 0o755)
        self.file('commands/rt', RT, 0o755)
        self.file('crates.txt', '# Each crate.\nlow: memchr\nright: low\nleft: low # and no other\ntop: low left right clap\nother: low\n')
        for name, size in (('low', 9), ('left', 30), ('right', 20), ('other', 9)):
            self.file(f'crates/{name}/src/lib.rt', '/' * size)
            self.file(f'crates/{name}/out/left over', '')
        self.file('crates/left/proofs/a b/Answers.antt', 'proof')
        self.file('crates/top/src/main.rt', 'fn main() {}')

    def file(self, name, text, mode=0o644):
        path = os.path.join(self.room, name)
        os.makedirs(os.path.dirname(path), exist_ok=True)
        with open(path, 'w', encoding='utf-8') as file:
            file.write(text)
        os.chmod(path, mode)

    def read(self, name):
        with open(os.path.join(self.room, name), encoding='utf-8') as file:
            return file.read()

    def started(self, *words, during=''):
        path = os.pathsep.join([os.path.join(self.room, 'commands'), os.environ['PATH']])
        env = {**os.environ, 'PATH': path, 'CALLS': os.path.join(self.room, 'calls'), 'DURING': during, 'TMPDIR': self.room}
        return subprocess.Popen([os.path.join(self.room, 'tools', 'prove'), *words], env=env, text=True, stdout=subprocess.PIPE, stderr=subprocess.PIPE)

    def proved(self, *words, **given):
        """Returns the status, the output without the lines on times, and the messages of a call."""
        started = self.started(*words, **given)
        out, err = started.communicate(timeout=60)
        lines = [line for line in out.splitlines() if not line.startswith('prove: ')]
        return started.returncode, lines, err

    def calls(self):
        return self.read('calls').splitlines()

    def kept(self):
        """Returns what is in the folders out/ of the crates."""
        found = [os.path.join(at, name) for at, _, names in os.walk(os.path.join(self.room, 'crates')) for name in names]
        return sorted(os.path.relpath(path, os.path.join(self.room, 'crates')) for path in found if '/out/' in path and not path.endswith('left over'))

    def check_clean(self):
        """Checks that no copy is left."""
        self.assertEqual([it for it in os.listdir(self.room) if it.startswith('prove-')], [])

    def test_each_crate_is_proved_after_those_that_it_stands_on(self):
        status, lines, err = self.proved('--jobs', '1', 'top')
        self.assertEqual((status, err), (0, ''))
        self.assertEqual(self.calls(), ['low lib --jobs 1', 'left lib --jobs 1', 'right lib --jobs 1', 'top check --jobs 1'])
        self.assertEqual(lines, [line for name in ('low', 'left', 'right', 'top') for line in (f'== {name}', f'fn {name}::f: proved')])
        self.check_clean()

    def test_crates_are_proved_side_by_side(self):
        # (each waits for the other one)
        during = 'case $name in left | right) : >"$CALLS.of $name"; until [ -e "$CALLS.of left" ] && [ -e "$CALLS.of right" ]; do sleep 0.05; done ;; esac'
        self.assertEqual(self.proved('--jobs', '3', 'top', during=during)[0], 0)
        self.assertEqual(sorted(self.calls()), ['left lib --jobs 2', 'low lib --jobs 3', 'right lib --jobs 1', 'top check --jobs 3'])

    def test_without_jobs_some_are_chosen(self):
        self.assertEqual(self.proved('low')[0], 0)
        self.assertRegex(self.calls()[0], r'\Alow lib --jobs [1-4]\Z')

    def test_the_time_and_the_jobs_are_said_before_what_rt_says(self):
        out, _ = self.started('--jobs', '2', 'low').communicate(timeout=60)
        self.assertRegex(out, r'\Aprove: low took 0 min \d+ s with 2 jobs\n== low\nfn low::f: proved\n\Z')

    def test_a_crate_is_proved_on_a_copy_of_what_it_needs(self):
        self.assertEqual(self.proved('--jobs', '1', 'left', 'other')[0], 0)
        self.assertEqual(self.read('calls.left').splitlines(), [
            'low: memchr', 'left: low', './left/proofs/a b/Answers.antt', './left/src/lib.rt', './low/out/rlib/stamp', './low/src/lib.rt'])

    def test_what_was_made_is_given_back_and_used(self):
        self.assertEqual(self.proved('--jobs', '2', 'left')[0], 0)
        self.assertEqual(self.kept(), [f'{name}/out/{file}' for name in ('left', 'low') for file in ('incremental/kept', 'rlib/stamp')])
        self.assertTrue(os.path.exists(os.path.join(self.room, 'crates/left/out/left over')))
        self.assertEqual(self.proved('--jobs', '2', 'left')[0], 0)
        self.assertEqual(self.read('crates/left/out/incremental/kept'), 'kept of left\n' * 2)
        self.assertIn('./left/out/rlib/stamp', self.read('calls.left').splitlines())

    def test_the_copies_are_within_git_where_there_is_that_folder(self):
        os.mkdir(os.path.join(self.room, '.git'))
        self.assertEqual(self.proved('--jobs', '1', 'low', during='echo "in $PWD"')[1][1].partition('/prove-')[0], f'in {self.room}/.git')
        self.assertEqual(os.listdir(os.path.join(self.room, '.git')), [])

    def test_one_that_is_not_proved_ends_it_with_what_rt_said(self):
        during = '''case $name in
            left) until [ -e "$CALLS.of right" ]; do sleep 0.05; done; echo 'fn left::f: not proved'; exit 1 ;;
            right) : >"$CALLS.of right"; exec sleep 60 ;;
        esac'''
        began = time.monotonic()
        status, lines, _ = self.proved('--jobs', '2', 'top', during=during)
        self.assertEqual((status, lines[-2:]), (1, ['== left', 'fn left::f: not proved']))
        self.assertLess(time.monotonic() - began, 30)
        self.assertEqual(self.kept(), ['left/out/incremental/kept', 'low/out/incremental/kept', 'low/out/rlib/stamp', 'right/out/incremental/kept'])
        self.check_clean()

    def test_where_rt_judges_nothing_that_is_another_status(self):
        for during in ('exit 2', 'exit 3', 'kill -9 $$'):
            with self.subTest(during=during):
                self.assertEqual(self.proved('--jobs', '1', 'top', during=during)[0], 2)

    def test_a_signal_ends_it_with_what_it_started(self):
        started = self.started('--jobs', '1', 'low', during='echo $$ >"$CALLS.process"; exec sleep 60')
        self.addCleanup(started.communicate)
        self.addCleanup(started.kill)
        for _ in range(200):
            if os.path.exists(os.path.join(self.room, 'calls.process')) and self.read('calls.process'):
                break
            time.sleep(0.05)
        started.send_signal(signal.SIGTERM)
        self.assertEqual(started.wait(timeout=30), 143)
        self.assertRaises(ProcessLookupError, os.kill, int(self.read('calls.process')), 0)
        self.assertEqual(self.kept(), ['low/out/incremental/kept'])
        self.check_clean()

    def test_usage_errors(self):
        for words in ([], ['none'], ['--jobs', '0', 'low'], ['--jobs', 'x', 'low'], ['--jobs'], ['--some', 'low']):
            with self.subTest(words=words):
                status, lines, err = self.proved(*words)
                self.assertEqual((status, lines), (64, []))
                self.assertRegex(err, r'\Aprove: [^\n]*; tools/prove --help says more\n\Z')


if __name__ == '__main__':
    unittest.main()
