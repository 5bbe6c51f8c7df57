"""Tests of tools/try-unproved: it answers as ./lefdef does, and says where it cannot."""
import os
import shutil
import subprocess
import sys
import tempfile
import unittest

TOP = os.path.normpath(os.path.join(os.path.dirname(os.path.abspath(__file__)), '..', '..'))
TOOL = os.path.join(TOP, 'tools', 'try-unproved')


def tried(*words, path=None):
    """Runs the tool in the repository with these arguments, and returns the result."""
    environment = dict(os.environ, PATH=path) if path else None
    return subprocess.run([sys.executable, TOOL, *words], cwd=TOP, env=environment, capture_output=True, text=True, check=False)


class UnprovedTests(unittest.TestCase):
    def test_it_answers_as_the_program_does(self):
        found = tried('check', 'examples/misspelt.def', 'examples/standard.lef')
        self.assertEqual(found.stdout, 'REFUSED 1 10 UnknownName\n')
        self.assertTrue(found.stderr.startswith('examples/misspelt.def:10:6: `INVX` is not the name of a macro of the LEFs: '), found.stderr)
        self.assertTrue(found.stderr.endswith('    - u2 INVX + PLACED ( 400 0 ) N ;\n         ^^^^\n'), found.stderr)
        self.assertEqual(found.returncode, 2)

    def test_it_takes_the_options_of_the_wide_profile(self):
        found = tried('--wide', 'check', 'examples/wide/supplies.def', 'examples/standard.lef')
        self.assertEqual((found.stdout, found.stderr, found.returncode), ('legal\n', '', 0))
        found = tried('--wide', '--masks', 'drop')
        self.assertIn('tools/try-unproved check', found.stderr)
        self.assertEqual((found.stdout, found.returncode), ('', 64))

    def test_too_few_words_show_how_it_is_used(self):
        found = tried('check', 'examples/misspelt.def')
        self.assertIn('tools/try-unproved check', found.stderr)
        self.assertEqual((found.stdout, found.returncode), ('', 64))

    def test_help_is_printed(self):
        found = tried('--help')
        self.assertIn('tools/try-unproved check', found.stdout)
        self.assertEqual((found.stderr, found.returncode), ('', 0))
        none = tried()
        self.assertEqual((none.stdout, none.stderr, none.returncode), ('', found.stdout, 64))

    def test_a_file_that_is_missing_is_named(self):
        for path, cause in (('examples/no_such.def', 'No such file or directory (os error 2)'), ('examples', 'Is a directory (os error 21)')):
            for words in ((path, 'examples/standard.lef'), ('examples/wired.def', path)):
                with self.subTest(words=words):
                    found = tried('check', *words)
                    self.assertEqual((found.stdout, found.stderr, found.returncode), ('', f'cannot read {path}\n{cause}\n', 5))

    def test_two_files_of_one_name_are_not_taken(self):
        with tempfile.TemporaryDirectory() as room:
            os.makedirs(os.path.join(room, 'examples', 'in'))
            other = os.path.join(room, 'examples', 'in', '..', '..')
            for at in ('a.lef', os.path.join('examples', 'a.lef'), 'b=c.lef'):
                shutil.copy(os.path.join(TOP, 'examples', 'standard.lef'), os.path.join(room, at))
            def_file = os.path.join(TOP, 'examples', 'wired.def')
            for words in (('./a.lef', '../a.lef'), ('a.lef', '../a.lef')):
                with self.subTest(words=words):
                    found = subprocess.run([sys.executable, TOOL, 'check', def_file, *words], cwd=os.path.join(room, 'examples'), capture_output=True,
                                           text=True, check=False)
                    self.assertIn(' and ../a.lef would both be named a.lef', found.stderr)
                    self.assertEqual((found.stdout, found.returncode), ('', 64))
            found = tried('check', def_file, os.path.join(other, 'b=c.lef'))
            self.assertIn('b=c.lef: a path with = cannot be used', found.stderr)
            self.assertEqual((found.stdout, found.returncode), ('', 64))

    def test_without_the_kit_it_says_so(self):
        found = tried('check', 'examples/misspelt.def', 'examples/standard.lef', path=os.path.join(TOP, 'tests'))
        self.assertIn('there is no command rt', found.stderr)
        self.assertEqual((found.stdout, found.returncode), ('', 70))


if __name__ == '__main__':
    unittest.main()
