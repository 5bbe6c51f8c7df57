"""Tests that each command that the README and the tutorial show prints what they show. The program is that of LEFDEF, or the one that is
built in the tree."""
import os
import re
import subprocess
import tempfile
import unittest

TOP = os.path.normpath(os.path.join(os.path.dirname(os.path.abspath(__file__)), '..', '..'))
PROGRAM = os.environ.get('LEFDEF') or os.path.join(TOP, 'crates', 'lefdef', 'out', 'lefdef')
# A command, and the lines that it prints.
SHOWN = re.compile(r'(?m)^    \$ (?:git clone .+ && )?(\./lefdef .*)\n((?:    (?!\$ ).*\n)*)')


def shown(*path):
    """Returns each command of a document, with the text that it prints there."""
    with open(os.path.join(TOP, *path), encoding='utf-8') as file:
        return [(command, re.sub(r'(?m)^    ', '', text)) for command, text in SHOWN.findall(file.read())]


class ExamplesTests(unittest.TestCase):
    def check(self, *path):
        """Runs the commands of a document one after another, in a folder that has the examples, and compares what they print."""
        examples = shown(*path)
        self.assertGreater(len(examples), 8)
        with tempfile.TemporaryDirectory() as room:
            os.symlink(os.path.join(TOP, 'examples'), os.path.join(room, 'examples'))
            os.symlink(PROGRAM, os.path.join(room, 'lefdef'))
            for command, text in examples:
                with self.subTest(command):
                    ran = subprocess.run(command, shell=True, cwd=room, capture_output=True, text=True, timeout=120, check=False)
                    self.assertEqual(ran.stdout, text)

    def test_those_of_the_readme(self):
        self.check('README.md')

    def test_those_of_the_tutorial(self):
        self.check('docs', 'TUTORIAL.md')

    def test_each_command_is_shown(self):
        commands = {command.split()[1] for command, _ in shown('README.md') + shown('docs', 'TUTORIAL.md')}
        self.assertLessEqual({'check', 'place-check', 'measure', 'legalise', 'route', 'flow', 'finish', 'print', 'compare'}, commands)


if __name__ == '__main__':
    unittest.main()
