"""Tests that docs/pictures has what tools/view draws today of the examples and of what lefdef prints of them."""
import os
import re
import subprocess
import sys
import tempfile
import unittest
import xml.etree.ElementTree as ElementTree

TOP = os.path.normpath(os.path.join(os.path.dirname(os.path.abspath(__file__)), '..', '..'))
PICTURES = os.path.join(TOP, 'docs', 'pictures')

# What the tutorial doesn't show: what `check` prints of examples/stacked.def, worked by hand. The two inverters lie on one another: u1 A is in
# no net and lies on u2 A, which is in n1; u1 Y, in n1, lies on u2 Y, which is in none; supplies have one owner; and u2 A is 100 from u1 Y.
STACKED = """OVERLAP u1 u2
SHORT m1 TERM u1 A 50 850 150 1050 NET n1 50 850 150 1050
SHORT m1 NET n1 250 850 350 1050 TERM u2 Y 250 850 350 1050
OPEN n1 u2 A
violations 4
"""

# A program that answers as the tutorial says that lefdef does.
PROGRAM = """#!{python}
import sys
answers = {answers!r}
text = answers[' '.join(sys.argv[1:])]
sys.stdout.write(text)
sys.exit(1 if text.splitlines()[-1].startswith('violations ') else 0)
"""


def answers():
    """Returns the answer to each command that the tutorial shows."""
    with open(os.path.join(TOP, 'docs', 'TUTORIAL.md'), encoding='utf-8') as file:
        shown = re.findall(r'^    \$ (?:git clone .+ && )?\./lefdef (.+)\n((?:    (?!\$).*\n)+)', file.read(), re.MULTILINE)
    found = {command: ''.join(line[4:] + '\n' for line in text.splitlines()) for command, text in shown}
    found['check examples/stacked.def examples/standard.lef'] = STACKED
    return found


class PicturesTests(unittest.TestCase):
    def test_each_picture_is_what_the_tool_draws_today(self):
        with tempfile.TemporaryDirectory() as room:
            program = os.path.join(room, 'program')
            with open(program, 'w', encoding='utf-8') as file:
                file.write(PROGRAM.format(python=sys.executable, answers=answers()))
            os.chmod(program, 0o755)
            made = os.path.join(room, 'made')
            os.mkdir(made)
            subprocess.run([os.path.join(PICTURES, 'make'), program, made], check=True)
            names = sorted(name for name in os.listdir(PICTURES) if name.endswith('.svg'))
            self.assertEqual(sorted(os.listdir(made)), names)
            self.assertEqual(len(names), 9)
            for name in names:
                with open(os.path.join(made, name), encoding='utf-8') as new, open(os.path.join(PICTURES, name), encoding='utf-8') as kept:
                    self.assertEqual(new.read(), kept.read(), f'docs/pictures/make was not run since {name} changed')

    def test_what_they_show(self):
        for name, metal, marks in (('wired', 9, 0), ('unfinished', 6, 2), ('rows', 16, 3), ('rows-legalised', 16, 0), ('stacked', 8, 4),
                                   ('stacked-routed', 9, 0), ('around', 9, 0), ('around-routed', 24, 0), ('blocked', 9, 3)):
            with self.subTest(picture=name):
                root = ElementTree.parse(os.path.join(PICTURES, f'{name}.svg')).getroot()
                classes = [element.get('class') for element in root.iter('{http://www.w3.org/2000/svg}g')]
                self.assertEqual(classes.count('mark'), marks)
                rects = [rect for group in root.iter('{http://www.w3.org/2000/svg}g') if group.get('class') in ('pin', 'wire', 'obs', 'blockage') for rect in group]
                self.assertEqual(len(rects), metal)


if __name__ == '__main__':
    unittest.main()
