"""Tests of tools/trusted: the page and the README's table differ exactly where what a promise reaches does."""
import contextlib
import io
import os
import sys
import unittest
from unittest import mock

sys.path.insert(0, os.path.dirname(os.path.abspath(__file__)))

from doctored import Doctored, script

trusted = script('tools/trusted')
SHORTS = 'crates/leg_rules/specs/Spacing/Violations.antt'
SHARED = '  pub shared : SharePoint a.rect b.rect\n'
VIAS = 'crates/leg_grammar/specs/Def/Via.antt'
CUTS = 'crates/leg_grammar/specs/Def/CutArray.antt'
WIDTH = 'array_width cuts = array_side cuts.columns cuts.cut.x cuts.gap.x'
INTERVALS = 'crates/leg_geom/specs/Steps/Intervals.antt'
PAGE, README = (f'{path} is not what tools/trusted writes' for path in ('docs/TRUSTED.md', 'README.md'))


class TrustedTests(unittest.TestCase):
    def setUp(self):
        self.copy = Doctored(parts=('README.md', 'docs/TRUSTED.md'))
        self.addCleanup(self.copy.close)

    def lines(self, *words):
        """Returns the status of a call, and the lines that it prints."""
        with contextlib.redirect_stdout(io.StringIO()) as told:
            status = trusted.main([*words, '--top', self.copy.top])
        return status, told.getvalue().splitlines()

    def row(self, title):
        """Returns the numbers of a promise in the README's table."""
        table = self.copy.read('README.md').partition('| Promise |')[2].splitlines()
        row = next(it for it in table if it.startswith(f'| {title} |'))
        return [int(it.replace(',', '')) for it in row.split('|')[2:-1]]

    def test_the_page_and_the_table_are_those_of_the_sources(self):
        self.assertEqual(self.lines('--check'), (0, []))

    def test_a_line_more_of_a_definition(self):
        before = self.row('The rules of `check`'), self.row('`measure`')
        self.copy.edit(SHORTS, SHARED, SHARED + '  pub again : SharePoint a.rect b.rect\n')
        self.assertEqual(self.lines('--check'), (1, [PAGE, README]))
        self.assertEqual(self.lines(), (0, []))
        self.assertEqual(self.lines('--check'), (0, []))
        rules, measure = before
        self.assertEqual(self.row('The rules of `check`'), [rules[0] + 1, rules[1] + 1, *rules[2:]])
        self.assertEqual(self.row('`measure`'), measure)

    def test_a_line_more_of_a_definition_of_the_wide_profile(self):
        before = self.row('`check` of texts')
        self.copy.edit(CUTS, WIDTH, WIDTH.replace(' = ', ' =\n    '))
        self.assertEqual(self.lines(), (0, []))
        lines, rooms, records, wide, *others = before
        self.assertEqual(self.row('`check` of texts'), [lines + 1, rooms + 1, records, wide + 1, *others])

    def test_a_clause_at_the_wide_profile_leads_to_all_that_the_narrow_one_does_not_need(self):
        before = self.row('`check` of texts')
        text = self.copy.read(VIAS)
        clause = text.index('shapes_in (Wide masks soft)')
        self.copy.write(VIAS, text[:clause] + text[text.index('\n\n', clause) + 1:])
        self.assertEqual(self.lines(), (0, []))
        lines, _, _, wide, *_ = self.row('`check` of texts')
        self.assertGreater(before[3], wide)
        self.assertEqual(before[0] - before[3], lines - wide)

    def test_comments_blank_lines_and_imports_do_not_count(self):
        self.copy.edit(SHORTS, SHARED, SHARED + '\n-- which is a point of both\n')
        self.copy.write(SHORTS, 'use Rattle.leg_geom.specs.Line.{between}\n' + self.copy.read(SHORTS))
        self.assertEqual(self.lines('--check'), (0, []))

    def test_a_definition_that_nothing_reaches_does_not_count(self):
        self.copy.write(SHORTS, self.copy.read(SHORTS) + '\npub record AreBeside (a b : Shape) : Type 0 where\n' + SHARED)
        self.assertEqual(self.lines('--check'), (0, []))

    def test_a_clause_that_cites_another_definition(self):
        path = 'crates/leg_check/src/check.rt'
        clause = next(it for it in self.copy.read(path).splitlines() if 'ensures list' in it)
        self.copy.edit(path, clause, '')
        self.assertEqual(self.lines('--check'), (1, [PAGE, README]))

    def test_a_promise_that_reaches_a_step(self):
        name = next(iter(trusted.Definitions(trusted.Crates(self.copy.top)).files[INTERVALS].definitions))
        self.copy.edit(SHORTS, SHARED, f'{SHARED}  pub step : {name} a b\n')
        self.copy.write(SHORTS, f'use Rattle.leg_geom.specs.Steps.Intervals.{{{name}}}\n' + self.copy.read(SHORTS))
        status, lines = self.lines('--check')
        self.assertEqual(status, 1)
        self.assertIn(f'The rules of `check`: it reaches {name} in {INTERVALS}', lines)
        self.assertIn(f'`route`: it reaches {name} in {INTERVALS}', lines)
        self.assertFalse([it for it in lines if it.startswith('`measure`')])

    def test_another_table_in_the_readme(self):
        text = self.copy.read('README.md')
        count = f'| The rules of `check` | {self.row("The rules of `check`")[0]} |'
        self.copy.edit('README.md', count, '| The rules of `check` | 7 |')
        self.assertEqual(self.lines('--check'), (1, [README]))
        self.assertEqual(self.lines(), (0, []))
        self.assertEqual(self.copy.read('README.md'), text)

    def test_a_readme_without_a_table(self):
        text = self.copy.read('README.md')
        self.copy.write('README.md', '\n'.join(it for it in text.splitlines() if not it.startswith('| Promise |')))
        self.assertEqual(self.lines('--check'), (1, ['README.md has no table of what must be believed']))

    def test_a_page_that_is_missing(self):
        self.copy.remove('docs/TRUSTED.md')
        self.assertEqual(self.lines('--check'), (1, [PAGE]))

    def test_a_promise_of_a_call_that_is_not_there(self):
        promise = trusted.Promise('`weigh`', 'The weight of a design.', (('leg_print::weight', ()),))
        with mock.patch.object(trusted, 'PROMISES', (*trusted.PROMISES, promise)):
            self.assertIn('`weigh`: its clauses reach no definition', self.lines('--check')[1])


if __name__ == '__main__':
    unittest.main()
