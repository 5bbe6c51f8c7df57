"""Tests of tests/docs/run: copies of the repository in which a document, a source or a list is wrong have to fail."""
import contextlib
import io
import os
import re
import stat
import sys
import tempfile
import unittest
from pathlib import Path
from unittest import mock

sys.path.insert(0, os.path.dirname(os.path.abspath(__file__)))

from doctored import Doctored, script

docs = script('tests/docs/run')
record = docs.record
PROOFS = 'docs/PROOFS.md'


def printed(check, repository):
    """Returns the lines that a check prints."""
    with contextlib.redirect_stdout(io.StringIO()) as told:
        check(docs.Count(), repository)
    return set(told.getvalue().splitlines())


def said(check, copy):
    """Returns the lines that a check prints of the copy as it is now."""
    return printed(check, docs.Repository(copy.top))


class DoctoredTests(unittest.TestCase):
    crates = ('leg_lex', 'leg_geom', 'leg_sweep', 'leg_design_common', 'leg_design_floorplan', 'leg_design_wires', 'leg_design_nets')
    parts = ('README.md', 'docs')

    def setUp(self):
        self.copy = Doctored(self.crates, self.parts)
        self.addCleanup(self.copy.close)

    def new_of(self, check, *edits):
        """Returns what the check says of the copy only after these edits."""
        before = said(check, self.copy)
        for edit in edits:
            self.copy.edit(*edit)
        return said(check, self.copy) - before

    def assert_said(self, lines, *parts):
        for part in parts:
            self.assertTrue(any(part in line for line in lines), f'{part!r} is not in {lines}')


class ProofsTests(DoctoredTests):
    """docs/PROOFS.md against the sources."""

    def found(self, *edits):
        return self.new_of(docs.check_proofs, *edits)

    def test_a_heading_that_is_no_crate(self):
        lines = self.found((PROOFS, '## leg_sweep\n', '## leg_sweeps\n'))
        self.assert_said(lines, "'leg_sweeps' is no crate", 'there is no section on leg_sweep, which has clauses of')

    def test_a_heading_of_several_crates_one_of_which_is_none(self):
        lines = self.found((PROOFS, '## leg_design_common, ', '## leg_design_commons, '))
        self.assert_said(lines, "'leg_design_commons, leg_design_floorplan, leg_design_wires and leg_design_nets' is no crate", 'there is no section on leg_design_nets')

    def test_a_crate_that_nothing_is_said_of(self):
        self.copy.write('crates.txt', self.copy.read('crates.txt') + 'leg_new:\n')
        self.copy.write('crates/leg_new/src/lib.rt', '//! Nothing.\n')
        self.assert_said(said(docs.check_proofs, self.copy), 'nothing on leg_new')

    def test_a_word_that_is_not_there(self):
        self.assert_said(self.found((PROOFS, '`PairRule` is a rule', '`PairOfRules` is a rule')), 'nothing is named PairOfRules')

    def test_a_call_that_is_not_there(self):
        self.assert_said(self.found((PROOFS, '`Cursor::place` has', '`Cursor::placed_behind` has')), 'no crate has Cursor::placed_behind')

    def test_a_call_of_which_each_word_is_in_another_crate(self):
        self.assert_said(self.found((PROOFS, '`Cursor::place` has', '`BinIndex::statement` has')), 'no crate has BinIndex::statement')

    def test_a_file_that_is_not_there(self):
        self.assert_said(self.found((PROOFS, '`docs/TRUSTED.md`', '`docs/BELIEVED.md`')), 'no file docs/BELIEVED.md')


class ReferenceTests(DoctoredTests):
    """docs/reference against the sources."""
    crates = ('leg_geom',)

    def test_a_public_clause_that_goes(self):
        self.copy.edit('crates/leg_geom/src/rect.rt', 'ensures { IsTrue result ↔ ShareSquare self.now other.now }', '')
        self.assert_said(said(docs.check_reference, self.copy), 'docs/reference/leg_geom.md differs from the sources',
                         '-    ensures { IsTrue result ↔ ShareSquare self.now other.now }')


class NumberTests(DoctoredTests):
    """The numbers and the kit that documents name."""
    crates = ('leg_geom',)
    parts = ('README.md', 'docs', 'tests/edits', 'tests/library', 'tests/design')

    def found(self):
        return said(docs.check_numbers, self.copy)

    def test_each_number_that_differs_is_named(self):
        before, text = self.found(), self.copy.read(PROOFS)
        for section, pattern, right in docs.numbers(docs.Repository(self.copy.top)):
            with self.subTest(section=section, pattern=pattern):
                start = text.index(f'\n## {section}\n') if section else 0
                place = re.compile(pattern).search(text, start).span(1)
                self.copy.write(PROOFS, text[:place[0]] + '7,777' + text[place[1]:])
                self.assert_said(self.found() - before, f'has 7,777, and {right:,} are there')

    def test_a_text_that_goes(self):
        lines = self.copy.read('tests/design/refused').splitlines(keepends=True)
        self.copy.write('tests/design/refused', ''.join(lines[1:]))
        self.assert_said(self.found(), f'and {len(lines) - 1} are there')

    def with_kit(self, line):
        """Puts a command `rt` first on the path, which prints this line."""
        folder = tempfile.TemporaryDirectory()
        self.addCleanup(folder.cleanup)
        path = os.path.join(folder.name, 'rt')
        with open(path, 'w', encoding='utf-8') as file:
            file.write(f'#!/bin/sh\necho "{line}"\n')
        os.chmod(path, stat.S_IRWXU)
        before = os.environ['PATH']
        self.addCleanup(os.environ.__setitem__, 'PATH', before)
        os.environ['PATH'] = folder.name + os.pathsep + before

    def test_the_kit(self):
        kit = re.findall(docs.KIT, self.copy.read('README.md'))[0]
        for named in re.findall(docs.KIT, self.copy.read(PROOFS)):
            self.with_kit(named)
            self.assertEqual(said(docs.check_kit, self.copy), set())
        self.with_kit('rattle-kit-0z logic 0123456789abcdef')
        self.assert_said(said(docs.check_kit, self.copy), 'README.md: it names', 'docs/PROOFS.md: it names')
        self.with_kit(kit)
        self.copy.edit(PROOFS, kit, f'{kit}`, `rattle-kit-0z logic 0123456789abcdef')
        self.assert_said(said(docs.check_kit, self.copy), 'docs/PROOFS.md and README.md name different kits')


class StepsTests(DoctoredTests):
    """What public clauses and views cite."""

    def test_a_view_that_cites_a_step(self):
        self.assertEqual(said(docs.check_steps, self.copy), set())
        path = 'crates/leg_sweep/src/bin_index.rt'
        lines = self.new_of(docs.check_steps, (path, 'ghost view = { λ index. index.rects.items };', 'ghost view = { λ index. IsIndex index.rects.items };'))
        self.assertEqual(lines, {'the view of leg_sweep::BinIndex cites IsIndex of specs/Steps'})

    def test_a_clause_that_cites_a_step(self):
        path = 'crates/leg_sweep/src/bin_index.rt'
        lines = self.new_of(docs.check_steps, (path, 'ensures is { result ≡ length self.now }', 'ensures is { IsIndex [] [] [] }'))
        self.assertEqual(lines, {'a clause of leg_sweep::BinIndex::len cites IsIndex of specs/Steps'})

    def test_a_definition_that_cites_a_step(self):
        path = 'crates/leg_sweep/specs/Pairs.antt'
        self.copy.write(path, 'use Rattle.leg_sweep.specs.Steps.Index.{IsIndex}\n' + self.copy.read(path))
        self.assertEqual(said(docs.check_steps, self.copy), {f'{path} cites specs/Steps'})


class PartTests(DoctoredTests):
    """What the public clauses of a crate that is a part of one algorithm cite."""
    crates = ('leg_lex', 'leg_geom', 'leg_lib_records', 'leg_design_records', 'leg_rules', 'leg_route_search')

    def test_it_may_cite_a_step_and_its_definitions_may_not(self):
        self.assertEqual(said(docs.check_steps, self.copy), set())
        with mock.patch.object(docs, 'ONE_ALGORITHM', ()):
            self.assert_said(said(docs.check_steps, self.copy), 'a clause of leg_route_search::shortest cites')
        self.copy.write('crates/leg_route_search/specs/Beside.antt', 'use Rattle.leg_route_search.specs.Steps.Search.{IsFound}\n')
        self.assertEqual(said(docs.check_steps, self.copy), {'crates/leg_route_search/specs/Beside.antt cites specs/Steps'})


LEMMA = 'crates/leg_geom/proofs/New.antt'
ADDED = """-- What a sum is.
pub added : (a b : ℕ) → a + b ≡ b + a
added a zero = refl
added a (suc b) = ap suc (added a b)
"""


class LemmaTests(DoctoredTests):
    """Lemmas of proofs/ that nothing names."""
    crates = ('leg_geom',)
    parts = ('crates/leg_geom/proofs',)

    def setUp(self):
        super().setUp()
        self.before = said(docs.check_lemmas, self.copy)

    def found(self, *texts):
        """Returns what the check says only once these texts are written, each with its path. (Other crates name lemmas of leg_geom.)"""
        for path, text in texts:
            self.copy.write(path, text)
        return said(docs.check_lemmas, self.copy) - self.before

    def test_one_that_names_only_itself(self):
        self.assertEqual(self.found((LEMMA, ADDED)), {f'{LEMMA}:2: nothing names added'})

    def test_one_that_its_own_file_names(self):
        inner = 'twice : (a : ℕ) → a + a ≡ a + a\ntwice a = added a a\n\nmodule _ (a : ℕ) where\n  pub same : a + a ≡ a + a\n  same = twice a\n'
        self.assertEqual(self.found((LEMMA, f'{ADDED}\n{inner}')), {f'{LEMMA}:10: nothing names same'})

    def test_one_that_another_file_names(self):
        use, other = 'use Rattle.leg_geom.proofs.New.{added}\n', 'crates/leg_geom/proofs/sum/Answers.antt'
        answer = 'pub returns : goal.returns\nreturns g c = added c.a c.b\n'
        for text, is_named in ((use + answer, True), (use, False), (answer, False), (f'pub {use}', True),
                               (use.replace('{added}', '{added as sum}') + answer.replace('added', 'sum'), True),
                               (use.replace('.{added}', ' as new') + answer.replace('added', 'new.added'), True)):
            with self.subTest(text=text):
                self.assertEqual(self.found((LEMMA, ADDED), (other, text)), set() if is_named else {f'{LEMMA}:2: nothing names added'})

    def test_one_of_an_attribute(self):
        code = '#[tactic(auto, using(crate::proofs::New::added))]\nfn sum() {}\n'
        self.assertEqual(self.found((LEMMA, ADDED), ('crates/leg_geom/src/sum.rt', code)), set())

    def test_what_the_prover_asks_for_and_fields_are_none(self):
        record = 'pub record IsSum (a : ℕ) : Type 0 where\n  pub half : ℕ\n'
        for path, text in (('Answers.antt', 'pub returns : goal.returns\nreturns g c = c.x\n'), ('Invariants.antt', 'invariant g l = record {\n  few : l.x < 3;\n}\n'), ('New.antt', record)):
            self.assertEqual(self.found((f'crates/leg_geom/proofs/sum/{path}', text)), set())
        text = 'pub returns : goal.returns\nreturns g c = c.x\n\nless : 1 < 2\nless = omega arith\n'
        self.assertEqual(self.found(('crates/leg_geom/proofs/sum/Answers.antt', text)), {'crates/leg_geom/proofs/sum/Answers.antt:4: nothing names less'})


NEW = 'crates/leg_geom/src/new.rt'
FIRST = """/// The lower of two sums.
fn least<'a, A: Allocator>(text: &'a mut Vec<u8, A>, low: &Point, high: i64) -> Result<i64, AllocError>
    requires { low.now.x ≡ high }
{
    'all: for byte in text {
        if *byte == b' ' {
            break 'all;
        }
    }
    let Point { x, y } = low;
    Ok((x + high).min(y + high)) // (they are close)
}
"""
SECOND = """fn most<B: Allocator + Copy>(line: &mut Vec<u8, B>, point: &Point, least: i64) -> Result<i64, AllocError> {
    for letter in line {
        if *letter == b' ' { break; }
    }
    let Point { x: left, y: bottom } = point;
    Ok((left + least).min(bottom + least))
}
"""
SAME = 'does what least of crates/leg_geom/src/new.rt:2 does'


class BodyTests(DoctoredTests):
    """Functions that are there twice."""
    crates = ('leg_lemmas', 'leg_lex', 'leg_geom', 'leg_sweep')

    def setUp(self):
        super().setUp()
        self.copy.edit('crates/leg_geom/src/lib.rt', 'mod span;\n', 'mod span;\nmod new;\n')

    def found(self, *texts):
        """Returns what the check says where these texts are the new file of leg_geom."""
        self.copy.write(NEW, '\n'.join(texts))
        return said(docs.check_bodies, self.copy)

    def test_there_is_none(self):
        self.assertEqual(printed(docs.check_bodies, docs.Repository(docs.HERE)), set())

    def test_other_names_and_other_lifetimes_bounds_and_comments(self):
        self.assertEqual(self.found(FIRST, SECOND), {f'{NEW}:14: most {SAME}'})

    def test_what_makes_a_difference(self):
        for old, new in (('.min(', '.max('), ("b' '", "b'#'"), ('x: left, y: bottom', 'y: left, x: bottom'), ('&Point, least', '&Rect, least'),
                         ('bottom + least', 'left + least'), ('&mut Vec', '&Vec')):
            with self.subTest(new=new):
                self.assertEqual(self.found(FIRST, SECOND.replace(old, new)), set())

    def test_a_method_and_a_function(self):
        method = 'impl Rect {\n    fn is_square(&self, by: i64) -> bool {\n        self.x2() - self.x1() == by\n    }\n}\n'
        function = 'fn has_width(rect: &Rect, w: i64) -> bool {\n    rect.x2() - rect.x1() == w\n}\n'
        self.assertEqual(self.found(method, function), {f'{NEW}:7: has_width does what is_square of {NEW}:2 does'})

    def test_types_of_one_name(self):
        path, function = 'crates/leg_sweep/src/bounds.rt', 'fn width(bounds: &Bounds) -> i64 {\n    bounds.x2 - bounds.x1\n}\n'
        self.copy.write(path, f'{self.copy.read(path)}\n{function}')
        line = self.copy.read(path).count('\n') - 2
        self.assertEqual(self.found(f'struct Bounds;\n\n{function}'), set())
        self.assertEqual(self.found(f'use leg_sweep::Bounds;\n\n{function}'), {f'{path}:{line}: width does what width of {NEW}:3 does'})

    def test_the_same_clauses_in_two_crates(self):
        clause = '    ensures { IsTrue result ↔ (k : ℕ) → HasPlace rect.now k }\n'
        one = f'fn has_all(rect: &Rect) -> bool\n{clause}{{\n    rect.x1() < 0 && rect.x2() > 0\n}}\n'
        other = one.replace('rect', 'other').replace('has_all', 'holds').replace('k', 'n').replace('> 0', '>= 1')
        self.assertEqual(self.found(one, other), set())
        path = 'crates/leg_sweep/src/bounds.rt'
        self.copy.write(path, f'{self.copy.read(path)}\n{other}')
        line = self.copy.read(path).count('\n') - 4
        self.assertEqual(self.found(one), {f'{path}:{line}: holds does what has_all of {NEW}:1 does'})

    def test_small_bodies_and_laws_are_free(self):
        for body in ('rect.x1()', 'rect.x1', 'b"x"', 'leg_lex::left(rect, 2)?', 'a == b', ''):
            self.assertEqual(self.found(*(f'fn f{n}(rect: &Rect) -> i64 {{\n    {body}\n}}\n' for n in (1, 2))), set())
        law = 'pub fn law()\n    ensures { 1 ≡ 1 }\n{\n    first_law();\n    second_law();\n}\n'
        self.assertEqual(self.found(law, law.replace('law()', 'lemma()')), set())
        self.assertNotEqual(self.found(*(f'fn f{n}(a: &Rect, b: &Rect) -> bool {{\n    *a == *b\n}}\n' for n in (1, 2))), set())


class ImportTests(DoctoredTests):
    """Names that sources import."""
    crates = ('leg_geom',)
    parts = ('crates/leg_geom/proofs',)

    def found(self, path, text):
        """Returns the names that the check finds in a new file of leg_geom."""
        path = f'crates/leg_geom/{path}'
        self.copy.write(path, text)
        said_of_it = re.compile(rf'{re.escape(path)}:(\d+): it imports (.*), and does not name it again')
        found = [said_of_it.fullmatch(line) for line in said(docs.check_imports, self.copy)]
        self.copy.remove(path)
        self.assertTrue(all(found))
        return {(int(it[1]), it[2]) for it in found}

    def test_the_code_names_none_that_is_for_clauses(self):
        self.assertEqual(said(docs.check_imports, self.copy), set())
        use = '// Some numbers.\nghost use Rattle.std.specs.Prelude.{◌≡◌, ◌+◌, Some, length as count};\n'
        code = '/// `count`\nfn sum(a: u8) -> Option<u8>\n    ensures { %s }\n{\n    count("≡"); Some(a + 1)\n}\n'
        self.assertEqual(self.found('src/new.rt', use + code % 'IfSome result (λ a. 0 ≤ a)'), {(2, '◌≡◌'), (2, '◌+◌'), (2, 'Some'), (2, 'length')})
        self.assertEqual(self.found('src/new.rt', use + code % 'result ≡ Some (count [] + 1)'), set())

    def test_fields_and_values_of_parameters_name_none(self):
        use = 'ghost use Rattle.std.specs.Prelude.{length, sum};\n'
        for clause, names in (('a.length ≤ sum.now', {(1, 'length'), (1, 'sum')}), ('(length a) ≤ (sum a)', set())):
            self.assertEqual(self.found('src/new.rt', f'{use}fn sum(a: u8)\n    requires {{ {clause} }}\n{{}}\n'), names)

    def test_ghost_items_name_what_they_have(self):
        use = 'ghost use Rattle.std.specs.Prelude.{ℕ, length, sum};\n'
        item = 'ghost count: { ℕ } = { %s };'
        clause = 'fn f()\n    ghost n: { ℕ }\n    requires few { length n ≤ sum n }\n{}'
        for text, names in ((item % 'length []', {(1, 'sum')}), (item % 'length sum', set()), (clause, set())):
            self.assertEqual(self.found('src/new.rt', f'{use}{text}\n'), names)

    def test_definitions_and_lemmas(self):
        use = '-- a sum\nuse Rattle.std.specs.Prelude.{ℕ, ◌+◌, if◌then◌else◌}\nuse Rattle.leg_lex.specs.Words.{◌>>=◌, end_at as ends}\n'
        for text, names in (('n : ℕ', {(2, '◌+◌'), (2, 'if◌then◌else◌'), (3, '◌>>=◌'), (3, 'end_at')}),
                            ('n : ℕ\nn = if a then ends else 1 + 1 -- do', {(3, '◌>>=◌')}), ('n : ℕ\nn = (if a then ends else (do\n  n) + 1)', set()),
                            ('n : ℕ → (◌+◌ a)\nn = ◌>>=◌ {B = ℕ} ends if◌then◌else◌', set())):
            for path in ('specs/New.antt', 'proofs/New.antt'):
                self.assertEqual(self.found(path, f'{use}\n{text}\n'), names)
        self.assertEqual(self.found('proofs/New.antt', 'pub use Rattle.std.specs.Prelude.{ℕ, ◌+◌}\nuse Rattle.leg_lex.specs.Words.{}\n'), set())

    def test_lists_over_several_lines(self):
        use = 'use Rattle.std.specs.Prelude.{\n  length,\n  sum,\n}'
        for path, text in (('src/new.rt', f'ghost {use};\n'), ('proofs/New.antt', f'{use}\n')):
            self.assertEqual(self.found(path, text), {(2, 'length'), (3, 'sum')})

    def test_modules(self):
        for last, name, use in (('Sum', 'Sum', 'use Rattle.leg_geom.specs.Sum'), ('Goals', 'goal', 'use Rattle.leg_geom.proofs.sum.Goals as goal')):
            for text, names in ((f'new-is : {name}.new-is', set()), ('new-is : c.goal.sum', {(1, last)})):
                self.assertEqual(self.found('proofs/New.antt', f'{use}\n{text}\n'), names)
        use = 'ghost use Rattle.leg_geom.specs.Line as line;\n'
        for clause, names in (('line.between a', set()), ('a.line.now', {(1, 'Line')})):
            self.assertEqual(self.found('src/new.rt', f'{use}fn f(a: u8)\n    requires {{ {clause} }}\n{{ line.f() }}\n'), names)


class LibraryTests(DoctoredTests):
    """Libraries that crates.txt has for a crate."""
    crates = ('leg_lemmas', 'leg_geom', 'leg_sweep')
    parts = ('crates/leg_lemmas/proofs', 'crates/leg_geom/proofs', 'crates/leg_sweep/proofs')

    def left(self, path, text):
        """Returns which libraries of a new crate the check finds that this file of it, its only one, does not name."""
        self.copy.write(f'crates/leg_new/{path}', text)
        found = [re.fullmatch('crates.txt: leg_new has (.*), and no file of it names that', line) for line in said(docs.check_libraries, self.copy)]
        self.copy.remove(f'crates/leg_new/{path}')
        self.assertTrue(all(found))
        return {it[1] for it in found}

    def test_those_that_no_file_names(self):
        self.assertEqual(said(docs.check_libraries, self.copy), set())
        self.copy.write('crates.txt', self.copy.read('crates.txt') + 'leg_new staticlib: leg_geom itoa # and no other\n')
        for text, left in (('use itoa::Buffer;\n', {'leg_geom'}), ('ghost use Rattle.leg_geom.specs.Line.{between};\n', {'itoa'}),
                           ('#[tactic(auto, using(leg_geom::proofs::Corners::lower_left))]\nfn left() {}\n', {'itoa'}),
                           ('// use itoa::Buffer, leg_geom::Rect\n', {'leg_geom', 'itoa'}),
                           ('const A: &str = "itoa::Buffer";\nfn itoa(leg_geom: u8) {}\n', {'leg_geom', 'itoa'})):
            with self.subTest(text=text):
                self.assertEqual(self.left('src/lib.rt', text), left)
        self.assertEqual(self.left('proofs/New.antt', 'use Rattle.leg_geom.proofs.Corners.{lower_left}\n-- as Rattle.itoa has it\n'), {'itoa'})


class WidthTests(DoctoredTests):
    """Lines of sources."""
    crates = ('leg_geom',)
    long = 'a' * docs.WIDTH

    def found(self, path, text):
        """Returns which lines of a new file the check finds too wide, and how wide they are."""
        path = f'crates/leg_geom/{path}'
        self.copy.write(path, text)
        said_of_it = re.compile(rf'{re.escape(path)}:(\d+) has (\d+) characters, and {docs.WIDTH} are the most')
        found = [said_of_it.fullmatch(line) for line in said(docs.check_widths, self.copy)]
        self.copy.remove(path)
        self.assertTrue(all(found))
        return {(int(it[1]), int(it[2])) for it in found}

    def test_a_line_that_is_too_wide(self):
        self.assertEqual(said(docs.check_widths, self.copy), set())
        for path, mark in (('specs/New.antt', '--'), ('proofs/New.antt', '--'), ('src/new.rt', '//')):
            line = f'{mark} {self.long}'
            self.assertEqual(self.found(path, f'{mark} Nothing.\n{line}\n'), {(2, len(line))})
            self.assertEqual(self.found(path, f'{line[:docs.WIDTH]}\n'), set())

    def test_only_the_text_inside_quotation_marks_is_free(self):
        self.assertEqual(self.found('specs/New.antt', f'word = codes "{self.long}"\n'), set())
        lifetime = f"<u8 as A<'a>>::f('\\'', \"{self.long}\")"
        for code in (f'b"{self.long}"', f"f('a', \"\\\"{self.long}\")", f'r#"a"{self.long}"#', f'"a\n{self.long}\n"', lifetime):
            with self.subTest(code=code):
                self.assertEqual(self.found('src/new.rt', f'const A: u8 = {code};\n'), set())
        for path, line, free in (('specs/New.antt', f'word : {self.long} ≡ codes "("', 1), ('src/new.rt', f'let {self.long} = "(";', 1),
                                 ('src/new.rt', f'// "{self.long}"', 0), ('specs/New.antt', f'-- "{self.long}"', 0)):
            with self.subTest(line=line):
                self.assertEqual(self.found(path, f'{line}\n'), {(1, len(line) - free)})

    def test_imports_and_the_lemmas_of_an_attribute_are_free(self):
        for line in (f'use Rattle.{self.long}', f'pub use Rattle.{self.long}'):
            self.assertEqual(self.found('specs/New.antt', f'{line}\n'), set())
        for line in (f'ghost use Rattle.{self.long};', f'pub(crate) use crate::{self.long};', f'#[tactic(auto, using(crate::{self.long}))]'):
            self.assertEqual(self.found('src/new.rt', f'    {line}\n'), set())


class PremiseTests(DoctoredTests):
    """Statements of specs/ and proofs/ with many premises."""
    crates = ('leg_geom',)

    def found(self, statement):
        """Returns what the check says of a new file with this statement, in which `Even` says something of a number and `Pair` is plain data."""
        path = 'crates/leg_geom/specs/New.antt'
        self.copy.write(path, 'record Even (n : ℕ) : Type 0 where\n  half : ℕ\n\nrecord Pair : Type 0 where\n  first : ℕ\n\n' + statement + '\n')
        return said(docs.check_premises, self.copy)

    def test_premises_are_counted(self):
        self.assertEqual(said(docs.check_premises, self.copy), set())
        six = 'many : (a b : ℕ) → a ≡ b → a < b\n    → Even a → ((n : ℕ) → Even n) → (a ≡ b) × (b < a) → (even : Even b) → '
        said_of_seven = {'crates/leg_geom/specs/New.antt:7: many has 7 premises, and 6 are the most'}
        for more in ('¬ Even a', '(same : a ≡ b)', '(a ≡ b) ⊎ Even a', 'All Even (a ∷ [])'):
            with self.subTest(more=more):
                self.assertEqual(self.found(f'{six}{more} → a ≤ b'), said_of_seven)
        for more in ('(c : ℕ)', 'Pair', '(Pair → ℕ → Type 0)', '(ℕ → Pair)', 'List (List Pair)', 'ℕ × Pair', 'HashMap ℕ Pair'):
            with self.subTest(more=more):
                self.assertEqual(self.found(f'{six}{more} → a ≤ b'), set())

    def test_what_a_module_gives_is_not_counted_and_what_its_parameters_say_is_known(self):
        module = 'module _ (P : ℕ → Type 0) (p : P 0) (q : P 1) (r : P 2)\n    (s : P 3) where\n  pub many : (a : ℕ) → '
        self.assertEqual(self.found(f'{module}{"P a → " * 6}P a'), set())
        self.assertEqual(self.found(f'{module}{"P a → " * 7}P a'), {'crates/leg_geom/specs/New.antt:9: many has 7 premises, and 6 are the most'})

    def test_records_and_parts_of_proofs_are_free(self):
        record = 'record Many (a : ℕ) (b : Even a) : Type 0 where\n' + ''.join(f'  field{n} : Even a\n' for n in range(8))
        proof = 'one : ℕ\none = two where\n  two : ' + '0 < 1 → ' * 7 + 'ℕ\n'
        for text in (record, proof):
            self.assertEqual(self.found(text), set())


class NameTests(DoctoredTests):
    """Names of files of specs/ and proofs/."""
    crates = ('leg_geom',)

    def test_names_that_end_with_a_participle(self):
        self.assertEqual(said(docs.check_names, self.copy), set())
        wrong = ('specs/Told.antt', 'specs/Steps/EdgesSorted.antt', 'proofs/PointsKept.antt', 'proofs/Added.antt')
        right = ('specs/WellFormed.antt', 'specs/Steps/SortedEdges.antt', 'proofs/KeptPoints.antt', 'proofs/added/Answers.antt')
        for path in (*wrong, *right):
            self.copy.write(f'crates/leg_geom/{path}', '-- Nothing.\n')
        self.assertEqual(said(docs.check_names, self.copy), {f'crates/leg_geom/{path}: its name ends with a participle' for path in wrong})


class GateTests(DoctoredTests):
    """tests/edits/gate."""
    crates = ()
    parts = ('tests/edits',)

    def test_lists_that_are_wrong(self):
        repository, path = docs.Repository(self.copy.top), 'tests/edits/gate'
        lines, before = self.copy.read(path).splitlines(keepends=True), printed(docs.check_gate, repository)
        self.copy.write(path, '# nothing\n')
        found = printed(docs.check_gate, repository) - before
        self.assert_said(found, 'tests/edits/gate lists no edit', 'no edit of leg_place, which the program runs')
        self.copy.write(path, ''.join(line for line in lines if not line.startswith('leg_route_search/')))
        self.assertEqual(printed(docs.check_gate, repository) - before, {'tests/edits/gate: no edit of leg_route_search, which the program runs'})
        self.copy.write(path, ''.join(lines) + 'leg_geom/none rect::Rect::gap\n')
        self.assertEqual(printed(docs.check_gate, repository) - before,
                         {'tests/edits/gate: there is no edit leg_geom/none',
                          'tests/edits/gate: leg_geom/none names rect::Rect::gap, which is no function of leg_geom'})


class RecordTests(DoctoredTests):
    """tests/edits/tried."""
    crates = ('leg_geom', 'leg_sweep')
    parts = ('tests/edits/leg_geom', 'tests/edits/leg_sweep')

    def test_a_record_of_other_sources_or_edits_is_old_and_no_failure(self):
        top, file, edit = Path(self.copy.top), 'crates/leg_geom/src/rect.rt', 'tests/edits/leg_geom/square_gap_along_x_only.edit'
        days = {'leg_geom': '2031-02-03', 'leg_sweep': '2031-02-04'}
        with mock.patch.object(record, 'TOP', top):
            record.write([record.Entry(it, record.sum_of(it, top), day, 3, 2, 1) for it, day in days.items()], days)
        self.assertEqual(self.told(), ['0 passed, 0 failed'])
        old = 'old: the wrong bodies of leg_geom were all tried on 2031-02-03, and its sources or they have changed since'
        for path in (file, edit):
            text = self.copy.read(path)
            self.copy.write(path, f'{text}\n')
            self.assertEqual(self.told(), [old, '0 passed, 0 failed'])
            self.copy.write(path, text)
            self.assertEqual(self.told(), ['0 passed, 0 failed'])
        self.copy.write('crates/leg_geom/proofs/New.antt', ADDED)
        self.assertEqual(self.told(), [old, '0 passed, 0 failed'])

    def told(self):
        """Returns what the script prints of the copy where nothing else is looked at; it must not fail."""
        with mock.patch.object(docs, 'CHECKS', ()), contextlib.redirect_stdout(io.StringIO()) as told:
            self.assertEqual(docs.main(['--top', self.copy.top]), 0)
        return told.getvalue().splitlines()


if __name__ == '__main__':
    unittest.main()
