"""Tests of tests/edits/run: which functions an edit changes, how rounds are made, and what is taken from the words of the checker, for
which small texts stand in; and, with the kit itself, whether libraries are of the sources that stand there."""
import contextlib
import io
import os
import shutil
import subprocess
import sys
import tempfile
import textwrap
import unittest
from pathlib import Path
from unittest import mock

TOP = Path(__file__).resolve().parents[2]
sys.path.insert(0, str(TOP / 'tests' / 'edits'))
import libraries
import record
import said
import source
from edit import DoesNotFit, make, read_edit
from rounds import FAILED, KEPT, LATE, REFUSED, UNFIT, Trial, from_both_ends

LIB = '''//! Counts.

mod named;
pub use named::Count;

/// The lower one of two numbers.
pub fn least(a: u8, b: u8) -> u8
    ensures { result ≡ min a b }
{
    if a < b { a } else { b }
}

/// The sum of three.
pub fn sum(a: u8, b: u8, c: u8) -> u8
    requires small { a + b + c ≤ 255 }
    ensures { result ≡ a + b + c }
{
    twice(a, b) + c
}

fn twice(a: u8, b: u8) -> u8
    requires small { a + b ≤ 255 }
    ensures { result ≡ a + b }
{
    a + b
}

const MOST: usize = 7;
'''
NAMED = '''//! A count.

pub struct Count<'a, T> {
    items: &'a [T],
}

pub trait Counted {
    ghost many: { Self → ℕ };

    fn many(&self) -> usize
        ensures { result ≡ many self.now };

    fn is_none(&self) -> bool {
        self.many() == 0
    }
}

impl<'a, T: Into<Vec<u8>>> Count<'a, T> {
    pub fn len(&self) -> usize
        ensures { result ≡ length self.now }
    {
        let found = Found { items: self.items };
        found.items.iter().filter(|it| it.is_there()).count()
    }
}

impl<T: Drop> From<AllocFailed<T>> for Fault {
    fn from(_refused: AllocFailed<T>) -> Fault { Fault::Memory }
}

pub enum Fault {
    Memory,
}
'''
PROVED = '''fn counts::least: proved
fn counts::twice: proved
fn counts::sum: proved
'''
ENDED = 'crate counts: modules loaded=1 checked=2\nonly=3 proved=3\n'


def checked(*lines, ended=ENDED):
    """Returns what was said by a check with these verdicts and notes, each function of the others being proved."""
    text = '\n'.join(lines)
    rest = [it for it in PROVED.splitlines() if it.partition(': ')[0] + ': ' not in text]
    return said.read('\n'.join([*lines, *rest, ended]))


class Room(unittest.TestCase):
    """A test over a small crate in a folder of its own."""

    def setUp(self):
        room = tempfile.TemporaryDirectory()
        self.addCleanup(room.cleanup)
        self.room = Path(room.name)
        self.crate = self.room / 'crates' / 'counts'
        self.file('crates/counts/src/lib.rt', LIB)
        self.file('crates/counts/src/named.rt', NAMED)
        self.file('crates/counts/specs/Counts.antt', 'pub most : ℕ\nmost = 7\n')
        self.functions = source.functions_below(self.crate)

    def file(self, name, text):
        path = self.room / name
        path.parent.mkdir(parents=True, exist_ok=True)
        path.write_text(text, encoding='utf-8')
        return path

    def edit(self, name, *pairs, file='src/lib.rt', breaks=None, keep=False):
        """Returns the file of an edit of the crate with these pairs of an old and a new text."""
        rows = [f'file: {file}', *[f'old: {old}\nnew: {new}' for old, new in pairs], *([f'breaks: {breaks}'] if breaks else [])]
        return self.file(f"edits/{'keep/' * keep}counts/{name}.edit", '\n'.join([*rows, '']))

    def read(self, *given, named=(), **words):
        return read_edit(self.edit(*given, **words), self.crate, self.functions, named)

    def trial(self, *paths):
        return Trial('counts', [(it, None) for it in paths], self.crate)

    def lower(self, name='least_is_greatest', new='a > b'):
        return self.edit(name, ('a < b', new))


class SourceTests(Room):
    def test_functions_have_the_checkers_paths(self):
        paths = [it.path for it in self.functions]
        self.assertEqual(paths, ['least', 'sum', 'twice', 'named::Counted::many', 'named::Counted::is_none', 'named::Count::len',
                                 'named::FaultFromAllocFailed::from'])

    def test_functions_have_their_lines(self):
        lines = LIB.split('\n')
        total = next(it for it in self.functions if it.path == 'sum')
        self.assertEqual([lines[it - 1] for it in (total.first, total.body, total.last)], ['pub fn sum(a: u8, b: u8, c: u8) -> u8', '{', '}'])
        self.assertEqual([it.path for it in self.functions if it.is_public], ['least', 'sum', 'named::Count::len'])

    def test_a_functions_attributes_are_its_own(self):
        self.file('crates/counts/src/more.rt', "/// None.\n#[tactic(auto)]\n#[inline]\npub fn none() -> u8 {\n    0\n}\n")
        none = next(it for it in source.functions_below(self.crate) if it.path == 'more::none')
        self.assertEqual((none.first, none.body, none.last), (2, 4, 6))

    def test_a_record_in_a_clause_may_have_lines_of_its_own(self):
        clause = 'fn made(a: u8) -> Count\n    ensures { result ≡ record {\n      of = a;\n      more = 0;\n    } }\n{\n    Count { of: a }\n}\n'
        self.file('crates/counts/src/more.rt', clause)
        made = next(it for it in source.functions_below(self.crate) if it.path == 'more::made')
        self.assertEqual((made.first, made.body, made.last), (1, 6, 8))

    def test_a_functions_module_is_that_of_its_type(self):
        self.file('crates/counts/src/more.rt', "impl<'a, T> Count<'a, T> {\n    fn is_one(&self) -> bool {\n        self.len() == 1\n    }\n}\n")
        self.assertIn('named::Count::is_one', [it.path for it in source.functions_below(self.crate)])

    def test_each_function_of_this_repositorys_gate_is_found(self):
        for line in (TOP / 'tests' / 'edits' / 'gate').read_text(encoding='utf-8').splitlines():
            if line and not line.startswith('#'):
                edit, function = line.split()
                paths = [it.path for it in source.functions_below(TOP / 'crates' / edit.partition('/')[0])]
                self.assertIn(function, paths, line)


class EditTests(Room):
    def test_an_edit_breaks_the_function_of_its_place(self):
        edit = self.read('greatest', ('a < b', 'a > b'))
        self.assertEqual((edit.functions, edit.is_alone, edit.keeps), (('least',), False, False))
        self.assertEqual(edit.lines, (('src/lib.rt', 10, '    if a > b { a } else { b }'),))

    def test_an_edit_of_a_clause_or_of_two_functions_is_tried_alone(self):
        self.assertTrue(self.read('loose', ('requires small { a + b ≤ 255 }', 'requires small { a ≤ 255 }')).is_alone)
        both = self.read('both', ('a < b', 'a > b'), ('twice(a, b) + c', 'twice(a, c) + c'))
        self.assertEqual((both.functions, both.is_alone), (('least', 'sum'), True))

    def test_an_edit_outside_of_functions_names_what_it_breaks(self):
        with self.assertRaises(DoesNotFit):
            self.read('most', ('MOST: usize = 7', 'MOST: usize = 8'))
        edit = self.read('most', ('MOST: usize = 7', 'MOST: usize = 8'), breaks='least')
        self.assertEqual((edit.functions, edit.is_alone), (('least',), True))
        edit = self.read('of_specs', ('most = 7', 'most = 8'), file='specs/Counts.antt', breaks='sum')
        self.assertEqual((edit.functions, edit.is_alone), (('sum',), True))

    def test_the_gate_names_the_function(self):
        self.assertEqual(self.read('greatest', ('a < b', 'a > b'), named=['sum']).functions, ('sum',))

    def test_an_edit_fits_where_each_text_stands_once(self):
        for pairs in ((('a + b', 'a - b'),), (('a < c', 'a'),), ()):
            with self.assertRaises(DoesNotFit):
                self.read('wrong', *pairs)
        with self.assertRaises(DoesNotFit):
            self.read('longer', ('a < b', 'a <= b\n    && true'))
        twice = self.read('again', ('a < b', 'a <= b'), ('a <= b', 'b <= a'))
        self.assertEqual([text.strip() for _, _, text in twice.lines], ['if b <= a { a } else { b }'])

    def test_edits_are_made_side_by_side(self):
        first = self.read('greatest', ('a < b', 'a > b'))
        second = self.read('other', ('twice(a, b) + c', 'twice(a, c) + a > b'))
        make([first, second], self.crate)
        text = (self.crate / 'src/lib.rt').read_text(encoding='utf-8')
        self.assertEqual(text, LIB.replace('a < b', 'a > b').replace('twice(a, b) + c', 'twice(a, c) + a > b'))


class RoundTests(Room):
    OPEN = 'note: src/lib.rt:7:1: it is not proved that what the function ensures holds when it returns (`returns`); `search` gave up'
    UNFIT = ('./proofs/least/Answers.antt:9:68: error: `returns`: the two types differ only where one has `a` (expected)\n'
             '  expected type `a ≡ b`\n  but this has type `b ≡ a`')
    NAMED = '././proofs/least/Answers.antt:9:68: error: `returns`: `goal.returns`: module `G` has no `returns` that can be named'[2:]
    TACTIC = './proofs/least/Answers.antt:9:68: error: `returns`: `omega`: the goal does not follow. It fails at `a` = 1'
    NO_PROOF = 'fn counts::least: no proof: expected answers in ./proofs/least/Answers.antt; `search` did not prove `returns`'
    FAILED = 'fn counts::least: not proved'

    def kinds(self, trial, *rounds):
        """Returns what comes of a trial in which the checks of the rounds say this, by the edit's name."""
        for it in rounds:
            trial.take(trial.next_round(), it)
        trial.settle()
        return {it.name: it.kind for it in trial.results}

    def one(self, *lines, **words):
        return self.kinds(self.trial(self.lower()), checked(*lines, **words))['counts/least_is_greatest']

    def test_a_goal_that_is_open_in_the_functions_lines_refuses(self):
        self.assertEqual(self.one(self.OPEN, self.NO_PROOF), REFUSED)
        self.assertEqual(self.one(self.UNFIT, self.OPEN, self.FAILED), REFUSED)

    def test_a_goal_that_a_tactic_does_not_prove_refuses(self):
        self.assertEqual(self.one(self.TACTIC, self.FAILED), REFUSED)

    def test_a_goal_elsewhere_refuses_nothing(self):
        self.assertEqual(self.one(self.OPEN.replace(':7:', ':15:'), self.NO_PROOF), FAILED)
        self.assertEqual(self.one(self.OPEN.replace('lib.rt', 'named.rt'), self.NO_PROOF), FAILED)
        self.assertEqual(self.one(self.TACTIC.replace('least', 'sum'), self.FAILED), FAILED)

    def test_no_proof_alone_refuses_nothing(self):
        self.assertEqual(self.one('fn counts::least: no proof: this is not covered'), FAILED)
        self.assertEqual(self.one('fn counts::least: could not tell'), FAILED)
        self.assertEqual(self.one('fn counts::least: proved'), FAILED)

    def test_a_check_without_an_end_refuses_nothing(self):
        self.assertEqual(self.one(self.OPEN, self.NO_PROOF, ended='rattle: error: out of memory'), FAILED)
        self.assertEqual(self.kinds(self.trial(self.lower()), said.read('src/lib.rt:10:8: error[E0308]: mismatched types'))['counts/least_is_greatest'], FAILED)

    def test_another_function_that_is_not_proved_refuses_nothing(self):
        self.assertEqual(self.one(self.OPEN, self.NO_PROOF, 'fn counts::twice: not proved'), FAILED)

    def test_written_proofs_alone_refuse_nothing(self):
        self.assertEqual(self.one(self.UNFIT, self.FAILED), UNFIT)
        self.assertEqual(self.one(self.NAMED, self.FAILED), UNFIT)

    def test_goals_of_another_edit_of_the_round_do_not_count(self):
        trial = self.trial(self.lower(), self.edit('no_third', ('twice(a, b) + c', 'twice(a, b)')))
        goal = self.OPEN.replace(':7:', ':14:')
        kinds = self.kinds(trial, checked(self.UNFIT, self.FAILED, goal, 'fn counts::sum: not proved'))
        self.assertEqual(kinds, {'counts/least_is_greatest': UNFIT, 'counts/no_third': REFUSED})

    def test_written_proofs_count_beside_an_edit_that_keeps_the_meaning(self):
        keeps = self.edit('other_way_round', ('a < b', 'b > a'), keep=True)
        kinds = self.kinds(self.trial(self.lower(), keeps), checked(self.UNFIT, self.FAILED), checked())
        self.assertEqual(kinds, {'counts/least_is_greatest': REFUSED, 'keep/counts/other_way_round': KEPT})
        kinds = self.kinds(self.trial(self.lower(), keeps), checked(self.UNFIT, self.FAILED), checked(self.OPEN, self.NO_PROOF))
        self.assertEqual(kinds, {'counts/least_is_greatest': UNFIT, 'keep/counts/other_way_round': FAILED})

    def test_one_that_keeps_the_meaning_elsewhere_does_not_help(self):
        keeps = self.edit('in_turn', ('twice(a, b) + c', 'c + twice(a, b)'), keep=True)
        self.assertEqual(self.kinds(self.trial(self.lower(), keeps), checked(self.UNFIT, self.FAILED))['counts/least_is_greatest'], UNFIT)

    def test_a_round_has_one_edit_of_a_function(self):
        trial = self.trial(self.lower('a', 'b < a'), self.lower('b', 'a <= b'), self.edit('c', ('twice(a, b) + c', 'twice(a, b)')))
        self.assertEqual([it.name for it in trial.next_round()], ['a', 'c'])

    def test_a_caller_is_tried_again_without_what_it_calls(self):
        trial = self.trial(self.edit('caller', ('twice(a, b) + c', 'twice(a, b)')), self.edit('callee', ('    a + b', '    a')))
        made = trial.next_round()
        self.assertEqual(len(made), 2)
        goal = self.OPEN.replace(':7:', ':22:')
        trial.take(made, checked(goal, 'fn counts::twice: not proved', 'fn counts::sum: no proof: it calls `counts::twice`, which is not proved'))
        self.assertEqual([it.name for it in trial.left], ['caller'])
        self.assertEqual(self.kinds(trial, checked(self.OPEN.replace(':7:', ':14:'), 'fn counts::sum: not proved')),
                         {'counts/callee': REFUSED, 'counts/caller': REFUSED})

    def test_an_open_goal_counts_whatever_the_function_calls(self):
        trial = self.trial(self.edit('caller', ('twice(a, b) + c', 'twice(a, b)')), self.edit('callee', ('    a + b', '    a')))
        goals = [self.OPEN.replace(':7:', ':14:'), self.OPEN.replace(':7:', ':22:')]
        kinds = self.kinds(trial, checked(*goals, 'fn counts::twice: not proved', 'fn counts::sum: no proof: `search` did not prove `returns`; it calls `counts::twice`, which is not proved'))
        self.assertEqual(kinds, {'counts/callee': REFUSED, 'counts/caller': REFUSED})

    def test_a_round_that_gives_no_verdict_is_tried_edit_by_edit(self):
        trial = self.trial(self.lower(), self.edit('no_type', ('twice(a, b) + c', 'twice(a, b) + nothing')))
        trial.take(trial.next_round(), said.read('error[E0425]: cannot find value `nothing`'))
        self.assertEqual([len(trial.next_round()), trial.results], [1, []])
        kinds = self.kinds(trial, checked(self.OPEN, self.NO_PROOF), said.read('error[E0425]: cannot find value `nothing`'))
        self.assertEqual(kinds, {'counts/least_is_greatest': REFUSED, 'counts/no_type': FAILED})

    def test_the_proof_of_a_function_that_calls_itself_is_found(self):
        self.assertEqual(self.one(self.TACTIC.replace('/least/', '/+least/'), self.FAILED), REFUSED)

    def test_a_closure_is_a_part_of_its_function(self):
        trial = self.trial(self.edit('all', ('it.is_there()', 'true'), file='src/named.rt'))
        goal = 'note: src/named.rt:23:38: it is not proved that what the closure ensures holds'
        kinds = self.kinds(trial, checked(goal, 'fn counts::named::Count::fn::len::filter: not proved',
                                          'fn counts::named::Count::len: no proof: it calls `counts::named::Count::fn::len::filter`, which is not proved'))
        self.assertEqual(kinds, {'counts/all': REFUSED})

    def test_a_closure_is_proved_as_far_as_its_callers_go(self):
        asked = 'fn counts::named::Count::fn::len::filter: proved where its callers give what it asks'
        self.assertEqual(self.one(self.OPEN, self.NO_PROOF, asked, 'fn counts::named::Count::len: proved'), REFUSED)
        self.assertEqual(self.one(self.OPEN, self.NO_PROOF, asked, 'fn counts::named::Count::len: not proved'), FAILED)

    def test_what_does_not_fit_fails_and_what_is_left_is_late(self):
        trial = self.trial(self.lower('a', 'b < a'), self.edit('gone', ('no such text', 'x')))
        self.assertEqual(self.kinds(trial), {'counts/gone': FAILED, 'counts/a': LATE})


# Stands in for the kit: `rt` tells where its pages are, and `rattle` says of each function that is asked for what the file `says` has.
RT = '''#!/bin/sh
[ "$1" = doc ] && echo "$KIT/START-HERE.md"
'''
RATTLE = '''#!/bin/sh
echo "$PWD $*" >>"$CALLS"
cat "$SAYS"
'''
MODULE = '''import types
rtlib = types.SimpleNamespace(crates_below=lambda top: [])
'''


class RunTests(Room):
    """The whole script, in a copy of the repository with one crate, over stand-ins for the kit's commands."""

    def setUp(self):
        super().setUp()
        self.edits = self.room / 'tests' / 'edits'
        self.edits.mkdir(parents=True)
        for it in (TOP / 'tests' / 'edits').iterdir():
            if it.is_file() and it.name not in ('gate', 'tried'):
                shutil.copy(str(it), str(self.edits))
        self.file('crates.txt', 'counts:\n')
        self.file('HANDLES', 'Handles allowed: none.\n')
        self.calls, self.says = self.file('calls', ''), self.file('says', '')
        for name, text in (('kit/bin/rt', MODULE), ('kit/bin/rattle', RATTLE), ('commands/rt', RT)):
            os.chmod(str(self.file(name, text)), 0o755)
        shutil.move(str(self.edit('least_is_greatest', ('a < b', 'a > b')).parent), str(self.edits))
        self.gate('counts/least_is_greatest least')

    def gate(self, *lines):
        (self.edits / 'gate').write_text('\n'.join(['# The list.', *lines, '']), encoding='utf-8')

    def run_script(self, *words, says=()):
        """Returns the status and what the script prints."""
        self.says.write_text('\n'.join([*says, ENDED]), encoding='utf-8')
        path = os.pathsep.join([str(self.room / 'commands'), os.environ['PATH']])
        env = {**os.environ, 'PATH': path, 'KIT': str(self.room / 'kit'), 'CALLS': str(self.calls), 'SAYS': str(self.says)}
        ran = subprocess.run([sys.executable, str(self.edits / 'run'), *words], env=env, stdout=subprocess.PIPE, stderr=subprocess.STDOUT, universal_newlines=True, timeout=60)
        return ran.returncode, ran.stdout

    def last(self, *words, says=()):
        status, out = self.run_script(*words, says=says)
        return status, out.splitlines()[-1]

    REFUSAL = (RoundTests.OPEN, RoundTests.NO_PROOF)

    def test_the_gate_passes_where_its_edits_are_refused(self):
        self.assertEqual(self.last('--gate', says=self.REFUSAL), (0, '1 passed, 0 failed'))
        self.assertIn('--only least', self.calls.read_text(encoding='utf-8'))

    def test_the_gate_fails_where_one_is_proved(self):
        status, out = self.run_script('--gate', says=['fn counts::least: proved'])
        self.assertEqual((status, out.splitlines()[-1]), (1, '0 passed, 1 failed'))
        self.assertIn('counts/least_is_greatest: FAILED', out)

    def test_the_gate_tries_what_keeps_the_meaning_of_a_function_that_it_breaks(self):
        (self.edits / 'keep').mkdir()
        shutil.move(str(self.edit('in_turn', ('twice(a, b) + c', 'c + twice(a, b)'), keep=True).parent), str(self.edits / 'keep'))
        self.assertEqual(self.last('--gate', says=self.REFUSAL), (0, '1 passed, 0 failed'))
        self.assertEqual(self.last(says=(*self.REFUSAL, 'fn counts::sum: proved')), (0, '2 passed, 0 failed'))
        (self.edits / 'keep/counts/other_way_round.edit').write_text('file: src/lib.rt\nold: a < b\nnew: b > a\n', encoding='utf-8')
        self.assertEqual(self.last('--gate', says=self.REFUSAL), (1, '1 passed, 1 failed'))
        (self.edits / 'keep/counts/gone.edit').write_text('file: src/lib.rt\nold: no such text\nnew: x\n', encoding='utf-8')
        self.assertEqual(self.last('--gate', says=self.REFUSAL), (1, '1 passed, 2 failed'))

    def test_an_empty_list_is_a_failure(self):
        self.gate()
        status, out = self.run_script('--gate', says=self.REFUSAL)
        self.assertEqual(status, 1)
        self.assertIn('no edit was tried', out)

    def test_written_proofs_alone_fail_the_gate_and_count_as_nothing_elsewhere(self):
        says = (RoundTests.UNFIT, RoundTests.FAILED)
        self.assertEqual(self.last('--gate', says=says), (1, '0 passed, 1 failed'))
        status, out = self.run_script(says=says)
        self.assertEqual((status, out.splitlines()[-1]), (1, '0 passed, 0 failed'))
        self.assertIn('refused for written proofs alone: counts/least_is_greatest', out)

    def test_what_is_recorded_is_not_tried_until_it_changes(self):
        self.assertEqual(self.last('--record', says=self.REFUSAL), (0, '1 passed, 0 failed'))
        self.assertIn('counts ', (self.edits / 'tried').read_text(encoding='utf-8'))
        self.calls.write_text('', encoding='utf-8')
        status, out = self.run_script('--changed', says=['fn counts::least: proved'])
        self.assertEqual((status, out.splitlines()[-1], self.calls.read_text(encoding='utf-8')), (0, '1 passed, 0 failed', ''))
        self.assertIn('counts: nothing has changed', out)
        self.file('crates/counts/src/lib.rt', LIB.replace('//! Counts.', '//! Some counts.'))
        self.assertEqual(self.last('--changed', says=['fn counts::least: proved']), (1, '0 passed, 1 failed'))

    def test_a_failure_is_not_recorded(self):
        self.assertEqual(self.last('--record', says=['fn counts::least: proved'])[0], 1)
        self.assertNotIn('counts ', (self.edits / 'tried').read_text(encoding='utf-8').replace('# ', ''))

    def test_what_there_is_no_time_for_counts_as_nothing_but_one_edit_is_tried(self):
        shutil.copy(str(self.edit('least_is_the_first', ('a < b', 'true'))), str(self.edits / 'counts'))
        status, out = self.run_script('--changed', '--minutes', '0', says=self.REFUSAL)
        self.assertEqual((status, out.splitlines()[-1]), (0, '1 passed, 0 failed'))
        self.assertIn('not tried, for want of time: counts/least_is_greatest', out)

    def test_where_time_is_short_a_lower_crate_comes_after_each_upper_one(self):
        self.assertEqual([from_both_ends(it) for it in ([], [3], [3, 2, 1], [4, 3, 2, 1])], [[], [3], [3, 1, 2], [4, 1, 3, 2]])


class LibraryTests(unittest.TestCase):
    """Libraries that the kit itself makes, of two small crates."""

    @classmethod
    def setUpClass(cls):
        room = tempfile.TemporaryDirectory()
        cls.addClassCleanup(room.cleanup)
        cls.room = Path(room.name)
        shutil.copytree(str(TOP / 'tests' / 'edits'), str(cls.room / 'tests' / 'edits'), ignore=lambda at, names: [it for it in names if not Path(at, it).is_file()])
        for name, use in (('lower', ''), ('upper', 'use lower::least;\n\n')):
            text = f'//! Numbers.\n#![tactic(auto)]\n\n{use}/// One of two numbers.\npub fn {"least_of" if use else "least"}(a: u8, b: u8) -> u8 {{\n    '
            folder = cls.room / 'crates' / name / 'src'
            folder.mkdir(parents=True)
            (folder / 'lib.rt').write_text(text + ('least(b, a)' if use else 'if a < b { a } else { b }') + '\n}\n', encoding='utf-8')
        (cls.room / 'crates.txt').write_text('lower:\nupper: lower\n', encoding='utf-8')
        (cls.room / 'HANDLES').write_text('Handles allowed: none.\n', encoding='utf-8')
        # (the gate takes the sums before, and notes the libraries after)
        cls.call_libraries('--sums', 'sums')
        ran = subprocess.run(['rt', 'ci'], cwd=str(cls.room), stdout=subprocess.PIPE, stderr=subprocess.STDOUT, universal_newlines=True)
        assert ran.returncode == 0, ran.stdout
        cls.call_libraries('--note', 'sums', 'lower', 'upper')

    @classmethod
    def call_libraries(cls, *words):
        subprocess.run([sys.executable, '-B', 'tests/edits/libraries.py', *words], cwd=str(cls.room), check=True)

    def are_current(self, *names):
        """Returns what a run of the script would find of these crates."""
        script = '\n'.join(['import sys, tempfile', 'from pathlib import Path', 'import libraries', 'top = Path(tempfile.mkdtemp(dir=sys.argv[1]))',
                            'libraries.copy_crates(sys.argv[2:], top)', 'print(libraries.are_current(top, libraries.kit()))'])
        words = [sys.executable, '-c', script, str(self.room), *names]
        ran = subprocess.run(words, cwd=str(self.room / 'tests' / 'edits'), stdout=subprocess.PIPE, universal_newlines=True, check=True)
        return ran.stdout == 'True\n'

    def test_what_rt_ci_has_made_is_current_until_a_source_or_a_library_changes(self):
        self.assertTrue(self.are_current('lower', 'upper'))
        self.assertTrue(self.are_current('lower'))
        source = self.room / 'crates/lower/src/lib.rt'
        text = source.read_text(encoding='utf-8')
        source.write_text(text.replace('Numbers', 'Small numbers'), encoding='utf-8')
        self.assertFalse(self.are_current('lower', 'upper'))
        source.write_text(text, encoding='utf-8')
        self.assertTrue(self.are_current('lower', 'upper'))
        made = self.room / 'crates/lower/out/rlib/lower.rlib/format'
        # (it is a second name of a file that the kit keeps)
        text = made.read_bytes()
        made.unlink()
        made.write_bytes(text + b'\n')
        self.assertFalse(self.are_current('lower', 'upper'))
        shutil.rmtree(str(self.room / 'crates/upper/out'))
        made.write_bytes(text)
        self.assertTrue(self.are_current('lower'))
        self.assertFalse(self.are_current('lower', 'upper'))

    def test_a_note_of_other_sources_or_of_another_library_counts_for_nothing(self):
        note = self.room / 'crates/lower/out/rlib/noted-by-the-gate'
        source = self.room / 'crates/lower/src/lib.rt'
        text, noted = source.read_text(encoding='utf-8'), note.read_text(encoding='utf-8')
        script = 'import libraries; from pathlib import Path; print(libraries.is_noted(Path("../../crates/lower"), libraries.sums_of_sources(libraries.TOP)["lower"]))'

        def is_noted():
            ran = subprocess.run([sys.executable, '-B', '-c', script], cwd=str(self.room / 'tests/edits'), stdout=subprocess.PIPE, universal_newlines=True, check=True)
            return ran.stdout == 'True\n'

        self.assertTrue(is_noted())
        source.write_text(text + '// more\n', encoding='utf-8')
        self.assertFalse(is_noted())
        # (nor is a library noted whose sources are others than before)
        note.unlink()
        self.call_libraries('--note', 'sums', 'lower')
        self.assertFalse(note.exists())
        source.write_text(text, encoding='utf-8')
        self.call_libraries('--note', 'sums', 'lower')
        self.assertEqual(note.read_text(encoding='utf-8'), noted)
        (self.room / 'crates/lower/out/rlib/more').write_text('x', encoding='utf-8')
        self.assertFalse(is_noted())
        (self.room / 'crates/lower/out/rlib/more').unlink()
        self.assertTrue(is_noted())


if __name__ == '__main__':
    unittest.main()
