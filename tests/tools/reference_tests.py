"""Tests of tools/reference: each public function and clause is on a page, and a page differs exactly where a contract does."""
import contextlib
import io
import os
import re
import sys
import unittest

sys.path.insert(0, os.path.dirname(os.path.abspath(__file__)))

from doctored import TOP, Doctored, script

reference = script('tools/reference')
CRATES = os.path.join(TOP, 'crates')


def text_of(path):
    with open(path, encoding='utf-8') as file:
        return file.read()


# What follows reads the sources in another way than the script does: line by line, by the layout that `rt fmt` gives them.

def exported(folder):
    """Returns for each module of a crate the names that lib.rt passes on, or None where the module itself is public."""
    text = text_of(os.path.join(folder, 'src', 'lib.rt'))
    found = {name: None for name in re.findall(r'(?m)^pub mod (\w+);', text)}
    for module, names in re.findall(r'(?m)^pub use (\w+)::(\{[^}]*\}|\w+);', text):
        if re.search(rf'(?m)^mod {module};', text):
            found.setdefault(module, set()).update(re.findall(r'\w+', names))
    return found


def heads(text, pattern):
    """Yields the name of each function that a line of this pattern begins, and the lines up to its body."""
    lines = text.split('\n')
    for number, line in enumerate(lines):
        found = re.match(pattern, line)
        if found:
            last = number
            while not re.search(r'(^|[\s)>])(\{|\{\})$', lines[last]):
                last += 1
            yield found[1], [re.sub(r'\s*(\{|\{\})$', '', it).strip() for it in lines[number:last + 1]]


def public_functions(name):
    """Yields the path of each public function and method of a crate, but for those of traits, and the lines of its signature and clauses."""
    folder = os.path.join(CRATES, name)
    modules = exported(folder)
    types = set().union(*(names for names in modules.values() if names))
    for module, names in modules.items():
        for function, lines in heads(text_of(os.path.join(folder, 'src', f'{module}.rt')), r'pub fn (\w+)'):
            if names is None or function in names:
                yield f'{name}::{module}::{function}' if names is None else f'{name}::{function}', lines
    for file in sorted(os.listdir(os.path.join(folder, 'src'))):
        if file.endswith('.rt'):
            for block in re.findall(r'(?m)^impl\b(?!.* for )[\s\S]*?^\}', text_of(os.path.join(folder, 'src', file))):
                owner = re.match(r'impl(?:<.*?>)? (\w+)', block)[1]
                if owner in types:
                    yield from ((f'{name}::{owner}::{function}', lines) for function, lines in heads(block, r'    pub fn (\w+)'))


class PageTests(unittest.TestCase):
    """The pages of this repository, against the sources."""

    @classmethod
    def setUpClass(cls):
        cls.pages = reference.pages(TOP)

    def sections(self, crate):
        """Returns the lines of each section of a crate's page, by its title."""
        parts = re.split(r'(?m)^##+ `([^`]+)`', self.pages[f'{crate}.md'])
        return {title: {line.strip() for line in body.split('\n')} for title, body in zip(parts[1::2], parts[2::2])}

    def test_each_public_function_is_there_with_each_clause(self):
        functions, clauses = 0, 0
        for crate in (page[:-len('.md')] for page in self.pages if page != 'README.md'):
            sections = self.sections(crate)
            for path, lines in public_functions(crate):
                with self.subTest(path):
                    self.assertIn(path, sections)
                    self.assertLessEqual(set(lines), sections[path] | {''})
                functions, clauses = functions + 1, clauses + sum(bool(re.match(r'(requires|ensures)\b', line)) for line in lines)
        self.assertGreater(functions, 300)
        self.assertGreater(clauses, 600)

    def test_no_private_item_is_there(self):
        for page, text in self.pages.items():
            with self.subTest(page):
                self.assertNotIn('pub(crate)', text)
                self.assertNotIn('#[tactic', text)

    def test_definitions_are_where_the_links_lead(self):
        for page, text in self.pages.items():
            for names, file in re.findall(r'((?:`[^`]+`(?:, )?)+) in \[[^\]]+\]\(\.\./\.\./([^)]+)\)', text):
                source = text_of(os.path.join(TOP, file))
                for name in re.findall(r'`([^`]+)`', names):
                    with self.subTest(page=page, name=name):
                        self.assertIn(name, source)

    def test_each_page_is_in_the_index(self):
        index = self.pages['README.md']
        self.assertEqual(re.findall(r'(?m)^- \[(\w+)\]', index), [page[:-len('.md')] for page in self.pages if page != 'README.md'])


class ChangeTests(unittest.TestCase):
    """What a change of a source does to the pages."""

    def setUp(self):
        self.copy = Doctored(('leg_geom', 'leg_sweep', 'leg_route_search', 'leg_lib', 'leg_c_memory'))
        self.addCleanup(self.copy.close)
        reference.write(self.copy.top)
        self.assertEqual(reference.differences(self.copy.top), {})

    def differing(self):
        return reference.differences(self.copy.top)

    def test_a_clause_that_goes_is_a_difference(self):
        self.copy.edit('crates/leg_geom/src/point.rt', 'ensures within { IsSpot self.now }\n', '\n', times=2)
        found = self.differing()
        self.assertEqual(list(found), ['leg_geom.md'])
        self.assertIn('-    ensures within { IsSpot self.now }', found['leg_geom.md'])

    def test_a_label_that_changes_is_a_difference(self):
        self.copy.edit('crates/leg_sweep/src/pair_list.rt', 'ensures tests_told {', 'ensures told {')
        self.assertEqual(list(self.differing()), ['leg_sweep.md'])

    def test_a_condition_that_is_added_is_a_difference(self):
        self.copy.edit('crates/leg_route_search/src/side.rt', '-> Side\n    ensures', '-> Side\n    requires { 0 ≡ 0 }\n    ensures')
        self.assertEqual(list(self.differing()), ['leg_route_search.md'])

    def test_a_condition_on_memory_that_goes_is_a_difference(self):
        self.copy.edit('crates/leg_c_memory/src/memory.rt', '        requires* memory { sem 𝓛 (bytes_at ptr size) }\n', '')
        found = self.differing()
        self.assertEqual(list(found), ['leg_c_memory.md'])
        self.assertIn('-    requires* memory { sem 𝓛 (bytes_at ptr size) }', found['leg_c_memory.md'])

    def test_a_law_of_a_trait_that_goes_is_a_difference(self):
        self.copy.edit('crates/leg_sweep/src/rule.rt', '    ghost symmetric: { (r : Self) (a b : Self.Item) → Holds r a b → Holds r b a };\n', '')
        self.assertEqual(list(self.differing()), ['leg_sweep.md'])

    def test_what_a_type_states_is_on_the_page(self):
        self.copy.edit('crates/leg_geom/src/point.rt', 'ghost invariant = {', 'ghost invariant = { λ _. Unit } //')
        self.assertEqual(list(self.differing()), ['leg_geom.md'])

    def test_a_call_that_is_no_longer_passed_on_is_a_difference(self):
        self.copy.edit('crates/leg_route_search/src/lib.rt', 'pub use side::opposite;\n', '')
        self.assertEqual(list(self.differing()), ['leg_route_search.md'])

    def test_bodies_and_private_functions_make_no_difference(self):
        self.copy.edit('crates/leg_route_search/src/side.rt', 'Side::West => Side::East,', 'Side::West => Side::West,')
        self.copy.edit('crates/leg_sweep/src/pair_list.rt', '{ IfOk result (λ bands. bands.items ≡ empty_band reach ∷ []) }', '{ 0 ≡ 0 }')
        self.assertEqual(self.differing(), {})

    def test_pages_that_are_missing_or_of_no_crate_are_named(self):
        self.copy.remove('docs/reference/leg_route_search.md')
        self.copy.write('docs/reference/leg_none.md', '# leg_none\n')
        self.assertEqual(self.differing(), {'leg_route_search.md': 'is missing', 'leg_none.md': 'is of no crate'})
        reference.write(self.copy.top)
        self.assertEqual(self.differing(), {})

    def test_the_status_tells_whether_a_page_differs(self):
        with contextlib.redirect_stdout(io.StringIO()) as said:
            self.assertEqual(reference.main(['--check', '--top', self.copy.top]), 0)
            self.assertEqual(said.getvalue(), '')
            self.copy.remove('docs/reference/README.md')
            self.assertEqual(reference.main(['--check', '--top', self.copy.top]), 1)
        self.assertTrue(said.getvalue().startswith('docs/reference/README.md is missing\n'))

    def test_a_form_that_is_not_known_is_an_error(self):
        self.copy.edit('crates/leg_route_search/src/mark.rt', '/// What a search has noted of a node.', 'extern "C" {}\n')
        with self.assertRaises(reference.Unclear):
            self.differing()


if __name__ == '__main__':
    unittest.main()
