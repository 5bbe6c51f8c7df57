"""Tests of what scripts have of lefdef's answers: tools/to-json, the answers and runs of tools/lefdef_text, tools/wiring, and the wheel for pip."""
import json
import os
import stat
import subprocess
import sys
import tempfile
import unittest
import unittest.mock
import zipfile

sys.path.insert(0, os.path.dirname(os.path.abspath(__file__)))
from doctored import script  # noqa: E402

TOP = os.path.normpath(os.path.join(os.path.dirname(os.path.abspath(__file__)), '..', '..'))
CASES = os.path.join(TOP, 'tests', 'program')
sys.path.insert(0, os.path.join(TOP, 'tools'))
import lefdef_text  # noqa: E402
from lefdef_text import NARROW, NotRun, Refused, read_answer  # noqa: E402
from lefdef_text import lines  # noqa: E402
from lefdef_text.answers import answer_of  # noqa: E402

to_json = script('tools/to-json')
STANDARD = os.path.join(TOP, 'examples', 'standard.lef')
UNFINISHED = 'TOONEAR m1 TERM u2 Y 650 850 750 1050 NET n2 600 1140 700 1240\nOPEN n1 u2 A\nviolations 2\n'
HEAD = 'DESIGN top ; UNITS DISTANCE MICRONS 1000 ; DIEAREA ( 0 0 ) ( 800 2000 ) ;\n'


def example(name):
    return os.path.join(TOP, 'examples', name)


def text_of(path):
    with open(path, encoding='utf-8', errors='surrogateescape') as file:
        return file.read()


def cases():
    """Yields the name, the command, the texts, the answer and its path of each case of the program that has all of these."""
    for name in sorted(os.listdir(CASES)):
        folder = os.path.join(CASES, name)
        files = {file: os.path.join(folder, file) for file in ('words', 'stdout')}
        if all(map(os.path.exists, files.values())) and not os.path.exists(os.path.join(folder, 'make')):
            command, *paths = text_of(files['words']).split()
            paths = [os.path.normpath(os.path.join(folder, path)) for path in paths]
            if len(paths) > 1 and all(map(os.path.isfile, paths)) and text_of(files['stdout']):
                yield name, command, paths, text_of(files['stdout']), files['stdout']


class Room(unittest.TestCase):
    """A test with a folder of its own."""

    def setUp(self):
        room = tempfile.TemporaryDirectory()
        self.addCleanup(room.cleanup)
        self.room = room.name

    def write(self, name, text):
        path = os.path.join(self.room, name)
        with open(path, 'w', encoding='utf-8', errors='surrogateescape') as file:
            file.write(text)
        return path

    def run_tool(self, name, *words, stdin=''):
        tool = os.path.join(TOP, 'tools', name)
        return subprocess.run([sys.executable, tool, *words], cwd=self.room, input=stdin, capture_output=True, text=True, encoding='utf-8', check=False)

    def lines(self, name, *words, stdin=''):
        done = self.run_tool(name, *words, stdin=stdin)
        self.assertEqual((done.returncode, done.stderr), (0, ''))
        return done.stdout.splitlines()


class JsonTests(Room):
    """What tools/to-json writes."""

    def objects(self, *words, stdin=''):
        return [json.loads(line) for line in self.lines('to-json', *words, stdin=stdin)]

    def test_violations_with_their_places(self):
        self.assertEqual(self.objects(example('unfinished.def'), STANDARD, stdin=UNFINISHED), [
            {'kind': 'TOONEAR', 'number': 1, 'text': UNFINISHED.splitlines()[0], 'layer': 'm1', 'owner': 'TERM u2 Y', 'sides': [0.65, 0.85, 0.75, 1.05],
             'other_owner': 'NET n2', 'other_sides': [0.6, 1.14, 0.7, 1.24], 'box': [0.65, 1.05, 0.7, 1.14], 'gap': [[0.675, 1.05], [0.675, 1.14]],
             'note': '90 apart, 100 wanted'},
            {'kind': 'OPEN', 'number': 2, 'text': 'OPEN n1 u2 A', 'net': 'n1', 'piece': 'u2 A', 'box': [0.43, 0.85, 0.45, 0.95],
             'gap': [[0.45, 0.9], [0.43, 0.9]], 'note': '20 from u2 A to WIRE 1; 1 piece here, 2 there', 'joint': 2},
            {'kind': 'violations', 'number': 3, 'text': 'violations 2', 'count': 2}])

    def test_open_pieces_of_one_joint(self):
        block = self.write('block.def', HEAD + 'NETS 1 ; - n + ROUTED m1 ( 100 100 ) ( 200 100 ) NEW m1 ( 100 500 ) ( 200 500 ) NEW m1 ( 200 500 ) ( 300 500 ) '
                           'NEW m1 ( 100 900 ) ( 200 900 ) ; END NETS END DESIGN')
        found = self.objects(block, STANDARD, stdin='OPEN n WIRE 2\nOPEN n WIRE 3\nOPEN n WIRE 4\nviolations 3\n')
        self.assertEqual([(line.get('piece'), line.get('joint')) for line in found], [('WIRE 2', 1), ('WIRE 3', 1), ('WIRE 4', 3), (None, None)])

    def test_a_refusal(self):
        misspelt, answer = example('misspelt.def'), 'REFUSED 1 10 UnknownName\n'
        found, = self.objects(misspelt, STANDARD, stdin=answer)
        self.assertEqual(found, {'kind': 'REFUSED', 'number': 1, 'text': answer[:-1], 'file': misspelt, 'line': 10, 'reason': 'UnknownName', 'column': 6,
                                 'message': 'there is no macro INVX', 'word': 'INVX'})
        messages = self.write('messages', f'{misspelt}:10:6: `INVX` is not the name of a macro\n    - u2 INVX\n         ^^^^\n')
        self.assertEqual(self.objects(misspelt, STANDARD, '--messages', messages, stdin=answer), [{**found, 'message': '`INVX` is not the name of a macro'}])

    def test_a_length_that_is_not_on_the_units(self):
        cells = self.write('cells.lef', text_of(STANDARD).replace('SITE core CLASS CORE ; SIZE 0.2 BY', 'SITE core CLASS CORE ; SIZE 0.2005 BY'))
        block = self.write('block.def', HEAD + 'END DESIGN')
        found, = self.objects(block, cells, stdin='SCALE core NotOnUnit\n')
        self.assertEqual((found['name'], found['reason'], found['file'], found['line'], found['column']), ('core', 'NotOnUnit', cells, 5, 6))

    def test_a_legalised_and_a_finished_design(self):
        text = 'VERSION 5.8 ;\nDESIGN rows ;\nUNITS DISTANCE MICRONS 1000 ;\nEND DESIGN\n'
        self.assertEqual(self.objects(example('rows.def'), STANDARD, stdin=text + '# move u2 1\n# total 1\n# greatest 1\n'), [
            {'kind': 'design', 'number': 1, 'name': 'rows'},
            {'kind': 'move', 'number': 5, 'text': '# move u2 1', 'component': 'u2', 'distance': 0.001},
            {'kind': 'total', 'number': 6, 'text': '# total 1', 'distance': 0.001},
            {'kind': 'greatest', 'number': 7, 'text': '# greatest 1', 'distance': 0.001}])
        found = self.objects(example('around.def'), STANDARD, stdin=text + '# length 1400\n# vias 4\n')
        self.assertEqual([(line['kind'], line.get('length'), line.get('count')) for line in found[1:]], [('length', 1.4, None), ('vias', None, 4)])

    def test_what_differs_between_two_designs(self):
        answer = 'DIFFERS ROWS\nGONE COMPONENT u1\nADDED NET n2\nCHANGED COMPONENT u2 PLACE\ndiffers 4\n'
        words = example('wired.def'), STANDARD, '--after', example('unfinished.def')
        found = self.objects(*words, stdin=answer)
        self.assertEqual([{name: value for name, value in line.items() if name not in ('number', 'text')} for line in found], [
            {'kind': 'DIFFERS', 'part': 'ROWS'}, {'kind': 'GONE', 'section': 'COMPONENT', 'name': 'u1'}, {'kind': 'ADDED', 'section': 'NET', 'name': 'n2'},
            {'kind': 'CHANGED', 'section': 'COMPONENT', 'name': 'u2', 'change': 'PLACE'}, {'kind': 'differs', 'count': 4}])
        places = 'CHANGED COMPONENT u2 PLACE\nCHANGED NET n1 MOREWIRES\nplaces 1 wires 1\n'
        self.assertEqual(self.objects(*words, stdin=places)[-1], {'kind': 'places', 'number': 3, 'text': 'places 1 wires 1', 'places': 1, 'wires': 1})
        self.assertEqual(self.objects(*words, stdin='same\n'), [{'kind': 'same', 'number': 1, 'text': 'same'}])
        done = self.run_tool('to-json', *words, stdin='CHANGED COMPONENT u2 PLACE\nplaces 1 wires 1\n')
        self.assertEqual((done.returncode, done.stderr), (2, '-:2: 2 differences are counted, and 1 listed\n'))
        found, = self.objects(example('wired.def'), STANDARD, '--after', example('misspelt.def'), stdin='REFUSED 2 10 UnknownName\n')
        self.assertEqual((found['file'], found['column'], found['word']), (example('misspelt.def'), 6, 'INVX'))

    def test_each_answer_of_the_cases_of_the_program(self):
        tried = set()
        for name, command, (design, *libraries), text, path in cases():
            if command == 'flow' and 'NOTCLEAN' in text or command == '--help':
                continue  # (the list is of the legalised block)
            after = libraries.pop(0) if command == 'compare' else None
            with self.subTest(case=name):
                asked = unittest.mock.Mock(design=design, libraries=libraries, answer=path, messages=None, after=after)
                found = [json.loads(json.dumps(line)) for line in to_json.objects(asked, NARROW)]
                answer = read_answer(path)
                designs = [line for line in found if line['kind'] == 'design']
                self.assertEqual([line['text'] for line in found if line not in designs], [line.text for line in answer.lines])
                self.assertEqual([line['name'] for line in designs], [to_json.name_of(answer.text, path)] if answer.text else [])
                tried |= {line['kind'] for line in found}
                if answer.lines and answer.lines[0].kind == 'REFUSED':
                    number, line = (answer.lines[0].values[name] for name in ('file', 'line'))
                    self.assertEqual((found[0]['file'], found[0]['line']), ([*libraries, design, after][number], line))
        self.assertGreaterEqual(tried, {
            'legal', 'violations', 'design', 'REFUSED', 'hpwl', 'move', 'NOTCLEAN', 'FIXEDILLEGAL', 'UNROUTABLE', 'OPEN', 'BLOCKED',
            'same', 'places', 'wires', 'differs', 'DIFFERS', 'GONE', 'CHANGED', 'ADDED'})

    def test_answers_that_are_none(self):
        for text, line, why in (
                ('', 1, 'the answer is empty'), ('OFFSITE u2\n', 1, 'ends without its last line'),
                ('OFFSITE u2\nviolations 2\n', 2, '2 violations are counted, and 1 listed'),
                ('LEGAL\n', 1, 'no line that lefdef prints: LEGAL'), ('legal\nhpwl 3\n', 1, 'has lines of another one: legal and then hpwl 3'),
                ('# total 3\n', 1, 'no line that lefdef prints here: # total 3'), ('VERSION 5.8 ;\nDESIGN x ;\n', 2, 'the design ends without END DESIGN'),
                ('OFFSITE u9\nviolations 1\n', 1, 'there is no component u9'), ('REFUSED 7 1 Unexpected\n', 1, 'there is no file 7'),
                ('UNFINISHED n\nunfinished 2\n', 2, '2 nets are counted, and 1 listed')):
            with self.subTest(text=text):
                answer = self.write('answer', text)
                done = self.run_tool('to-json', example('unfinished.def'), STANDARD, '--answer', answer)
                self.assertEqual((done.returncode, done.stdout), (2, ''))
                self.assertTrue(done.stderr.startswith(f'{answer}:{line}: '), done.stderr)
                self.assertIn(why, done.stderr)

    def test_a_refusal_of_other_texts_and_messages_of_another_one(self):
        design = os.path.join(TOP, 'examples', 'misspelt.def')
        answer, right = self.write('answer', 'REFUSED 1 10 UnknownName\n'), self.write('right', f'{design}:10:6: said\n')
        self.assertEqual(self.objects(design, STANDARD, '--answer', answer, '--messages', right)[0]['message'], 'said')
        self.assertEqual(self.objects(design, STANDARD, '--answer', answer, '--messages', self.write('none', ''))[0]['message'], 'there is no macro INVX')
        for name, text in (('line', f'{design}:11:6: said\n'), ('file', f'{STANDARD}:10:6: said\n'), ('bytes', '\x7fELF\n\0')):
            with self.subTest(name=name):
                other = self.write(name, text)
                done = self.run_tool('to-json', design, STANDARD, '--answer', answer, '--messages', other)
                self.assertEqual((done.returncode, done.stdout), (2, ''))
                self.assertEqual(done.stderr, f'{other}:1: this is no message on that refusal: {text.splitlines()[0]}\n'.replace('\x7f', '?'))
        scale = self.write('scale', 'SCALE core NotOnUnit\n')
        done = self.run_tool('to-json', example('unfinished.def'), STANDARD, '--answer', scale, '--messages', right)
        self.assertEqual((done.returncode, done.stderr), (2, f'{scale}:1: nothing is refused in these texts: is the answer that on other texts? '
                                                             'SCALE core NotOnUnit\n'))
        library = self.write('core.lef', 'SITE core SIZE 0.20001 BY 2 ; END core\n')
        done = self.run_tool('to-json', example('unfinished.def'), library, '--answer', scale, '--messages', right)
        self.assertEqual((done.returncode, done.stderr), (2, f'{right}:1: this is no message on that refusal: {design}:10:6: said\n'))

    def test_texts_and_words_that_are_wrong(self):
        bad = self.write('bad.def', HEAD + 'COMPONENTS 1 ;\n- u1 NAND ;\nEND COMPONENTS END DESIGN')
        done = self.run_tool('to-json', bad, STANDARD, stdin='legal\n')
        self.assertEqual((done.returncode, done.stdout, done.stderr), (2, '', f'{bad}:3: there is no macro NAND\n'))
        done = self.run_tool('to-json', 'none.def', STANDARD, stdin='legal\n')
        self.assertEqual((done.returncode, done.stdout, done.stderr), (5, '', 'to-json: cannot read none.def: No such file or directory\n'))
        done = self.run_tool('to-json', example('unfinished.def'), STANDARD, '--after', 'none.def', stdin='legal\n')
        self.assertEqual((done.returncode, done.stdout, done.stderr), (5, '', 'to-json: cannot read none.def: No such file or directory\n'))
        self.assertEqual(self.run_tool('to-json', bad).returncode, 64)
        self.assertIn('--messages', self.run_tool('to-json', '--help').stdout)


class AnswerTests(Room):
    """Answers as records, and runs of a script that stands in for the program: it prints what a case of tests/program holds."""

    def program(self, text, status=0, message=''):
        self.write('text', text)
        self.write('message', message)
        path = self.write('lefdef', f'#!/bin/sh\necho "$*" >>"{self.room}/calls"\ncat "{self.room}/message" >&2\ncat "{self.room}/text"\nexit {status}\n')
        os.chmod(path, os.stat(path).st_mode | stat.S_IXUSR)
        return path

    def test_a_list_of_violations(self):
        answer = lefdef_text.check('a.def', ['b.lef', 'c.lef'], self.program(UNFINISHED, 1))
        self.assertEqual((answer.kind, answer.status, answer.is_legal, answer.refusal, answer.text), ('violations', 1, False, None, None))
        self.assertEqual([violation.kind for violation in answer.violations], ['TOONEAR', 'OPEN'])
        self.assertEqual(answer.lines[0].values['other_sides'], lefdef_text.Rect(600, 1140, 700, 1240))
        self.assertEqual(text_of(os.path.join(self.room, 'calls')), 'check a.def b.lef c.lef\n')

    def test_each_command(self):
        calls = ('check', 'place_check', 'measure', 'legalise', 'route', 'flow', 'finish')
        for name in calls:
            self.assertTrue(getattr(lefdef_text, name)('a.def', ['b.lef'], self.program('legal\n')).is_legal)
        self.assertTrue(lefdef_text.print_design('a.def', ['b.lef'], self.program('legal\n')).is_legal)
        self.assertTrue(lefdef_text.run('check', 'a.def', ['b.lef'], self.program('legal\n'), options=['--wide', '--masks', 'drop']).is_legal)
        self.assertEqual(text_of(os.path.join(self.room, 'calls')).split('\n'), [
            *(f'{name.replace("_", "-")} a.def b.lef' for name in calls), 'print a.def b.lef', '--wide --masks drop check a.def b.lef', ''])

    def test_a_comparison(self):
        answer = lefdef_text.compare('a.def', 'b.def', ['c.lef', 'd.lef'], self.program('CHANGED COMPONENT u2 PLACE\nplaces 1\n', 1))
        self.assertEqual((answer.kind, answer.value('places', 'places'), answer.files), ('places', 1, ['c.lef', 'd.lef', 'a.def', 'b.def']))
        self.assertEqual(text_of(os.path.join(self.room, 'calls')), 'compare a.def b.def c.lef d.lef\n')

    def test_a_refusal(self):
        message = 'a.def:10:6: `INVX` is not the name of a macro\n    - u2 INVX + PLACED ( 400 0 ) N ;\n         ^^^^\n'
        answer = lefdef_text.check('a.def', ['b.lef'], self.program('REFUSED 1 10 UnknownName\n', 2, message))
        self.assertEqual(answer.refusal, lefdef_text.Refusal('UnknownName', 'a.def', 10, 6, '`INVX` is not the name of a macro'))
        answer = lefdef_text.check('a.def', ['b.lef'], self.program('REFUSED 0 1 TooLarge\n', 2, 'b.lef:1: the text is too long\n'))
        self.assertEqual(answer.refusal, lefdef_text.Refusal('TooLarge', 'b.lef', 1, None, 'the text is too long'))

    def test_a_design_and_what_is_said_of_it(self):
        text = 'VERSION 5.8 ;\nDESIGN rows ;\nEND DESIGN\n'
        answer = lefdef_text.legalise('a.def', ['b.lef'], self.program(f'{text}# move u2 1\n# total 1\n# greatest 1\n'))
        self.assertEqual((answer.kind, answer.text, answer.value('# total', 'distance'), answer.value('# vias', 'count')), ('design', text, 1, None))
        self.assertEqual(lefdef_text.measure('a.def', ['b.lef'], self.program('hpwl 600\n')).value('hpwl', 'length'), 600)

    def test_a_program_that_gives_no_answer(self):
        with self.assertRaisesRegex(NotRun, 'cannot read a.def') as caught:
            lefdef_text.check('a.def', ['b.lef'], self.program('', 5, 'cannot read a.def\nNo such file\n'))
        self.assertEqual(caught.exception.status, 5)
        with self.assertRaisesRegex(NotRun, 'No such file'):
            lefdef_text.check('a.def', ['b.lef'], os.path.join(self.room, 'none'))
        with self.assertRaisesRegex(Refused, 'no line that lefdef prints'):
            lefdef_text.check('a.def', ['b.lef'], self.program('what\n'))
        with self.assertRaisesRegex(NotRun, 'more than 0.2 seconds'):
            lefdef_text.run('check', 'a.def', ['b.lef'], self.sleeper(), seconds=0.2)

    def sleeper(self):
        path = self.write('sleeper', '#!/bin/sh\nexec sleep 20\n')
        os.chmod(path, 0o755)
        return path

    def test_each_answer_of_the_cases_of_the_program(self):
        kinds = set()
        for name, command, _, text, _ in cases():
            if command != '--help':
                with self.subTest(case=name):
                    answer = answer_of('answer', text)
                    self.assertEqual((answer.text or '') + ''.join(f'{line.text}\n' for line in answer.lines), text)
                    kinds.add(answer.kind)
        self.assertGreaterEqual(kinds, {'legal', 'violations', 'design', 'REFUSED', 'hpwl', 'NOTCLEAN', 'FIXEDILLEGAL', 'UNROUTABLE'})


class FormTests(unittest.TestCase):
    """The table of the forms of lines."""

    def test_literal_words_and_several_forms_of_a_kind(self):
        forms = {'moves': 'count:count | count:count of net:name', '# far': 'distance:length by'}
        with unittest.mock.patch.dict(lines.FORMS, forms), unittest.mock.patch.dict(lines.LINE_FORMS, {}):
            lines.LINE_FORMS.update({kind: lines.forms_of(kind) for kind in forms})
            self.assertEqual(lines.line_of('moves 3', 7), lines.Line('moves', {'count': 3}, 7, 'moves 3'))
            self.assertEqual(lines.line_of('moves 3 of a', 7).values, {'count': 3, 'net': 'a'})
            self.assertEqual((lines.line_of('moves 3 a', 7), lines.line_of('moves 3 of', 7)), (None, None))
            self.assertEqual((lines.line_of('# far 5 by', 1).values, lines.length_names('# far')), ({'distance': 5}, {'distance'}))

    def test_lines_that_lefdef_prints_have_one_kind(self):
        for text in ('OPEN a PIN p', 'SHORT m1 NET BLOCKAGE 1 2 3 4 BLOCKAGE 12 1 2 3 4', 'UNREACHABLE n WIRE 3', '# move u1 4', 'SCALE core TooLarge', 'MEMORY'):
            self.assertEqual(lines.line_of(text, 1).text, text)
        for text in ('', 'legal ', 'OPEN a p', 'OFFSITE', 'hpwl -1', '# move u1', 'violations', 'Legal', '#'):
            self.assertIsNone(lines.line_of(text, 1))


class WiringTests(Room):
    """What tools/wiring prints, worked by hand."""
    BLOCK = HEAD + ('SPECIALNETS 1 ; - s + ROUTED m2 100 ( 0 0 ) ( 0 600 ) ; END SPECIALNETS\nNETS 2 ; - a + ROUTED m1 ( 100 100 ) ( 500 100 ) V12 ( 500 900 ) ; '
                    '- b + ROUTED m1 ( 700 100 ) ( 700 350 ) NEW m1 ( 100 1500 ) RECT ( 0 0 100 100 ) ; END NETS END DESIGN\n')

    def test_lengths_by_layer_and_vias(self):
        block = self.write('block.def', self.BLOCK)
        self.assertEqual(self.lines('wiring', block, STANDARD), ['layer m1 0.65 2', 'layer m2 0.8 1', 'via V12 1', 'length 1.45', 'vias 1'])
        self.assertEqual(self.lines('wiring', block, STANDARD, '--nets')[:2], ['net a 1.2 1', 'net b 0.25 0'])
        self.assertEqual(self.lines('wiring', block, STANDARD, '--special'), ['layer m2 0.6 1', 'length 0.6', 'vias 0'])

    def test_a_block_without_wires_and_a_text_that_is_refused(self):
        self.assertEqual(self.lines('wiring', self.write('block.def', HEAD + 'END DESIGN'), STANDARD), ['length 0', 'vias 0'])
        done = self.run_tool('wiring', example('misspelt.def'), STANDARD)
        self.assertEqual((done.returncode, done.stdout, done.stderr), (2, '', f'{example("misspelt.def")}:10: there is no macro INVX\n'))
        self.assertEqual(self.run_tool('wiring', 'none.def', STANDARD).returncode, 5)

    def test_what_finish_says_of_its_wires(self):
        tried = 0
        for name, command, (design, *libraries), text, path in cases():
            if command == 'finish' and text.startswith('VERSION ') and 'ROUTED' not in text_of(design):
                tried += 1
                with self.subTest(case=name):
                    wiring = lefdef_text.wiring_of(lefdef_text.read_design(path, lefdef_text.read_library(libraries)).nets.values())
                    answer = read_answer(path)
                    self.assertEqual((wiring.length(), wiring.via_count()), (answer.value('# length', 'length'), answer.value('# vias', 'count')))
        self.assertGreater(tried, 3)


class WheelTests(Room):
    """What pip is given."""

    def test_the_wheel_is_whole_and_is_used(self):
        backend = os.path.join(TOP, 'tools', 'lefdef_text')
        code = f'import sys; sys.path.insert(0, {backend!r}); import wheel_backend; print(wheel_backend.build_wheel({self.room!r}))'
        made = subprocess.run([sys.executable, '-B', '-c', code], stdout=subprocess.PIPE, text=True, check=True).stdout.strip()
        version = text_of(os.path.join(TOP, 'VERSION')).strip()
        self.assertEqual(made, f'lefdef_text-{version}-py3-none-any.whl')
        with zipfile.ZipFile(os.path.join(self.room, made)) as wheel:
            names = wheel.namelist()
            recorded = [line.split(',')[0] for line in wheel.read(f'lefdef_text-{version}.dist-info/RECORD').decode().splitlines()]
        self.assertEqual(sorted(names), sorted(recorded))
        self.assertEqual([name for name in names if name.endswith('.py')],
                         [f'lefdef_text/{name}' for name in sorted(os.listdir(backend)) if name.endswith('.py') and name != 'wheel_backend.py'])
        code = f'import lefdef_text as l; print(len(l.read_design({example("wired.def")!r}, l.read_library([{STANDARD!r}])).components), l.__file__)'
        path = {**os.environ, 'PYTHONPATH': os.path.join(self.room, made)}
        used = subprocess.run([sys.executable, '-c', code], cwd=self.room, env=path, stdout=subprocess.PIPE, text=True, check=True).stdout
        self.assertTrue(used.startswith('2 ') and made in used, used)


if __name__ == '__main__':
    unittest.main()
