"""Tests of the page in web/index.html: what is in it, and what it does in Chromium, where it is installed: without a browser what it does is not
tried, and that is said."""
import json
import os
import re
import shutil
import subprocess
import sys
import tempfile
import unittest
from array import array

sys.path.insert(0, os.path.dirname(os.path.abspath(__file__)))
from devtools import BROWSER, Browser  # noqa: E402
from pages import Shot  # noqa: E402
from view_tests import STANDARD, TOP, UNFINISHED_LINES, case, example  # noqa: E402

sys.path.insert(0, os.path.join(TOP, 'tools'))
from block_page import Changes, PageData  # noqa: E402
from lefdef_text import Profile, read_design, read_library, read_violations  # noqa: E402
from violation_marks import Finder  # noqa: E402
from web_page import examples, page_text  # noqa: E402

PAGE = os.path.join(TOP, 'web', 'index.html')
CASES = os.path.join(TOP, 'tests', 'program')
COMMANDS = ('check', 'place-check', 'measure', 'legalise', 'route', 'flow', 'finish', 'print')
NARROW = {'isWide': False, 'masks': 'refused', 'soft': 'refused'}
LIST_ENDS = ('legal', 'violations', 'FIXEDILLEGAL', 'NOTCLEAN')
NUMBERS = {'u8': 'Uint8Array', 'i32': 'Int32Array', 'f64': 'Float64Array'}
MARK = (230, 0, 126)

# What runs in the page: the worker is asked as the page asks it, about files that were given to an input of the test's own.
ASK = """(command, profile, names, wanted) => new Promise((done) => {
  const files = [...document.getElementById('given').files];
  const texts = names.map((name, at) => ({ name, file: files[at] }));
  const said = {};
  shownPage.asker.ask(command, profile, texts.slice(1), texts[0], ({ answer, picture, failure }) => {
    if (answer) Object.assign(said, answer);
    else done({ ...said, picture, failure });
  });
}).then(async ({ status, text, message, picture, failure }) => {
  const stdout = new Uint8Array(await document.getElementById('given').files[names.length].arrayBuffer());
  const isSame = text !== undefined && stdout.length === text.length && stdout.every((byte, at) => byte === text[at]);
  const arrays = (group) => Object.fromEntries(Object.entries(group).map(([name, array]) => [name, { type: array.constructor.name, data: Array.from(array) }]));
  const data = picture && wanted ? { ...picture, shapes: arrays(picture.shapes), components: arrays(picture.components) } : null;
  return { status, isSame, message, head: text && new TextDecoder().decode(text.subarray(0, 300)), isDrawn: Boolean(picture), data, failure };
})"""


def load_tests(loader, tests, pattern):
    """Returns the tests of this file, without those in a browser where there is none."""
    if not BROWSER:
        print('web_tests: no browser is installed (chromium, chromium-browser or google-chrome), so the page is not tried in one', file=sys.stderr)
        return loader.loadTestsFromTestCase(TextTests)
    return tests


def text_of(path):
    with open(path, encoding='utf-8', errors='surrogateescape') as file:
        return file.read()


def behind_options(words):
    """Returns the profile that the options before a command ask for, and the words behind them."""
    profile, words = dict(NARROW), [*words]
    while words and words[0] in ('--wide', '--masks', '--soft'):
        option = words.pop(0)
        if option == '--wide':
            profile['isWide'] = True
        else:
            profile[option[2:]] = words.pop(0) if words else ''
    return profile, words


class Case:
    """A case of tests/program with a command and texts that are there. It stands in a folder of its own, and those that are too large to be kept
    are made there."""

    def __init__(self, name, room):
        self.name, self.folder = name, os.path.join(CASES, name)
        self.profile, self.words = behind_options(text_of(os.path.join(self.folder, 'words')).splitlines())
        self.is_made = os.path.exists(os.path.join(self.folder, 'make'))
        if self.is_made:
            made = os.path.join(room, name)
            shutil.copytree(self.folder, made)
            subprocess.run(['sh', './make'], cwd=made, check=True)
            self.folder = made

    def file(self, name, default=b''):
        path = os.path.join(self.folder, name)
        if not os.path.exists(path):
            return default
        with open(path, 'rb') as file:
            return file.read()

    def paths(self):
        """Returns the DEF and the LEFs, and what is to be printed."""
        stdout = os.path.join(self.folder, 'stdout')
        return [*(os.path.normpath(os.path.join(self.folder, word)) for word in self.words[1:]), stdout if os.path.exists(stdout) else os.devnull]

    def status(self):
        return int(self.file('status', b'0'))

    def profile_of_texts(self):
        """Returns the profile as tools/lefdef_text has it."""
        soft = self.profile['soft']
        return Profile(self.profile['isWide'], self.profile['masks'] == 'drop', None if soft == 'refused' else soft)

    def picture(self):
        """Returns the data of the picture that is drawn of the case, as tools/view would have it, or None."""
        command, (design_path, *libraries, stdout) = self.words[0], self.paths()
        lines = self.file('stdout').decode('utf-8', 'surrogateescape').splitlines()
        if self.status() in (2, 4):
            return None
        profile = self.profile_of_texts()
        library, before, listed = read_library(libraries, profile), None, None
        if self.status() == 0 and command in ('legalise', 'route', 'flow', 'finish'):
            design_path, before = stdout, read_design(design_path, library, profile)
        elif command == 'print':
            design_path = stdout
        elif lines and lines[-1].split(' ')[0] in LIST_ENDS:
            listed = stdout
        design = read_design(design_path, library, profile)
        marks = Finder(design, listed, read_violations(listed)).marks() if listed else None
        data = PageData(design, marks, design.name, Changes(design, before) if before else None).data()
        for group in ('shapes', 'components'):
            data[group] = {name: unpacked(numbers) for name, numbers in data[group].items()}
        return json.loads(json.dumps(data))


def unpacked(numbers):
    import base64
    found = array({'u8': 'B', 'i32': 'i', 'f64': 'd'}[numbers['type']], base64.b64decode(numbers['data']))
    return {'type': NUMBERS[numbers['type']], 'data': list(found)}


def cases(room, is_made):
    """Yields the cases that a page can be asked: options, a command, a DEF and LEFs that are files."""
    for name in sorted(os.listdir(CASES)):
        folder = os.path.join(CASES, name)
        if not os.path.exists(os.path.join(folder, 'words')) or os.path.exists(os.path.join(folder, 'make')) != is_made:
            continue
        found = Case(name, room)
        is_command = len(found.words) > 2 and found.words[0] in COMMANDS and found.status() != 64
        if not os.path.exists(os.path.join(folder, 'out')) and is_command and all(map(os.path.isfile, found.paths()[:-1])):
            yield found


class TextTests(unittest.TestCase):
    """What is in the page."""

    def test_the_page_is_what_its_sources_give(self):
        with open(os.path.join(TOP, 'dist', 'lefdef.wasm.gz'), 'rb') as file:
            module = file.read()
        self.assertTrue(text_of(PAGE) == page_text(module), 'web/index.html is not what tools/web makes')

    def test_it_refers_to_nothing(self):
        text = text_of(PAGE)
        self.assertEqual(re.findall(r'\s(?:src|href|srcset|action|poster)=', text.split('<script')[0]), [])
        self.assertEqual(re.findall(r'<(?:link|iframe|object|embed|img|base)\b', text), [])
        self.assertIsNone(re.search(r'https?:|@import|url\(|\bimport\s*\(|importScripts|fetch\(|XMLHttpRequest|WebSocket|sendBeacon|\beval\(', text))
        self.assertIn("default-src 'none';", text)
        self.assertNotIn('unsafe-inline', text)

    def test_the_examples_are_those_of_the_readme(self):
        found = examples()
        self.assertEqual([' '.join(words) for words in found['commands']], [
            f'{command} examples/{name}.def examples/standard.lef' for command, name in (
                ('check', 'unfinished'), ('check', 'wired'), ('place-check', 'rows'), ('legalise', 'rows'), ('route', 'around'), ('flow', 'stacked'),
                ('check', 'blocked'), ('check', 'misspelt'))])
        self.assertEqual(found['files']['examples/wired.def'], text_of(example('wired.def')))


class BrowserTests(unittest.TestCase):
    """What the page does in Chromium."""

    @classmethod
    def setUpClass(cls):
        cls.room = tempfile.mkdtemp()
        cls.addClassCleanup(shutil.rmtree, cls.room, ignore_errors=True)
        cls.browser = Browser()
        cls.addClassCleanup(cls.browser.close)
        cls.page = cls.browser.page(1280, 800)

    def setUp(self):
        self.page.dark(False)
        self.page.open(f'file://{PAGE}')
        self.page.until('document.documentElement.dataset.loaded')

    def write(self, name, text):
        path = os.path.join(self.room, name)
        with open(path, 'wb') as file:
            file.write(text if isinstance(text, bytes) else text.encode())
        return path

    def words(self, name):
        return self.page.run(f'document.getElementById({json.dumps(name)}).textContent')

    def ended(self, seconds=60):
        """Waits until the command has been answered and the picture is drawn."""
        self.page.until('document.body.dataset.running === "false"', seconds)
        self.page.run('new Promise((done) => requestAnimationFrame(() => requestAnimationFrame(done)))')

    def click_example(self, text):
        self.page.run('document.getElementById("starting").open = true')
        self.page.run(f'[...document.querySelectorAll("#examples button")].find((one) => one.textContent === {json.dumps(text)}).id = "wanted"')
        self.page.click('#wanted')
        self.page.run('document.getElementById("wanted").id = ""')
        self.ended()

    def prepare_questions(self):
        self.page.run('document.body.append(Object.assign(document.createElement("input"), { type: "file", multiple: true, id: "given" }))')

    def ask(self, command, names, paths, is_drawn=False, profile=None):
        """Asks the worker a command on the files of these paths, of which the last is what is to be printed."""
        # (an input takes a file once)
        given = [path if paths.index(path) == at else shutil.copy(path, os.path.join(self.room, f'copy{at}')) for at, path in enumerate(paths)]
        self.page.give_files('#given', given)
        return self.page.run(f'({ASK})({json.dumps(command)}, {json.dumps(profile or NARROW)}, {json.dumps(names)}, {json.dumps(is_drawn)})', seconds=300)

    def check_case(self, one, is_drawn):
        if one.paths()[-1] == os.devnull:
            paths = [*one.paths()[:-1], self.write('empty', '')]
        else:
            paths = one.paths()
        said = self.ask(one.words[0], one.words[1:], paths, is_drawn, one.profile)
        self.assertIsNone(said.get('failure'))
        self.assertEqual((said['status'], said['isSame']), (one.status(), True), said['head'])
        self.assertEqual(said['message'], one.file('stderr').decode())
        return said

    def test_each_case_is_answered_and_drawn(self):
        self.prepare_questions()
        tried = drawn = 0
        for one in cases(self.room, is_made=False):
            with self.subTest(case=one.name):
                tried += 1
                picture = None if one.words[0] == 'flow' and b'NOTCLEAN' in one.file('stdout') else one.picture()
                said = self.check_case(one, picture is not None)
                if picture is not None:
                    drawn += 1
                    self.assertTrue(said['data'] == picture, f'another picture than that of tools/view: {differing(picture, said["data"])}')
        self.assertGreater(tried, 140)
        self.assertGreater(drawn, 110)

    def test_each_large_case_is_answered(self):
        self.prepare_questions()
        tried = 0
        for one in cases(self.room, is_made=True):
            with self.subTest(case=one.name):
                tried += 1
                self.check_case(one, False)
            shutil.rmtree(os.path.join(self.room, one.name))
        self.assertGreater(tried, 15)

    def test_texts_of_all_forms_are_drawn(self):
        self.prepare_questions()
        self.write('stdout', '')
        tried = 0
        for name, text in self.texts_of_all_forms():
            with self.subTest(text=text):
                design, *libraries = text
                said = self.ask('place-check', ['x.def', *libraries], [*text, os.path.join(self.room, 'stdout')], True)
                library = read_library(libraries)
                data = PageData(read_design(design, library), [], 'top').data()
                self.assertEqual(said['data']['shapes']['sides'], unpacked(data['shapes']['sides']), name)
                self.assertEqual(said['data']['names'], data['names'], name)
                tried += 1
        self.assertGreater(tried, 50)

    def texts_of_all_forms(self):
        """Yields a name and the paths of a DEF and its LEFs for each text of tests/design and tests/library that is read."""
        head = 'DESIGN top ;\nUNITS DISTANCE MICRONS 1000 ;\nDIEAREA ( 0 0 ) ( 800 2000 ) ;\n'
        placed = 'ROW r core 0 0 N DO 4 BY 1 STEP 200 0 ; COMPONENTS 2 ; - u1 INV + PLACED ( 0 0 ) N ; - u2 INV + PLACED ( 400 0 ) N ; END COMPONENTS\n'
        for text in text_of(os.path.join(TOP, 'tests', 'design', 'read')).splitlines():
            yield text, [self.write('forms.def', f'{head}{placed}{text}\nEND DESIGN\n'), STANDARD, os.path.join(TOP, 'tests', 'design', 'cells.lef')]
        layers = 'LAYER m1 TYPE ROUTING ; DIRECTION HORIZONTAL ; WIDTH 0.1 ; END m1\nLAYER o TYPE OVERLAP ; END o\nSITE core SIZE 0.2 BY 2.0 ; END core\n'
        for text in text_of(os.path.join(TOP, 'tests', 'library', 'read')).splitlines():
            cells = self.write('forms.lef', f'{layers}{text}\n')
            placed = ''.join(f'- {name}{turn} {name} + PLACED ( 0 0 ) {turn} ; ' for name in read_library([cells]).macros for turn in ('N', 'FW', 'S', 'E'))
            yield text, [self.write('forms.def', f'{head}COMPONENTS 1 ; {placed} END COMPONENTS END DESIGN\n'), cells]

    def test_an_example_is_checked_by_a_click(self):
        self.click_example('check unfinished.def')
        self.assertEqual(self.words('printed'), UNFINISHED_LINES)
        self.assertEqual((self.words('status'), self.words('message')), ('violations (status 1)', ''))
        self.assertEqual(self.page.run('[...document.querySelectorAll("#violations .violation .text")].map((one) => one.textContent)'),
                         [line.split(' ', 1)[1] for line in UNFINISHED_LINES.splitlines()[:-1]])
        shot = Shot(self.page.picture())
        block = shot.pixels(350, 0, 940, 800)
        self.assertGreater(block.get(MARK, 0), 100)
        self.assertGreater(len(block), 20)

    def test_one_example_after_the_other(self):
        windows = []
        for text in ('check unfinished.def', 'check wired.def', 'route around.def', 'check misspelt.def', 'legalise rows.def'):
            self.click_example(text)
            windows.append(self.page.run('document.body.dataset.block === "some" && document.getElementById("canvas").dataset.window'))
        self.assertFalse(windows[3])
        (left, lower, right, upper), die = map(int, windows[4].split(' ')), (0, 0, 1600, 4000)
        self.assertTrue(left < die[0] and lower < die[1] and right > die[2] and upper > die[3] and upper - lower < 2 * die[3], windows[4])
        self.assertEqual(windows[0], windows[1])
        self.assertEqual(self.words('title'), 'rows')
        self.assertIn('2 components moved or turned', self.words('summary'))

    def test_a_design_that_was_printed_is_checked(self):
        self.click_example('flow stacked.def')
        self.assertTrue(self.words('printed').startswith('VERSION 5.8 ;\nDESIGN stacked ;\n'))
        self.page.click('#take')
        self.ended()
        self.assertEqual((self.words('printed'), self.words('status')), ('legal\n', 'legal (status 0)'))
        self.assertEqual(self.page.run('[...document.querySelectorAll("#texts .name")].map((one) => one.textContent)'),
                         ['stacked-flow.def', 'examples/standard.lef'])

    def test_what_was_printed_is_saved(self):
        folder = tempfile.mkdtemp(dir=self.room)
        self.browser.ask('Browser.setDownloadBehavior', behavior='allow', downloadPath=folder, eventsEnabled=True)
        self.click_example('legalise rows.def')
        printed = self.words('printed')
        self.page.click('#save')
        for _ in range(200):
            if os.listdir(folder) == ['rows-legalise.def']:
                break
            self.page.run('new Promise((done) => setTimeout(done, 50))')
        self.assertEqual(text_of(os.path.join(folder, 'rows-legalise.def')), printed)

    def test_a_command_is_asked_in_the_profile_that_is_chosen(self):
        self.page.run('(() => { window.asked = []; shownPage.asker.ask = (command, profile) => window.asked.push(profile); })()')
        shown = 'getComputedStyle(document.getElementById("options")).display !== "none"'
        self.page.give_files('#files', [example('wired.def'), STANDARD])
        self.page.until('window.asked.length === 1')
        self.assertFalse(self.page.run(shown))
        self.page.click('#wide')
        self.assertTrue(self.page.run(shown))
        self.page.run('(() => { document.getElementById("masks").value = "drop"; document.getElementById("soft").value = "hard"; shownPage.run(); })()')
        self.page.run('document.querySelector("#examples button").click()')
        self.assertFalse(self.page.run(shown))
        self.assertEqual(self.page.run('window.asked'), [NARROW, {'isWide': True, 'masks': 'drop', 'soft': 'hard'}, {'isWide': False, 'masks': 'drop', 'soft': 'hard'}])

    def run_case(self, name):
        """Gives the page the texts of a case, and runs its command."""
        one = Case(name, self.room)
        self.page.run(f'document.getElementById("command").value = {json.dumps(one.words[0])}')
        self.page.give_files('#files', one.paths()[:-1])
        self.ended()
        self.assertEqual(self.words('printed'), one.file('stdout').decode())

    def test_what_a_command_has_stopped_at_is_shown(self):
        self.run_case('route_a_net_without_a_way')
        self.assertEqual((self.words('status'), self.words('chosen')), ('not solved (status 3)', 'net n1'))
        self.assertTrue(self.words('message').startswith('block.def: net n1: nothing leads from u1 Y to the rest of it'))
        self.page.open(f'file://{PAGE}')
        self.run_case('legalise_without_room')
        self.assertTrue(self.words('chosen').startswith('component u2 '), self.words('chosen'))

    def test_violations_of_the_legalised_block_are_shown_in_it(self):
        self.run_case('flow_to_a_block_that_is_not_clean')
        self.assertEqual(self.page.run('[...document.querySelectorAll("#violations .violation .note")].map((one) => one.textContent)'), ['90 apart, 100 wanted'])
        self.assertIn('1 component moved or turned', self.words('summary'))

    def test_files_of_the_dialog_and_files_that_are_dropped(self):
        layers = self.write('layers.lef', text_of(STANDARD).split('MACRO')[0])
        cells = self.write('cells.lef', 'MACRO' + text_of(STANDARD).split('MACRO', 1)[1])
        self.page.give_files('#files', [cells, example('unfinished.def'), layers])
        self.ended()
        self.assertEqual(self.words('printed'), UNFINISHED_LINES)
        names = '[...document.querySelectorAll("#texts .name")].map((one) => one.textContent)'
        self.assertEqual(self.page.run(names), ['unfinished.def', 'layers.lef', 'cells.lef'])
        self.page.drop_files('#canvas', [example('wired.def')])
        self.page.until('document.getElementById("printed").textContent === "legal\\n"')
        self.assertEqual(self.page.run(names), ['wired.def', 'layers.lef', 'cells.lef'])

    def test_texts_that_are_missing_are_named(self):
        self.assertTrue(self.page.run('document.getElementById("run").disabled'))
        self.page.give_files('#files', [STANDARD])
        self.page.until('document.getElementById("missing").textContent === "A DEF is missing."')
        self.page.drop_files('#blank', [example('wired.def')])
        self.page.until('document.getElementById("printed").textContent === "legal\\n"')

    def test_the_order_and_the_kinds_of_texts(self):
        a, b = self.write('a.lef', 'MACRO x CLASS CORE ; SIZE 0.2 BY 2 ; END x\n'), self.write('b.lef', 'MACRO y CLASS CORE ; SIZE 0.2 BY 2 ; END y\n')
        self.page.give_files('#files', [example('wired.def'), a, STANDARD, b])
        self.ended()
        names = '[...document.querySelectorAll("#texts .name")].map((one) => one.textContent).join()'
        self.assertEqual(self.page.run(names), 'wired.def,standard.lef,a.lef,b.lef')
        self.page.click('#texts li:nth-child(4) button')
        self.assertEqual(self.page.run(names), 'wired.def,standard.lef,b.lef,a.lef')
        self.page.click('#texts li:nth-child(3) button:last-child')
        self.assertEqual(self.page.run(names), 'wired.def,standard.lef,a.lef')
        self.page.run('(() => { const choice = document.querySelector("#texts li:nth-child(2) select"); choice.value = "DEF"; choice.dispatchEvent(new Event("change")); })()')
        self.assertEqual(self.page.run(names), 'standard.lef,a.lef')
        self.page.click('#run')
        self.ended()
        self.assertTrue(self.words('printed').startswith('REFUSED '))
        self.assertIn('note: this looks like a LEF, and a DEF is expected here', self.words('message'))

    def test_what_is_no_text_gets_the_message_of_lefdef(self):
        for data, name, said in (
                (b'\x7fELF\x02\x01\x01\0', 'program.def', 'note: this is a program or an object file (ELF), and no text'),
                (b'\x89PNG\r\n\x1a\n\0\0', 'picture.png', 'note: this is no text: it has a byte 0'),
                ('<svg xmlns="x"/>', 'picture.svg', 'note: a DEF needs UNITS DISTANCE MICRONS n ; and this one has no UNITS')):
            with self.subTest(name=name):
                self.page.run('shownPage.texts.replace([])')
                self.page.give_files('#files', [STANDARD, self.write(name, data)])
                self.page.until('shownPage.texts.all.length === 2')
                if name != 'program.def':
                    self.page.run('shownPage.texts.setKind(shownPage.texts.all.find(({ name }) => name !== "standard.lef"), "DEF")')
                    self.page.run('shownPage.run()')
                self.ended()
                self.assertEqual(self.words('status'), 'refused (status 2)')
                self.assertTrue(self.words('printed').startswith('REFUSED 1 '), self.words('printed'))
                self.assertTrue(self.words('message').startswith(f'{name}:'), self.words('message'))
                self.assertTrue(self.words('message').endswith(said), self.words('message'))
                self.assertEqual(self.page.run('document.body.dataset.block'), 'none')

    def test_a_file_that_is_gone(self):
        path = self.write('gone.def', text_of(example('wired.def')))
        self.page.give_files('#files', [path, STANDARD])
        self.ended()
        os.remove(path)
        self.page.click('#run')
        self.ended()
        self.assertEqual(self.words('status'), 'not read (status 5)')
        self.assertTrue(self.words('message').startswith('cannot read gone.def\n'))

    def grant(self, most):
        """Lets the worker's modules have so many bytes of memory more than at first, and no more."""
        workers = [words['sessionId'] for name, words, _ in self.browser.events if name == 'Target.attachedToTarget' and words['targetInfo']['type'] == 'worker']
        script = '''globalThis.grow = globalThis.grow || WebAssembly.Memory.prototype.grow;
          WebAssembly.Memory.prototype.grow = function (pages) {
            if (Number(pages) * 65536 > %d) throw new RangeError('there is no more');
            return globalThis.grow.call(this, pages);
          };''' % most
        self.browser.ask('Runtime.evaluate', session=workers[-1], expression=script)

    def test_memory_that_the_browser_does_not_grant(self):
        self.grant(800_000)
        self.click_example('check wired.def')
        self.assertEqual((self.words('printed'), self.words('status')), ('MEMORY\n', 'out of memory (status 4)'))
        self.grant(4_000_000)
        # (for a text of this length more than that is asked for, and half of it is enough)
        self.page.give_files('#files', [self.write('long.def', '#' * 200_000 + '\n' + text_of(example('wired.def'))), STANDARD])
        self.page.until('shownPage.texts.all.length === 2 && shownPage.texts.def.name === "long.def"')
        self.page.until('document.getElementById("printed").textContent === "legal\\n"')

    def test_a_run_is_stopped_and_another_one_begun(self):
        self.page.run('''(() => {
          const rows = Array.from({ length: 60000 }, (_, at) => `- u${at} INV + PLACED ( ${400 * (at % 300)} ${2000 * (at / 300 | 0)} ) N ;`);
          const text = `DESIGN many ; UNITS DISTANCE MICRONS 1000 ; DIEAREA ( 0 0 ) ( 120000 400000 ) ; COMPONENTS 60000 ;\\n${rows.join('\\n')}\\nEND COMPONENTS END DESIGN`;
          shownPage.texts.put({ name: 'many.def', file: new Blob([text]), kind: 'DEF', isTechnology: false });
        })()''')
        self.page.give_files('#files', [STANDARD])
        self.page.until('document.getElementById("run").textContent === "Stop"')
        self.page.click('#run')
        self.assertEqual(self.words('status'), 'stopped')
        self.click_example('check wired.def')
        self.assertEqual(self.words('printed'), 'legal\n')

    def test_the_keyboard_is_enough(self):
        self.page.run('document.querySelector("#examples button").focus()')
        self.page.press('Enter', '\r')
        self.ended()
        self.assertEqual(self.words('printed'), UNFINISHED_LINES)
        self.page.run('document.getElementById("command").focus()')
        self.page.press('ArrowDown')
        self.page.press('Tab')
        self.assertEqual(self.page.run('document.activeElement.id'), 'run')
        self.page.press('Enter', '\r')
        self.ended()
        self.assertEqual(self.words('printed'), 'legal\n')
        self.page.press('+', '+')
        self.assertEqual(self.page.run('document.activeElement.id'), 'run')
        controls = self.page.run('''[...document.querySelectorAll('button, input, select, canvas, pre')].filter((one) => !one.closest('#violations, #switches')
          && !(one.ariaLabel || one.textContent.trim())).map((one) => one.outerHTML)''')
        self.assertEqual(controls, [])

    def test_light_and_dark(self):
        self.click_example('check wired.def')
        means = []
        for is_dark in (False, True):
            self.page.dark(is_dark)
            self.page.run('new Promise((done) => setTimeout(() => requestAnimationFrame(done), 100))')
            colours = Shot(self.page.picture()).pixels(0, 0, 1280, 800)
            count = sum(colours.values())
            means.append(sum(sum(colour) * number for colour, number in colours.items()) / count / 3)
        self.assertTrue(means[0] > 180 and means[1] < 90, means)

    def test_nothing_is_asked_of_a_network(self):
        before = len(self.browser.events)
        self.page.open(f'file://{PAGE}')
        for text in ('check unfinished.def', 'route around.def', 'check misspelt.def'):
            self.click_example(text)
        events = self.browser.events[before:]
        asked = [words['request']['url'] for name, words, _ in events if name == 'Network.requestWillBeSent']
        self.assertEqual([url for url in asked if not url.startswith(('blob:', f'file://{PAGE}'))], [])
        self.assertEqual([url for url in asked if url.startswith('file:')], [f'file://{PAGE}'])
        self.assertEqual(self.page.run('performance.getEntriesByType("resource").map(({ name }) => name).filter((name) => !name.startsWith("blob:"))'), [])
        self.assertEqual([words for name, words, _ in events if name in ('Runtime.exceptionThrown', 'Log.entryAdded', 'Network.webSocketCreated')], [])
        # (and the policy forbids it: what is tried is refused)
        tried = '''Promise.all([fetch('https://example.org/').then(() => 'sent', () => 'refused'), new Promise((done) => {
          const image = Object.assign(new Image(), { onload: () => done('sent'), onerror: () => done('refused'), src: 'https://example.org/x.png' }); image.decoding = 'sync'; })])'''
        told = '''new Promise((done) => { const found = []; document.addEventListener('securitypolicyviolation', ({ effectiveDirective }) => {
          found.push(effectiveDirective); if (found.length === 2) done(found.sort()); }); window.tried = %s; })''' % tried
        self.assertEqual(self.page.run(told), ['connect-src', 'img-src'])
        self.assertEqual(self.page.run('window.tried'), ['refused', 'refused'])


def differing(wanted, found):
    """Returns the first part of a picture's data that differs."""
    if not found:
        return 'there is none'
    return next((f'{name}: {str(wanted[name])[:200]} {str(found.get(name))[:200]}' for name in wanted if wanted[name] != found.get(name)), '')


if __name__ == '__main__':
    unittest.main()
