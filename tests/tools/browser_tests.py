"""Tests of what the pages of tools/view do in Chromium, where it is installed: without a browser nothing is tried, and that is said."""
import os
import subprocess
import sys
import unittest

sys.path.insert(0, os.path.dirname(os.path.abspath(__file__)))
from pages import BROWSER, HEAD, HOSTILE, PANEL, WIDTH, BrowserCase  # noqa: E402
from view_tests import STANDARD, TOP, UNFINISHED_LINES, case, example  # noqa: E402

MARK = (230, 0, 126)


def load_tests(loader, tests, pattern):
    """Returns the tests of this file, or none where there is no browser."""
    if BROWSER:
        return tests
    print('browser_tests: no browser is installed (chromium, chromium-browser or google-chrome), so no page is tried in one', file=sys.stderr)
    return unittest.TestSuite()


class BrowserTests(BrowserCase):
    """What a page does in Chromium."""

    def test_the_list_is_as_long_as_the_one_of_lefdef_and_a_click_shows_the_place(self):
        name = 'check_blockages_of_both_kinds'
        with open(case(name, 'stdout'), encoding='utf-8') as file:
            lines = file.read().splitlines()[:-1]
        answers = self.drive("""
            answers.title = document.title;
            answers.listed = all('.violation').sort((a, b) => a.dataset.number - b.dataset.number).map((one) => one.title.split('\\n')[0]);
            answers.headings = all('.kind').map((kind) => kind.textContent);
            answers.before = [canvas.dataset.mark, shown()];
            document.querySelector('.violation[data-number="4"]').click();
            await settled();
            answers.mark = canvas.dataset.mark;
            answers.window = shown();
            answers.current = all('.violation[aria-current="true"]').map((one) => one.dataset.number);
            answers.chosen = document.getElementById('chosen').textContent;
        """, case(name, 'block.def'), case(name, 'cells.lef'), '--violations', case(name, 'stdout'))
        self.assertEqual(answers['listed'], lines)
        self.assertEqual(answers['title'], f'top: {len(lines)} violations')
        kinds = list(dict.fromkeys(line.split(' ')[0] for line in lines))
        self.assertEqual(answers['headings'], [f'{kind}{sum(line.startswith(kind + " ") for line in lines)}' for kind in kinds])
        self.assertEqual(answers['before'][0], '')
        self.assertEqual((answers['mark'], answers['current']), ('4', ['4']))
        self.assertIn('violation 4: BLOCKED', answers['chosen'])
        # The place is 650 0 700 2000, whose middle is in the middle of the window, and which is in sight as a whole.
        left, lower, right, upper = answers['window']
        self.assertEqual(((left + right) // 2, (lower + upper) // 2), (675, 1000))
        self.assertTrue(left < 650 and 700 < right and lower < 0 and 2000 < upper)

    def test_each_violation_is_in_the_middle_when_it_is_clicked(self):
        answers = self.drive("""
            answers.windows = [];
            for (const item of all('.violation')) {
              item.click();
              await settled();
              answers.windows.push([Number(item.dataset.number), shown()]);
            }
        """, example('unfinished.def'), STANDARD, '--violations', '-', stdin=UNFINISHED_LINES)
        middles = {number: ((left + right) / 2, (lower + upper) / 2) for number, (left, lower, right, upper) in answers['windows']}
        for number, middle in ((1, (675, 1095)), (2, (440, 900))):
            self.assertLess(max(abs(middles[number][0] - middle[0]), abs(middles[number][1] - middle[1])), 2)
        self.assertTrue(all(right - left < 3000 for _, (left, _, right, _) in answers['windows']))

    def test_lines_that_have_one_mark(self):
        block = self.write('block.def', HEAD + 'NETS 1 ; - n + ROUTED m1 ( 100 100 ) ( 200 100 ) NEW m1 ( 100 500 ) ( 200 500 ) NEW m1 ( 200 500 ) ( 300 500 ) '
                           'NEW m1 ( 100 900 ) ( 200 900 ) ; END NETS END DESIGN')
        answers = self.drive("""
            answers.numbers = all('.violation').map((one) => one.dataset.number);
            for (const number of [2, 3]) {
              location.hash = `#violation=${number}`;
              await new Promise((done) => setTimeout(done, 50));
              await settled();
              answers[`at${number}`] = canvas.dataset.mark;
            }
        """, block, STANDARD, '--violations', '-', stdin='OPEN n WIRE 2\nOPEN n WIRE 3\nOPEN n WIRE 4\nviolations 3\n')
        self.assertEqual((answers['numbers'], answers['at2'], answers['at3']), (['1', '3'], '1', '3'))

    def test_kinds_and_layers_are_switched_off_and_on(self):
        answers = self.drive("""
            const press = async (selector) => {
              document.querySelector(selector).click();
              await settled();
            };
            const metal = () => pixels((red, green, blue) => blue > red + 60);
            answers.marked = [pixels(near(230, 0, 126))];
            answers.listed = [all('.violation').length];
            await press('.kind:nth-of-type(1) input');
            answers.listed.push(all('.violation').length);
            for (const box of all('.kind input')) if (box.checked) box.click();
            await settled();
            answers.listed.push(all('.violation').length);
            answers.marked.push(pixels(near(230, 0, 126)));
            answers.metal = [metal()];
            await press('[data-word="layer 0"]');
            answers.metal.push(metal());
            await press('[data-word="layer 0"]');
            answers.metal.push(metal());
            answers.words = texts('#switches label');
        """, example('unfinished.def'), STANDARD, '--violations', '-', stdin=UNFINISHED_LINES)
        self.assertGreater(answers['marked'][0], 20)
        self.assertEqual(answers['marked'][1], 0)
        self.assertEqual(answers['listed'], [2, 1, 0])
        self.assertGreater(answers['metal'][0], 100)
        self.assertEqual(answers['metal'][1:], [0, answers['metal'][0]])
        self.assertEqual(answers['words'], ['m2', 'v1', 'm1', 'components', 'rows and sites', 'pins', 'wires', 'names'])

    def test_search_by_component_net_and_pin(self):
        answers = self.drive("""
            const look = async (text) => { search(text); const found = texts('#found button'); document.querySelector('#found button').click(); await settled();
              return [found, canvas.dataset.chosen, shown()]; };
            for (const text of ['u2', 'n2', 'u1 Y', 'PIN', 'v']) search(text), answers[text] = texts('#found button');
            answers.u2 = await look('u2');
            answers.n2 = await look('n2');
            answers.pin = await look('u1 Y');
            search('nothing');
            answers.nothing = texts('#found');
        """, example('unfinished.def'), STANDARD)
        self.assertEqual(answers['u2'][:2], [['componentu2', 'pinu2 A', 'pinu2 Y', 'pinu2 VDD', 'pinu2 VSS'], 'component u2 INV PLACED ( 400 0 ) N'])
        self.assertEqual(answers['n2'][:2], [['netn2'], 'net n2'])
        self.assertEqual(answers['pin'][:2], [['pinu1 Y'], 'pin u1 Y'])
        for name, middle in (('u2', (600, 1000)), ('n2', (650, 1190)), ('pin', (300, 950))):
            left, lower, right, upper = answers[name][2]
            self.assertLess(max(abs((left + right) / 2 - middle[0]), abs((lower + upper) / 2 - middle[1])), 3)
        self.assertEqual((answers['PIN'], answers['v'], answers['nothing']), ([], [], ['no component, net or pin has this in its name']))

    def test_what_is_under_the_pointer(self):
        answers = self.drive("""
            const told = async (x, y) => { point(x, y); await settled(); return texts('#told div'); };
            answers.pin = await told(300, 900);
            answers.strap = await told(650, 1200);
            answers.nothing = await told(-300, -200);
        """, example('unfinished.def'), STANDARD, '--violations', '-', stdin=UNFINISHED_LINES)
        self.assertRegex(answers['pin'][0], r'^(299|300|301) (898|899|900|901|902)$')
        self.assertEqual(answers['pin'][1:], ['m1  NET n1  250 850 430 950  (wire 1)', 'm1  NET n1  250 850 350 1050  (pin u1 Y)', 'u1 INV PLACED ( 0 0 ) N'])
        self.assertEqual(answers['strap'][1:], ['m1  NET n2  600 1140 700 1240  (wire 1)', 'u2 INV PLACED ( 400 0 ) N'])
        self.assertEqual(len(answers['nothing']), 1)

    def test_keys_and_the_wheel(self):
        answers = self.drive("""
            const pressed = async (name) => { key(name); await settled(); return [canvas.dataset.mark, shown()]; };
            answers.start = shown();
            for (const name of ['+', '-', 'ArrowRight', 'ArrowUp', 'Home', 'n', 'p', 'Escape']) answers[name] = await pressed(name);
            await pressed('Home');
            canvas.dispatchEvent(new WheelEvent('wheel', { ...at(600, 1500), deltaY: -100, ctrlKey: true, cancelable: true }));
            await settled();
            answers.pinch = shown();
            const turned = async (deltaX, deltaY) => {
              await new Promise((done) => setTimeout(done, 300));
              canvas.dispatchEvent(new WheelEvent('wheel', { ...at(600, 1500), deltaX, deltaY, cancelable: true }));
              canvas.dispatchEvent(new WheelEvent('wheel', { ...at(600, 1500), deltaX: 0, deltaY, cancelable: true }));
              await settled();
              return shown();
            };
            answers.pad = await turned(30, 7);
            answers.wheel = await turned(0, 120);
        """, example('unfinished.def'), STANDARD, '--violations', '-', stdin=UNFINISHED_LINES)

        def width(window):
            return window[2] - window[0]

        start = answers['start']
        self.assertAlmostEqual(width(answers['+'][1]) * 1.4, width(start), delta=4)
        self.assertAlmostEqual(width(answers['-'][1]), width(start), delta=4)
        self.assertTrue(answers['ArrowRight'][1][0] > start[0] and answers['ArrowUp'][1][1] > start[1])
        self.assertEqual((answers['Home'], answers['n'][0], answers['p'][0], answers['Escape'][0]), (['', start], '1', '2', ''))
        self.assertAlmostEqual(width(answers['pinch']) * 2.718, width(start), delta=6)
        # (what is under the pointer stays there)
        part, before = [(600 - window[0]) / width(window) for window in (answers['pinch'], start)]
        self.assertAlmostEqual(part, before, places=2)
        self.assertTrue(answers['pad'][0] > answers['pinch'][0] and answers['pad'][1] < answers['pinch'][1])
        self.assertAlmostEqual(width(answers['pad']), width(answers['pinch']), delta=2)
        self.assertAlmostEqual(width(answers['wheel']), width(answers['pad']) * 1.4 * 1.4, delta=8)

    def test_dragging_and_two_fingers(self):
        answers = self.drive("""
            canvas.setPointerCapture = () => {};
            const act = (kind, pointerId, place) => canvas.dispatchEvent(new PointerEvent(kind, { ...place, pointerId, button: 0 }));
            const [from, to] = [at(300, 1000), at(500, 1300)];
            answers.start = shown();
            act('pointerdown', 1, from);
            act('pointermove', 1, to);
            await settled();
            answers.dragged = shown();
            const [still, near, far] = [at(400, 1000), at(500, 1000), at(600, 1000)];
            act('pointerdown', 2, still);
            act('pointermove', 1, near);
            await settled();
            answers.before = shown();
            act('pointermove', 1, far);
            await settled();
            answers.apart = shown();
            act('pointerup', 1, far);
            act('pointerup', 2, still);
            act('pointermove', 1, from);
            await settled();
            answers.end = shown();
        """, example('unfinished.def'), STANDARD)
        start, dragged = answers['start'], answers['dragged']
        self.assertAlmostEqual(dragged[0], start[0] - 200, delta=3)
        self.assertAlmostEqual(dragged[1], start[1] - 300, delta=3)
        before, apart = [answers[name][2] - answers[name][0] for name in ('before', 'apart')]
        self.assertAlmostEqual(before / apart, 2, places=1)
        self.assertEqual(answers['end'], answers['apart'])

    def test_another_block_takes_the_place_of_the_first(self):
        answers = self.drive("""
            search('u1');
            const data = JSON.parse(document.getElementById('data').textContent);
            data.shapes = decodedAll(data.shapes);
            data.components = decodedAll(data.components);
            showBlock({ ...data, title: 'another', violations: data.violations.slice(1), kinds: data.kinds.slice(1) }, document);
            await settled();
            answers.listed = texts('.violation .text');
            answers.title = texts('#title');
            answers.found = texts('#found button');
            answers.words = texts('#switches label');
            const before = shown();
            key('+');
            await settled();
            answers.widths = [before, shown()].map((window) => window[2] - window[0]);
        """, example('unfinished.def'), STANDARD, '--violations', '-', stdin=UNFINISHED_LINES)
        self.assertEqual((answers['listed'], answers['title'], answers['found']), (['n1 u2 A'], ['another'], []))
        self.assertEqual(answers['words'].count('m1'), 1)
        self.assertAlmostEqual(answers['widths'][1] * 1.4, answers['widths'][0], delta=4)

    def test_what_moved_and_what_was_added(self):
        answers = self.drive("""
            answers.summary = texts('#summary');
            answers.added = pixels(near(0, 166, 125));
            document.querySelector('[data-word="added"]').click();
            await settled();
            answers.left = pixels(near(0, 166, 125));
        """, self.routed_around(), STANDARD, '--before', example('around.def'))
        self.assertEqual(answers['summary'], ['3 components, 1 net, 24 shapes; 0 components moved or turned, 15 shapes of wires added'])
        self.assertGreater(answers['added'], 100)
        self.assertEqual(answers['left'], 0)
        answers = self.drive("""
            point(1050, 3500);
            await settled();
            answers.told = texts('#told div');
            answers.words = texts('#switches label');
            answers.summary = texts('#summary');
        """, self.legalised_rows(), STANDARD, '--before', example('rows.def'), '--force')
        self.assertEqual(answers['told'][-1], 'u4 INV PLACED ( 1000 2000 ) S, moved 100 from ( 1100 2000 ) S')
        self.assertEqual(answers['words'][-1], 'moves')
        self.assertEqual(answers['summary'], ['4 components, 0 nets, 16 shapes; 2 components moved or turned, 0 shapes of wires added'])

    def test_a_picture_of_a_violation_is_not_blank(self):
        shot = self.screenshot(example('unfinished.def'), STANDARD, '--violations', '-', stdin=UNFINISHED_LINES, at='#violation=1')
        self.assertEqual(shot.width, WIDTH)
        block = shot.pixels(0, 0, WIDTH - PANEL, shot.height)
        self.assertGreater(len(block), 20)
        self.assertGreater(block.get(MARK, 0), 200)
        middle, high = (WIDTH - PANEL) // 2, shot.height // 2
        self.assertGreater(shot.pixels(middle - 60, high - 60, middle + 60, high + 60).get(MARK, 0), 50)
        self.assertGreater(len(shot.pixels(WIDTH - PANEL, 0, WIDTH, shot.height)), 20)

    def test_hostile_names_are_shown_as_they_are(self):
        components = ' '.join(f'- {name} INV + PLACED ( {at} 0 ) N ;' for at, name in enumerate(HOSTILE))
        block = self.write('block.def', HEAD.replace('top', HOSTILE[0]) + f'COMPONENTS {len(HOSTILE)} ; {components} END COMPONENTS END DESIGN')
        lines = self.write('lines', ''.join(f'OFFSITE {name}\n' for name in HOSTILE[1:]) + f'violations {len(HOSTILE) - 1}\n')
        answers = self.drive("""
            answers.title = document.title;
            answers.heading = document.getElementById('title').textContent;
            answers.listed = texts('.violation .text');
            search('__proto__');
            answers.found = texts('#found button');
            answers.scripts = all('script').length;
        """, block, STANDARD, '--violations', lines)
        self.assertEqual((answers['title'], answers['heading']), (f'{HOSTILE[0]}: 4 violations', HOSTILE[0]))
        self.assertEqual(answers['listed'], list(HOSTILE[1:]))
        self.assertEqual(answers['found'][0], 'component__proto__')
        self.assertEqual(answers['scripts'], 3)

    def test_a_block_of_298800_shapes(self):
        subprocess.run([os.path.join(TOP, 'bench', 'metal', 'make'), self.room, '37500', '300'], check=True)
        text = self.text('block.def').replace('- u100_50 INV + PLACED ( 20000 200000 )', '- u100_50 INV + PLACED ( 20020 200000 )')
        block = self.write('moved.def', text)
        answers = self.drive("""
            answers.shapes = canvas.dataset.shapes;
            const middle = () => canvas.getContext('2d').getImageData(canvas.width / 2 - 20, canvas.height / 2 - 20, 40, 40).data.buffer;
            const colours = () => new Set(new Uint32Array(middle())).size;
            answers.colours = [colours()];
            for (let step = 0; step < 4; step++) {
              for (let press = 0; press < 4; press++) key('+');
              await settled();
              answers.colours.push(colours());
            }
            document.querySelector('.violation[data-number="2"]').click();
            await settled();
            answers.window = shown();
            const [left, lower, right, upper] = answers.window;
            point(20090, 200900);
            await settled();
            answers.told = texts('#told div');
        """, block, self.path('cells.lef'), '--violations', '-', stdin='OFFSITE u100_50\nOVERLAP u100_50 u100_51\nviolations 2\n')
        self.assertEqual(answers['shapes'], '298800')
        self.assertGreater(min(answers['colours']), 8)
        left, lower, right, upper = answers['window']
        self.assertLess(max(abs((left + right) / 2 - 20410), abs((lower + upper) / 2 - 201000)), 3)
        self.assertIn('m1  NET n100_49  20070 200850 20170 201050  (pin u100_50 A)', answers['told'])


if __name__ == '__main__':
    unittest.main()
