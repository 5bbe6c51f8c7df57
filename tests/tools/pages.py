"""What tests of the pages of tools/view share: a page that was read, a browser without a window that goes through one, and a picture that
it took."""
import base64
import html.parser
import json
import os
import re
import shutil
import signal
import struct
import subprocess
import zlib
from array import array

from view_tests import TOP, ViewCase

BROWSER = next(filter(None, map(shutil.which, ('chromium', 'chromium-browser', 'google-chrome'))), None)
WIDTH, HEIGHT, PANEL = 780, 480, 340
HEAD = 'DESIGN top ; UNITS DISTANCE MICRONS 1000 ; DIEAREA ( 0 0 ) ( 800 2000 ) ; '
HOSTILE = "</script><script>document.title='taken'</script>", '<!--<script>', '&quot;"\'`${x}\\u0041', '__proto__', '\u2028'

# What runs in a page: steps with the page's own elements, each an answer; `settled` waits until what was asked is drawn. A browser that only
# prints the page draws no frames, so frames come by the clock, which is the browser's own and waits for nothing.
DRIVER = """<script>
window.requestAnimationFrame = (draw) => setTimeout(() => draw(performance.now()), 16);
addEventListener('load', async () => {
  const frame = () => new Promise(requestAnimationFrame);
  const settled = async () => { await frame(); await frame(); await frame(); };
  const canvas = document.getElementById('canvas');
  const shown = () => canvas.dataset.window.split(' ').map(Number);
  const all = (selector) => [...document.querySelectorAll(selector)];
  const texts = (selector) => all(selector).map((element) => element.textContent);
  const key = (name, target = document.body) => target.dispatchEvent(new KeyboardEvent('keydown', { key: name, bubbles: true, cancelable: true }));
  const at = (x, y) => {
    const [left, lower, right, upper] = shown();
    const box = canvas.getBoundingClientRect();
    return { clientX: box.left + (x - left) / (right - left) * box.width, clientY: box.top + (upper - y) / (upper - lower) * box.height };
  };
  const point = (x, y) => canvas.dispatchEvent(new PointerEvent('pointermove', { ...at(x, y), pointerId: 9 }));
  const near = (...colour) => (...other) => colour.every((value, at) => Math.abs(value - other[at]) < 12);
  const pixels = (isTaken) => {
    const image = canvas.getContext('2d').getImageData(0, 0, canvas.width, canvas.height).data;
    let count = 0;
    for (let at = 0; at < image.length; at += 4) count += isTaken(image[at], image[at + 1], image[at + 2]);
    return count;
  };
  const search = (text) => {
    const field = document.getElementById('search');
    field.value = text;
    field.dispatchEvent(new Event('input'));
  };
  const answers = { errors: [] };
  addEventListener('error', (event) => answers.errors.push(event.message));
  try {
    await settled();
    STEPS
  } catch (error) {
    answers.errors.push(String(error));
  }
  const text = document.createElement('pre');
  text.id = 'answers';
  text.textContent = JSON.stringify(answers);
  document.body.append(text);
});
</script>"""


class Page(html.parser.HTMLParser):
    """A page that was read: its elements, its title, and the data and the code in it."""

    def __init__(self, text):
        super().__init__(convert_charrefs=True)
        self.elements, self.texts, self.open = [], {}, None
        self.feed(text)
        self.close()
        self.data = json.loads(self.texts['data'])

    def handle_starttag(self, tag, attrs):
        self.elements.append((tag, dict(attrs)))
        if tag in ('title', 'style', 'script'):
            self.open = dict(attrs).get('id', tag)

    def handle_endtag(self, tag):
        self.open = None

    def handle_data(self, data):
        if self.open:
            self.texts[self.open] = self.texts.get(self.open, '') + data

    def array(self, *names):
        """Returns the numbers of an array of the data."""
        found = self.data
        for name in names:
            found = found[name]
        return list(array({'u8': 'B', 'i32': 'i', 'f64': 'd'}[found['type']], base64.b64decode(found['data'])))

    def shapes(self):
        """Returns for each shape its layer, sides, role and owner, and whether it was added, in words."""
        names = self.data['names']
        sides, roles, owners = self.array('shapes', 'sides'), ('PIN', 'OBS', 'BLOCKAGE', 'WIRE'), ('NET', 'TERM', 'POWER', 'GROUND', 'OBS', 'BLOCKAGE')
        columns = [self.array('shapes', name) for name in ('layer', 'role', 'owner', 'net', 'component', 'name', 'isAdded')]
        found = []
        for at, (layer, role, owner, net, component, name, is_added) in enumerate(zip(*columns)):
            of = names['components'][component] if component >= 0 else 'PIN'
            whose = {'NET': names['nets'][net:net + 1], 'TERM': [of, *names['pins'][name:name + 1]], 'OBS': [of], 'BLOCKAGE': [str(name)]}
            words = ' '.join([owners[owner], *whose.get(owners[owner], [])])
            found.append((self.data['layers'][layer]['name'], tuple(sides[4 * at:4 * at + 4]), roles[role], words, is_added))
        return found


class PageCase(ViewCase):
    def html(self, *words, stdin=''):
        self.view(*words, '--html', 'page.html', stdin=stdin)
        return self.text('page.html')

    def page(self, *words, stdin=''):
        return Page(self.html(*words, stdin=stdin))

    def routed_around(self):
        """Writes examples/around.def as the tutorial says that `route` prints it."""
        return self.write('routed.def', shown_text('./lefdef route examples/around.def examples/standard.lef'))

    def legalised_rows(self):
        return self.write('legalised.def', shown_text('./lefdef legalise examples/rows.def examples/standard.lef'))


def shown_text(command):
    """Returns what the tutorial shows after a command."""
    with open(os.path.join(TOP, 'docs', 'TUTORIAL.md'), encoding='utf-8') as file:
        lines = file.read().split(f'    $ {command}\n')[1].split('\n\n')[0].split('\n')
    return ''.join(f'{line[4:]}\n' for line in lines if line.startswith('    '))


class BrowserCase(PageCase):
    """A test with a browser without a window."""

    def browse(self, page, *words):
        profile = self.path('profile')
        command = [BROWSER, '--headless', '--no-sandbox', '--disable-gpu', '--disable-dev-shm-usage', '--no-first-run', '--hide-scrollbars',
                   f'--user-data-dir={profile}', f'--window-size={WIDTH},{HEIGHT}', '--virtual-time-budget=10000', *words, page]
        ran = subprocess.Popen(command, stdout=subprocess.PIPE, stderr=subprocess.DEVNULL, cwd=self.room, start_new_session=True)
        try:
            return ran.communicate(timeout=150)[0].decode('utf-8', 'replace')
        finally:
            if ran.poll() is None:
                os.killpg(ran.pid, signal.SIGKILL)
                ran.wait()
            shutil.rmtree(profile, ignore_errors=True)

    def drive(self, steps, *words, stdin='', at=''):
        """Writes a page, has a browser go through steps in it, and returns the answers."""
        text = self.html(*words, stdin=stdin)
        self.write('driven.html', text.replace('</head>', DRIVER.replace('STEPS', steps) + '</head>', 1))
        dom = self.browse(f'file://{self.path("driven.html")}{at}', '--dump-dom')
        found = re.search(r'<pre id="answers">(.*?)</pre>', dom, re.DOTALL)
        self.assertTrue(found, f'the page gave no answers: {dom[-2000:]}')
        answers = json.loads(found[1].replace('&lt;', '<').replace('&gt;', '>').replace('&amp;', '&'))
        self.assertEqual(answers.pop('errors'), [])
        return answers

    def screenshot(self, *words, stdin='', at=''):
        self.html(*words, stdin=stdin)
        self.browse(f'file://{self.path("page.html")}{at}', f'--screenshot={self.path("shot.png")}', '--blink-settings=preferredColorScheme=1')
        with open(self.path('shot.png'), 'rb') as file:
            return Shot(file.read())


class Shot:
    """A picture of a page in PNG, of eight bits a colour and not interlaced."""

    def __init__(self, data):
        assert data[:8] == b'\x89PNG\r\n\x1a\n'
        chunks, at = {}, 8
        while at < len(data):
            length, kind = struct.unpack('>I4s', data[at:at + 8])
            chunks[kind] = chunks.get(kind, b'') + data[at + 8:at + 8 + length]
            at += length + 12
        self.width, self.height, depth, colours, _, _, interlaced = struct.unpack('>IIBBBBB', chunks[b'IHDR'])
        assert (depth, interlaced) == (8, 0) and colours in (2, 6)
        self.size = 3 if colours == 2 else 4
        self.lines = self.unfiltered(zlib.decompress(chunks[b'IDAT']))

    def unfiltered(self, data):
        """Returns the lines of the picture; each is written as what it has otherwise than the pixels to the left, above or both."""
        lines, length, size = [], self.width * self.size, self.size
        above = bytearray(length)
        for y in range(self.height):
            kind, line = data[y * (length + 1)], bytearray(data[y * (length + 1) + 1:(y + 1) * (length + 1)])
            for x in range(length) if kind else ():
                left = line[x - size] if x >= size else 0
                line[x] = (line[x] + guess(kind, left, above[x], above[x - size] if x >= size else 0)) % 256
            lines.append(line)
            above = line
        return lines

    def pixels(self, left, top, right, bottom):
        """Returns how many pixels of each colour there are between these columns and lines."""
        found = {}
        for line in self.lines[top:bottom]:
            for x in range(left, right):
                colour = tuple(line[x * self.size:x * self.size + 3])
                found[colour] = found.get(colour, 0) + 1
        return found


def guess(kind, left, above, corner):
    """Returns what a byte of a line in PNG is told from, by the kind of the line."""
    if kind == 4:
        middle = left + above - corner
        return min((left, above, corner), key=lambda one: abs(middle - one))
    return (0, left, above, (left + above) // 2)[kind]
