"""Tests of tools/web, which makes the page web/index.html and builds its module. A small script stands in for the kit."""
import base64
import gzip
import hashlib
import os
import shutil
import subprocess
import sys
import tempfile
import unittest

TOP = os.path.normpath(os.path.join(os.path.dirname(os.path.abspath(__file__)), '..', '..'))

# Stands in for the libraries that are taken, and for what they are taken with.
LIBRARIES = """import shutil
from pathlib import Path

TOP = Path(__file__).resolve().parents[2]


def kit():
    return TOP / 'kit'


def lines_of_crates():
    return {}, {}


def below(name, uses):
    return ['low']


def copy_crates(names, top):
    for name in names:
        copy_parts(TOP / 'crates' / name, top / 'crates' / name)


def are_current(top, folder):
    return False


def build(top, call):
    return 'wrong' not in (top / 'crates/low/src/lib.rt').read_text()


def copy_parts(crate, folder):
    shutil.copytree(str(crate / 'src'), str(folder / 'src'))


def words_of_check(name, top, folder, kept):
    return [f'{folder}/bin/rattle', 'check', name]
"""
# Builds an archive that has in it what the crates' sources have.
BUILD = """#!/bin/sh
[ "$1 $2 $3 $4 $5 $6 $7" = "build leg_c --crate-type staticlib --target wasm64-unknown-unknown --toolchain" ] || exit 1
echo building
! grep -q wrong src/lib.rt || { echo 'it is wrong'; exit 1; }
while [ "$1" != -o ]; do shift; done
cat src/lib.rt ../low/src/lib.rt >"$2"
"""
LINK = """#!/bin/sh
while [ "$1" != -o ]; do shift; done
cp "$3" "$2"
"""


class WebTests(unittest.TestCase):
    def setUp(self):
        room = tempfile.TemporaryDirectory()
        self.addCleanup(room.cleanup)
        self.top = os.path.join(room.name, 'top')
        for folder in ('web', 'tools/page', 'examples', 'docs'):
            shutil.copytree(os.path.join(TOP, folder), os.path.join(self.top, folder), ignore=shutil.ignore_patterns('index.html'))
        for name in ('VERSION', 'tools/web', 'tools/web_page.py', 'tools/sources-sum'):
            shutil.copy(os.path.join(TOP, name), os.path.join(self.top, name))
        os.mkdir(os.path.join(self.top, 'dist'))
        self.write('HANDLES', 'Handles allowed: none.\n')
        self.write('crates.txt', 'low:\nleg_c staticlib: low\nother: low\n')
        self.write('crates/low/src/lib.rt', 'low\n')
        self.write('crates/leg_c/src/lib.rt', 'leg_c\n')
        self.write('crates/leg_c/out/kept', '')
        self.write('tests/edits/libraries.py', LIBRARIES)
        for name, text in (('commands/rt', "#!/bin/sh\necho 'kit 1'\n"), ('kit/bin/rattle', BUILD), ('kit/bin/rattle-link', LINK)):
            self.write(name, text)
            os.chmod(os.path.join(self.top, name), 0o755)

    def write(self, name, text):
        path = os.path.join(self.top, name)
        os.makedirs(os.path.dirname(path), exist_ok=True)
        with open(path, 'wb') as file:
            file.write(text if isinstance(text, bytes) else text.encode())

    def read(self, name):
        with open(os.path.join(self.top, name), 'rb') as file:
            return file.read()

    def web(self, *words, has_kit=True):
        """Returns the status of a call, what it printed, and its messages."""
        path = os.pathsep.join([*([os.path.join(self.top, 'commands')] if has_kit else []), '/usr/bin', '/bin'])
        ran = subprocess.run([sys.executable, os.path.join(self.top, 'tools', 'web'), *words], env={'PATH': path}, capture_output=True, text=True, check=False)
        return ran.returncode, ran.stdout, ran.stderr

    def build(self):
        status, out, err = self.web('--module')
        self.assertEqual((status, err), (0, ''))
        return out

    def test_the_module_is_built_and_noted_and_the_page_has_it(self):
        self.assertIn('web: built the module of these sources, 10 bytes', self.build())
        self.assertEqual(gzip.decompress(self.read('dist/lefdef.wasm.gz')), b'leg_c\nlow\n')
        sources = subprocess.run([os.path.join(self.top, 'tools', 'sources-sum'), 'leg_c'], capture_output=True, text=True, check=True).stdout.strip()
        self.assertEqual(self.read('dist/module-built-from').decode(), f'{sources}\nkit 1\n{hashlib.blake2b(b"leg_c" + bytes([10]) + b"low" + bytes([10])).hexdigest()}  -\n')
        self.assertIn(base64.b64encode(self.read('dist/lefdef.wasm.gz')), self.read('web/index.html'))
        self.assertEqual(self.web('--check'), (0, 'web: the module of dist/ is of these sources, and the page has it\n', ''))

    def test_the_same_sources_make_the_same_files(self):
        self.build()
        first = [self.read(name) for name in ('dist/lefdef.wasm.gz', 'dist/module-built-from', 'web/index.html')]
        self.build()
        self.assertEqual([self.read(name) for name in ('dist/lefdef.wasm.gz', 'dist/module-built-from', 'web/index.html')], first)

    def test_a_page_of_other_sources_is_told(self):
        self.build()
        self.write('web/page.js', self.read('web/page.js') + b'// more\n')
        status, out, err = self.web('--check')
        self.assertEqual((status, out), (1, ''))
        self.assertIn('web/index.html is not what its sources and the module of dist/ give', err)
        self.assertEqual(self.web()[0], 0)
        self.assertEqual(self.web('--check')[0], 0)

    def test_a_module_of_other_sources_is_told(self):
        self.build()
        self.write('crates/low/src/lib.rt', 'other\n')
        status, _, err = self.web('--check')
        self.assertEqual((status, err), (3, 'web: the module of dist/ is of other sources: tools/web --module builds that of these\n'))
        self.write('crates/low/src/lib.rt', 'low\n')
        self.write('crates.txt', 'low:\nleg_c staticlib: low\nother:\n')
        self.assertEqual(self.web('--check')[0], 0)

    def test_a_module_that_was_changed_is_told(self):
        self.build()
        self.write('dist/lefdef.wasm.gz', gzip.compress(b'other'))
        self.assertEqual(self.web('--check')[::2], (1, 'web: dist/lefdef.wasm.gz has not the sum that is in dist/module-built-from\n'))
        self.write('dist/lefdef.wasm.gz', b'other')
        self.assertIn('dist/lefdef.wasm.gz cannot be unpacked', self.web('--check')[2])

    def test_what_is_missing_is_told(self):
        self.assertEqual(self.web('--check')[::2], (3, 'web: there is no module in dist/\n'))
        self.assertEqual(self.web()[::2], (1, 'web: there is no dist/lefdef.wasm.gz: tools/web --module builds it\n'))
        self.build()
        os.remove(os.path.join(self.top, 'dist', 'module-built-from'))
        self.assertEqual(self.web('--check')[0], 1)

    def test_a_build_that_fails_leaves_all_as_it_was(self):
        self.build()
        before = [self.read(name) for name in ('dist/lefdef.wasm.gz', 'dist/module-built-from', 'web/index.html')]
        self.write('crates/leg_c/src/lib.rt', 'wrong\n')
        self.assertEqual(self.web('--module'), (1, '', 'web: the module was not built:\nbuilding\nit is wrong\n'))
        self.assertEqual(self.web('--module', has_kit=False)[0], 1)
        self.write('crates/low/src/lib.rt', 'wrong\n')
        self.assertEqual(self.web('--module'), (1, '', 'web: not all crates below the module are proved\n'))
        self.assertEqual([self.read(name) for name in ('dist/lefdef.wasm.gz', 'dist/module-built-from', 'web/index.html')], before)

    def test_other_words_are_a_usage_error(self):
        for words in (['--modules'], ['--check', '--module'], ['x']):
            self.assertEqual(self.web(*words)[:2], (64, ''))
        status, out, _ = self.web('--help')
        self.assertEqual(status, 0)
        self.assertIn('tools/web --check', out)


if __name__ == '__main__':
    unittest.main()
