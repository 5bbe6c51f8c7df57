"""Tests of tools/release, which makes the archive of a release: on a small repository, and that the repository itself has what it needs."""
import gzip
import hashlib
import io
import os
import re
import shutil
import subprocess
import sys
import tarfile
import tempfile
import unittest

HERE = os.path.dirname(os.path.abspath(__file__))
sys.path.insert(0, HERE)
from doctored import TOP, Doctored, script  # noqa: E402

PROGRAM = '#!/bin/sh\necho answered "$@"\n'
NAME = 'lefdef-1.2.3-x86-64-linux'
FILES = {
    'README.md': '# lefdef\n\n## What it is\n\nwords\n\n## Use\n\n    ./lefdef COMMAND\n\nmore words\n\n## Beside\n\nothers\n',
    'CHANGELOG.md': '# Changes\n\n## 1.2.3\n\nall\n',
    'VERSION': '1.2.3\n',
    'crates.txt': 'lefdef:\nleg_c staticlib:\n',
    'crates/lefdef/src/main.rt': 'fn main() {}\n',
    'crates/leg_c/src/lib.rt': 'fn run() {}\n',
    'docs/RULES.md': 'rules\n',
    'docs/pictures/one.svg': '<svg/>\n',
    'docs/.hidden': 'hidden\n',
    'examples/wired.def': 'DEF\n',
    'tools/view': '#!/bin/sh\necho view\n',
    'tools/lefdef_text/words.py': 'words = 1\n',
    'tools/lefdef_text/__pycache__/words.pyc': 'kept\n',
    'tools/try-unproved': '#!/bin/sh\n',
    'library/lefdef.h': 'header\n',
    'library/examples/check.c': 'example\n',
    'dist/README.md': 'of dist\n',
    'dist/.unpacked/0123/lefdef': 'unpacked\n',
}
TAKEN = [
    'CHANGELOG.md', 'README.md', 'SHA256SUMS', 'VERSION', 'built-from', 'docs/RULES.md', 'docs/pictures/one.svg', 'examples/wired.def', 'lefdef',
    'library/examples/check.c', 'library/lefdef.h', 'tools/lefdef_text/words.py', 'tools/view']


class ReleaseTests(unittest.TestCase):
    def setUp(self):
        room = tempfile.TemporaryDirectory()
        self.addCleanup(room.cleanup)
        self.room, self.top = room.name, os.path.join(room.name, 'top')
        for name, text in FILES.items():
            self.file(name, text)
        for name in ('tools/release', 'tools/sources-sum'):
            shutil.copy(os.path.join(TOP, name), os.path.join(self.top, name))
        os.chmod(os.path.join(self.top, 'tools/view'), 0o755)
        self.pack(PROGRAM)

    def file(self, name, text):
        path = os.path.join(self.top, name)
        os.makedirs(os.path.dirname(path), exist_ok=True)
        with open(path, 'wb') as file:
            file.write(text if isinstance(text, bytes) else text.encode())

    def pack(self, program):
        """Puts a program into dist/, as one of the sources that are here."""
        sources = subprocess.run([os.path.join(self.top, 'tools', 'sources-sum'), 'lefdef'], capture_output=True, text=True, check=True).stdout
        self.file('dist/lefdef.gz', gzip.compress(program.encode()))
        self.file('dist/built-from', f'{sources}kit 1\n{hashlib.blake2b(program.encode()).hexdigest()}  -\n')

    def run_script(self, *words, at=None, commands=None):
        """Returns the status, the output and the messages of a call."""
        path = os.pathsep.join([*([commands] if commands else []), '/usr/bin', '/bin'])
        ran = subprocess.run(
            [sys.executable, os.path.join(self.top, 'tools', 'release'), *words], cwd=at or self.room, env={'PATH': path}, capture_output=True,
            text=True, check=False)
        return ran.returncode, ran.stdout, ran.stderr

    def made(self, folder='.'):
        """Makes the archive, and returns its bytes."""
        status, out, err = self.run_script(*([] if folder == '.' else [folder]))
        self.assertEqual((status, err), (0, ''), out)
        path = os.path.normpath(os.path.join(folder, f'{NAME}.tar.gz'))
        with open(os.path.join(self.room, path), 'rb') as file:
            packed = file.read()
        self.assertEqual(out, f'{hashlib.sha256(packed).hexdigest()}  {path}\n')
        return packed

    def entries(self, packed):
        """Returns the entries of an archive by their names within its folder, and their texts."""
        with tarfile.open(fileobj=io.BytesIO(packed), mode='r:gz') as archive:
            found = archive.getmembers()
            self.assertEqual([entry.name for entry in found], sorted(entry.name for entry in found))
            inside = {os.path.relpath(entry.name, NAME): entry for entry in found}
            return inside, {name: archive.extractfile(entry).read() for name, entry in inside.items()}

    def check_refused(self, said):
        status, out, err = self.run_script()
        self.assertEqual((status, out), (1, ''))
        self.assertTrue(err.startswith(f'release: {said}'), err)
        self.assertEqual(sorted(os.listdir(self.room)), ['top'])

    def test_what_the_archive_has(self):
        entries, texts = self.entries(self.made())
        self.assertEqual(sorted(entries), TAKEN)
        self.assertEqual(texts['lefdef'], PROGRAM.encode())
        for name in ('CHANGELOG.md', 'VERSION', 'docs/RULES.md', 'tools/view'):
            self.assertEqual(texts[name], FILES[name].encode())
        programs = [name for name, entry in entries.items() if entry.mode == 0o755]
        self.assertEqual((programs, {entry.mode for entry in entries.values()}), (['lefdef', 'tools/view'], {0o755, 0o644}))

    def test_it_unpacks_without_a_word_and_its_program_runs(self):
        self.made()
        ran = subprocess.run(['tar', 'xzf', f'{NAME}.tar.gz'], cwd=self.room, capture_output=True, text=True, check=True)
        self.assertEqual(ran.stdout + ran.stderr, '')
        inside = os.path.join(self.room, NAME)
        ran = subprocess.run(['./lefdef', 'check'], cwd=inside, capture_output=True, text=True, check=True)
        self.assertEqual(ran.stdout, 'answered check\n')
        ran = subprocess.run(['sha256sum', '--check', '--quiet', 'SHA256SUMS'], cwd=inside, capture_output=True, text=True, check=False)
        self.assertEqual((ran.returncode, ran.stdout + ran.stderr), (0, ''))

    def test_the_sums_are_of_all_other_files(self):
        _, texts = self.entries(self.made())
        sums = [line.split('  ') for line in texts.pop('SHA256SUMS').decode().splitlines()]
        self.assertEqual(sums, [[hashlib.sha256(texts[name]).hexdigest(), name] for name in sorted(texts)])

    def test_the_same_files_make_the_same_archive(self):
        first = self.made()
        for folder, _, names in os.walk(self.top):
            for name in names:
                os.utime(os.path.join(folder, name), (1_000_000_000, 1_000_000_000))
        os.mkdir(os.path.join(self.room, 'other'))
        self.assertEqual(self.made('other'), first)
        entries, _ = self.entries(first)
        self.assertEqual({(entry.uid, entry.gid, entry.uname, entry.gname, entry.mtime) for entry in entries.values()}, {(0, 0, '', '', 315532800)})

    def test_its_own_readme(self):
        _, texts = self.entries(self.made())
        readme, sources = texts['README.md'].decode(), texts['built-from'].decode().splitlines()[0]
        self.assertTrue(readme.startswith('# lefdef 1.2.3\n'))
        self.assertTrue(readme.endswith('## Use\n\n    ./lefdef COMMAND\n\nmore words\n'))
        self.assertIn(f'    {sources}\n\nby the kit `kit 1`', readme)
        self.assertIn('| `docs/RULES.md` |', readme)
        self.assertIn('| `library/lefdef.h` |', readme)
        self.assertNotIn('`library/liblefdef.a`', readme)

    def test_the_page_and_a_licence_are_taken_where_they_are_there(self):
        for name in ('web/index.html', 'web/page.js', 'dist/lefdef.wasm.gz', 'dist/module-built-from', 'LICENSE'):
            self.file(name, name)
        self.web('exit 0')
        _, texts = self.entries(self.made())
        self.assertEqual(sorted(texts), sorted([*TAKEN, 'web/index.html', 'LICENSE']))
        self.assertEqual(texts['LICENSE'].decode(), 'LICENSE')

    def library(self, text):
        """Puts a library of the sources that are here into dist/, with this text and the sum of `archive`."""
        words = [os.path.join(self.top, 'tools', 'sources-sum'), 'leg_c']
        sources = subprocess.run(words, stdout=subprocess.PIPE, universal_newlines=True, check=True).stdout
        self.file('dist/liblefdef.a', text)
        self.file('dist/liblefdef.built-from', f'{sources}kit 1\n{hashlib.blake2b(b"archive").hexdigest()}  -\n')

    def test_a_library_of_these_sources_is_taken(self):
        self.library('archive')
        self.file('dist/lefdef.h', 'another header\n')
        _, texts = self.entries(self.made())
        self.assertEqual(sorted(texts), sorted([*TAKEN, 'library/liblefdef.a', 'library/liblefdef.built-from']))
        self.assertEqual(texts['library/liblefdef.a'].decode(), 'archive')
        self.assertEqual(texts['library/lefdef.h'].decode(), 'header\n')
        self.assertIn('| `library/liblefdef.a` |', texts['README.md'].decode())

    def test_with_another_library_there_is_none(self):
        self.library('another archive')
        self.check_refused('dist/liblefdef.a has not the sum that is in dist/liblefdef.built-from')
        self.library('archive')
        self.file('crates/leg_c/src/lib.rt', 'fn run() { }\n')
        self.check_refused('dist/liblefdef.a is not of the sources that are here')

    def web(self, lines):
        """Puts a script in place of tools/web."""
        self.file('tools/web', f'#!/bin/sh\n{lines}\n')
        os.chmod(os.path.join(self.top, 'tools', 'web'), 0o755)

    def test_a_page_that_is_not_of_these_sources_is_refused(self):
        self.file('web/index.html', 'page')
        self.web('[ "$*" = --check ] && echo "web: the module of dist/ is of other sources" >&2; exit 3')
        self.check_refused('web: the module of dist/ is of other sources')

    def test_without_a_program_of_these_sources_there_is_none(self):
        self.file('crates/lefdef/src/main.rt', 'fn main() { }\n')
        self.check_refused('dist/lefdef.gz is not of the sources that are here')
        os.remove(os.path.join(self.top, 'dist', 'lefdef.gz'))
        self.check_refused('there is no program in dist/')

    def test_of_a_program_that_was_changed_there_is_none(self):
        self.file('dist/lefdef.gz', gzip.compress(PROGRAM.encode() + b'echo\n'))
        self.check_refused('dist/lefdef.gz has not the sum that is in dist/built-from')
        self.file('dist/lefdef.gz', gzip.compress(PROGRAM.encode())[:-4])
        self.check_refused('dist/lefdef.gz cannot be unpacked: ')
        self.pack(PROGRAM)
        self.file('dist/built-from', '')
        self.check_refused('dist/lefdef.gz has not the sum that is in dist/built-from')

    def test_a_version_that_is_none_or_is_not_told_of_is_refused(self):
        self.file('VERSION', '1.2.4\n')
        self.check_refused('CHANGELOG.md has no section on 1.2.4')
        self.file('VERSION', 'next\n')
        self.check_refused("VERSION: 'next' is no version such as 1.0.0")
        os.remove(os.path.join(self.top, 'VERSION'))
        self.check_refused('VERSION: No such file or directory')

    def test_what_is_not_committed_is_refused(self):
        self.file('.git/HEAD', '')
        commands = os.path.join(self.room, 'top', 'commands')
        self.file('commands/git', '#!/bin/sh\necho " M docs/RULES.md"\n')
        os.chmod(os.path.join(commands, 'git'), 0o755)
        status, out, err = self.run_script(commands=commands)
        self.assertEqual((status, out, err), (1, '', 'release: docs/RULES.md is not as it is committed: a release is of a commit\n'))
        self.file('commands/git', '#!/bin/sh\n')
        self.assertEqual(self.run_script(commands=commands)[0], 0)

    def test_no_file_is_overwritten(self):
        first = self.made()
        self.file('docs/RULES.md', 'other rules\n')
        status, out, err = self.run_script()
        self.assertEqual((status, out, err), (5, '', f'release: {NAME}.tar.gz: File exists\n'))
        with open(os.path.join(self.room, f'{NAME}.tar.gz'), 'rb') as file:
            self.assertEqual(file.read(), first)
        self.assertEqual(sorted(os.listdir(self.room)), [f'{NAME}.tar.gz', 'top'])

    def test_a_folder_that_is_not_there_is_told(self):
        self.assertEqual(self.run_script('none'), (5, '', f'release: none/{NAME}.tar.gz: No such file or directory\n'))

    def test_other_words_are_a_usage_error(self):
        for words in (['--to', 'x'], ['a', 'b'], ['-h']):
            self.assertEqual(self.run_script(*words)[:2], (64, ''))
        status, out, _ = self.run_script('--help')
        self.assertEqual(status, 0)
        self.assertIn('tools/release [FOLDER]', out)


class RepositoryTests(unittest.TestCase):
    """What is in the repository for a release."""

    def setUp(self):
        self.copy = Doctored(parts=('README.md', 'CHANGELOG.md', 'VERSION', 'docs', 'examples', 'library', 'tools'))
        self.addCleanup(self.copy.close)
        self.release = script('tools/release')
        self.release.TOP = self.copy.top
        sources = subprocess.run([os.path.join(self.copy.top, 'tools', 'sources-sum'), 'lefdef'], capture_output=True, text=True, check=False)
        self.assertEqual(sources.returncode, 0, sources.stderr)
        os.makedirs(os.path.join(self.copy.top, 'dist'))
        with open(os.path.join(self.copy.top, 'dist', 'lefdef.gz'), 'wb') as file:
            file.write(gzip.compress(PROGRAM.encode()))
        self.copy.write('dist/built-from', f'{sources.stdout}kit 1\n{hashlib.blake2b(PROGRAM.encode()).hexdigest()}  -\n')
        self.version, self.found = self.release.files()

    def test_the_version_is_that_of_the_newest_section(self):
        with open(os.path.join(TOP, 'CHANGELOG.md'), encoding='utf-8') as file:
            self.assertEqual(re.findall(r'(?m)^## (.+)$', file.read())[:1], [self.version])

    def test_it_has_what_its_readme_names(self):
        readme = self.found['README.md'][0].decode()
        for path in re.findall(r'(?m)^\| `([^`]+)` \| ', readme.split('\n## ')[0]):
            self.assertTrue(path in self.found or any(name.startswith(path) for name in self.found), path)
        self.assertIn('| Exit status | When |', readme)
        for name in ('docs/FORMATS.md', 'examples/standard.lef', 'tools/view', 'tools/flow_text.py', 'tools/lefdef_text/__init__.py'):
            self.assertIn(name, self.found)
        for name in self.release.LEFT_OUT:
            self.assertTrue(os.path.exists(os.path.join(TOP, name)), name)
            self.assertNotIn(name, self.found)

    def test_its_links_lead_somewhere(self):
        count = 0
        for path in (name for name in self.found if name.endswith('.md')):
            for link in re.findall(r'\]\(([^)\s#]+)', self.found[path][0].decode()):
                target = os.path.normpath(os.path.join(os.path.dirname(path), link))
                if '://' not in link and target.split('/')[0] not in ('crates', 'tests', 'bench'):
                    count += 1
                    self.assertTrue(target in self.found or any(name.startswith(f'{target}/') for name in self.found), f'{path}: {link}')
        self.assertGreater(count, 50)


if __name__ == '__main__':
    unittest.main()
