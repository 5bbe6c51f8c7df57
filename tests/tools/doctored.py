"""A copy of parts of the repository, which a test changes. It has no links, so nothing that is written reaches the repository."""
import importlib.machinery
import importlib.util
import os
import shutil
import sys
import tempfile

TOP = os.path.normpath(os.path.join(os.path.dirname(os.path.abspath(__file__)), '..', '..'))


def script(path):
    """Returns a script of the repository as a module."""
    sys.path.insert(0, os.path.join(TOP, os.path.dirname(path)))
    loader = importlib.machinery.SourceFileLoader(os.path.basename(path) + '_script', os.path.join(TOP, path))
    module = importlib.util.module_from_spec(importlib.util.spec_from_loader(loader.name, loader))
    loader.exec_module(module)
    return module


def narrow_cases():
    """Returns the names of the cases of the program that are asked without options: tools that take none read their texts."""
    names = []
    for name in sorted(os.listdir(os.path.join(TOP, 'tests', 'program'))):
        path = os.path.join(TOP, 'tests', 'program', name, 'words')
        if os.path.exists(path):
            with open(path, encoding='utf-8', errors='surrogateescape') as file:
                if file.read(2) == '--':
                    continue
        names.append(name)
    return names


def expressions(heading):
    """Returns the regular expressions of the lines that a tool prints, from the section of docs/SCRIPTS.md with this heading."""
    with open(os.path.join(TOP, 'docs', 'SCRIPTS.md'), encoding='utf-8') as file:
        section = file.read().partition(f'\n## {heading}\n')[2].partition('\n## ')[0]
    return section.partition('```text\n')[2].partition('```')[0].splitlines()


class Doctored:
    """A folder with copies of these files and folders of the repository, and of the code and the definitions of these crates: of all that
    crates.txt lists, where none are named."""

    def __init__(self, crates=(), parts=()):
        self.top = os.path.realpath(tempfile.mkdtemp())
        with open(os.path.join(TOP, 'crates.txt'), encoding='utf-8') as file:
            lines = {line.partition(':')[0].split()[0]: line for line in file if ':' in line and not line.startswith('#')}
        for crate in crates or lines:
            for part in ('src', 'specs'):
                if os.path.isdir(os.path.join(TOP, 'crates', crate, part)):
                    self.copy(os.path.join('crates', crate, part))
        self.write('crates.txt', ''.join(lines[crate] for crate in crates or lines))
        for part in parts:
            self.copy(part)

    def close(self):
        shutil.rmtree(self.top)

    def copy(self, path):
        target = os.path.join(self.top, path)
        os.makedirs(os.path.dirname(target), exist_ok=True)
        if os.path.isdir(os.path.join(TOP, path)):
            shutil.copytree(os.path.join(TOP, path), target)
        else:
            shutil.copyfile(os.path.join(TOP, path), target)

    def read(self, path):
        with open(os.path.join(self.top, path), encoding='utf-8') as file:
            return file.read()

    def write(self, path, text):
        path = os.path.join(self.top, path)
        os.makedirs(os.path.dirname(path), exist_ok=True)
        with open(path, 'w', encoding='utf-8') as file:
            file.write(text)

    def remove(self, path):
        os.remove(os.path.join(self.top, path))

    def edit(self, path, old, new, times=1):
        """Puts a text in the place of another, which has to stand there this many times."""
        text = self.read(path)
        if text.count(old) != times:
            raise AssertionError(f'{path} has {old!r} {text.count(old)} times')
        self.write(path, text.replace(old, new))
