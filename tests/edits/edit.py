"""Edits of a crate, in files NAME.edit: the lines that each changes, and the functions that it breaks.

An edit is a line `file: PATH` and then pairs of lines `old: TEXT` and `new: TEXT`; each `old:` text stands once in that file as it is
after the pairs before. A line `breaks: FUNCTION` names a function whose proof has to fail, as the checker names it; without one, these
are the functions that have the changed lines. The edits of the folder keep/ change the words of a function and not its meaning."""
from typing import NamedTuple


class DoesNotFit(Exception):
    """The edit can't be made in the sources as they are, for the reason in the message."""


class Edit(NamedTuple):
    """An edit: its name, the crate, each line that it changes, as a file, a number and the new text, the functions that it breaks,
    whether it is tried alone, since it changes more than the body of one function, and whether it keeps the meaning."""
    name: str
    crate: str
    lines: tuple
    functions: tuple
    is_alone: bool
    keeps: bool


def pairs_of(text):
    """Yields the file and the old and the new text of each change of an edit."""
    file = old = None
    for line in text.splitlines():
        word, _, rest = line.partition(' ')
        if word == 'file:':
            file = rest.strip()
        elif word == 'old:':
            old = rest
        elif word == 'new:':
            if not file or not old:
                raise DoesNotFit('a line new: without a file: and an old: before it')
            yield file, old, rest
        elif line.strip() and word != 'breaks:' and not line.startswith('#'):
            raise DoesNotFit(f'a line that is neither file:, old:, new: nor breaks: {line.strip()}')


def lines_of(text, folder):
    """Returns the lines that an edit changes in the crate in this folder, each as a file, a number and the new text."""
    texts, changed = {}, {}
    for file, old, new in pairs_of(text):
        if not (folder / file).is_file():
            raise DoesNotFit(f'there is no file {file}')
        was = texts.setdefault(file, (folder / file).read_text(encoding='utf-8'))
        if was.count(old) != 1:
            raise DoesNotFit(f'what it replaces stands {was.count(old)} times in {file}: {old.strip()}')
        number = was.count('\n', 0, was.index(old))
        texts[file] = was.replace(old, new)
        changed[file, number + 1] = texts[file].split('\n')[number]
    if not changed:
        raise DoesNotFit('it changes nothing')
    return tuple((file, number, text) for (file, number), text in changed.items())


def read_edit(path, folder, functions, named=()):
    """Returns the edit in this file of the crate in this folder, which has these functions; `named` are those that it is said to break."""
    text = path.read_text(encoding='utf-8')
    lines = lines_of(text, folder)
    breaks = [it.partition(' ')[2].strip() for it in text.splitlines() if it.startswith('breaks: ')]
    changed = [it for it in functions if any(it.file == file and it.first <= number <= it.last for file, number, _ in lines)]
    bodies = [it for it in changed for file, number, _ in lines if it.file == file and it.body <= number <= it.last]
    is_alone = len(bodies) < len(lines) or len(changed) != 1
    broken = tuple(named or breaks or [it.path for it in changed])
    if not broken:
        raise DoesNotFit('it changes no function, so it has to name one with breaks:')
    return Edit(path.stem, path.parent.name, lines, broken, is_alone, path.parent.parent.name == 'keep')


def make(edits, folder):
    """Makes these edits, which change different lines, in the files of a copy of their crate in this folder."""
    changes = [it for edit in edits for it in edit.lines]
    for file in sorted({file for file, _, _ in changes}):
        lines = (folder / file).read_text(encoding='utf-8').split('\n')
        for of, number, text in changes:
            if of == file:
                lines[number - 1] = text
        (folder / file).write_text('\n'.join(lines), encoding='utf-8')
