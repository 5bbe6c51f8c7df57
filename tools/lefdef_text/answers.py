"""What lefdef answered, as records: to read from a file, or of a run of the program."""
import os
import re
import shutil
import subprocess
from typing import List, NamedTuple, Optional

from .lines import LISTED, Line, Violation, answer_text, check_count, line_of, split_lines
from .words import Refused, shown

# The exit statuses with which the program has printed an answer.
ANSWERED = range(5)
MESSAGE = re.compile(r'(.+?):([0-9]+)(?::([0-9]+))?: (.*)')
HERE = os.path.dirname(os.path.abspath(__file__))


class NotRun(Exception):
    """The program could not be run, or ended without an answer, as the message says; `status` is its exit status, or None."""

    def __init__(self, why, status=None):
        super().__init__(why)
        self.status = status


class Refusal(NamedTuple):
    """Why a text is refused: the kind that lefdef prints after `REFUSED`, or after the name of `SCALE`; the file, its line and the column of the
    word in bytes, from 1, where they are known; and the first line of the message, without the place."""
    kind: str
    path: Optional[str]
    line: Optional[int]
    column: Optional[int]
    message: str


class Answer(NamedTuple):
    """An answer of lefdef: its lines without those of a design's text; that text, or None where none was printed; the files, the LEFs in turn
    and then the DEF; the exit status, or None where it is not known; and the message on standard error."""
    lines: List[Line]
    text: Optional[str] = None
    files: List[str] = []
    status: Optional[int] = None
    message: str = ''

    @property
    def kind(self):
        """The kind of the last line, or `design` where a design was printed."""
        return 'design' if self.text is not None else self.lines[-1].kind

    @property
    def is_legal(self):
        return self.kind == 'legal'

    @property
    def violations(self) -> List[Violation]:
        return [line.violation() for line in self.lines if line.is_violation()]

    @property
    def refusal(self) -> Optional[Refusal]:
        """Why a text was refused, or None where none was."""
        last = self.lines[-1] if self.lines else None
        if last is None or last.kind not in ('REFUSED', 'SCALE'):
            return None
        found = MESSAGE.match(self.message)
        path, line, column, message = found.groups() if found else (None, None, None, '')
        if last.kind == 'REFUSED':
            path, line = self.files[last.values['file']] if last.values['file'] < len(self.files) else None, last.values['line']
        return Refusal(last.values['reason'], path, int(line) if line else None, int(column) if column else None, message)

    def value(self, kind, name):
        """Returns what the line of this kind has by this name, or None where there is no such line."""
        return next((line.values[name] for line in self.lines if line.kind == kind), None)


def answer_of(path, text):
    """Returns the answer that a text is; `path` stands in messages."""
    lines, design = split_lines(text), None
    first = 0
    if lines and lines[0].startswith('VERSION '):
        first = next((at for at, line in enumerate(lines, 1) if line == 'END DESIGN'), 0)
        if not first:
            raise Refused(path, len(lines), 'the design ends without END DESIGN')
        design = '\n'.join(lines[:first]) + '\n'
    found = []
    for number, line in enumerate(lines[first:], first + 1):
        read = line_of(line, number)
        if read is None or read.kind.startswith('#') != (design is not None):
            raise Refused(path, number, f'this is no line that lefdef prints{" here" if read else ""}: {shown(line)}')
        found.append(read)
    if design is None:
        check_end(path, found)
    return Answer(found, design)


def check_end(path, lines):
    """Refuses the lines of an answer without a design that are cut, or several answers in one."""
    if not lines:
        raise Refused(path, 1, 'the answer is empty')
    last = lines[-1]
    if any(last.kind in listed for listed in LISTED.values()):
        raise Refused(path, last.number, f'the answer ends without its last line, which has the number of those listed: {shown(last.text)}')
    for line in lines[:-1]:
        if line.kind not in LISTED.get(last.kind, ()):
            raise Refused(path, line.number, f'the answer has lines of another one: {shown(line.text)} and then {shown(last.text)}')
    if last.kind in LISTED:
        check_count(path, last, lines[:-1])


def read_answer(path):
    """Returns the answer that a file has (`-` is standard input), which is all that lefdef printed."""
    return answer_of(path, answer_text(path))


# Runs of the program


def program_path(program=None):
    """Returns the program: the one that is given, that of the variable LEFDEF, `lefdef` of the search path, or that of this repository."""
    own = os.path.normpath(os.path.join(HERE, '..', '..', 'lefdef'))
    found = program or os.environ.get('LEFDEF') or shutil.which('lefdef') or (own if os.path.isfile(own) else None)
    if found is None:
        raise NotRun('there is no program lefdef: name it by `program` or by the variable LEFDEF')
    return found


def run(command, design, libraries, program=None, seconds=None, options=()):
    """Runs a command of lefdef on a DEF and its LEFs, and returns the answer; `seconds` is the most that it may take, and `options` are the words
    before the command."""
    words = [program_path(program), *options, command, design, *libraries]
    try:
        done = subprocess.run(words, stdin=subprocess.DEVNULL, capture_output=True, check=False, timeout=seconds)
    except OSError as error:
        raise NotRun(f'{words[0]}: {error.strerror}') from error
    except subprocess.TimeoutExpired as error:
        raise NotRun(f'{words[0]} took more than {seconds} seconds') from error
    text, message = (data.decode('utf-8', 'surrogateescape') for data in (done.stdout, done.stderr))
    if done.returncode not in ANSWERED:
        raise NotRun(message.strip() or f'{words[0]} ended with status {done.returncode}', done.returncode)
    answer = answer_of(f'the answer of {words[0]}', text)
    return answer._replace(files=[*libraries, design], status=done.returncode, message=message)


def check(design, libraries, program=None):
    return run('check', design, libraries, program)


def place_check(design, libraries, program=None):
    return run('place-check', design, libraries, program)


def measure(design, libraries, program=None):
    return run('measure', design, libraries, program)


def legalise(design, libraries, program=None):
    return run('legalise', design, libraries, program)


def route(design, libraries, program=None):
    return run('route', design, libraries, program)


def flow(design, libraries, program=None):
    return run('flow', design, libraries, program)


def compare(before, after, libraries, program=None):
    """Returns the answer of `lefdef compare` on two DEFs and the LEFs of both; of its files the DEF before comes after the LEFs, and last the other."""
    return run('compare', before, [after, *libraries], program)._replace(files=[*libraries, before, after])


def finish(design, libraries, program=None):
    return run('finish', design, libraries, program)


def print_design(design, libraries, program=None):
    return run('print', design, libraries, program)
