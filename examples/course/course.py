"""The blocks of the course, and what lefdef says of an answer to one of them: for judge and score."""
import os
import re
import subprocess
import sys
from typing import NamedTuple

HERE = os.path.dirname(os.path.abspath(__file__))
sys.path.insert(0, os.path.join(HERE, '..', '..', 'tools'))

from lefdef_text import NotRun, Refused, check, finish, legalise, measure, place_check, read_design, read_library, route, wiring_of
from lefdef_text.answers import program_path

LEF = os.path.join(HERE, 'cells.lef')
BEST = os.path.join(HERE, 'best.txt')
NAMES = [f'{exercise}{number}' for exercise in ('place', 'route') for number in range(1, 6)]
KINDS = ('UNPLACED', 'OUTSIDE', 'OFFSITE', 'OVERLAP', 'BLOCKED', 'SHORT', 'TOONEAR', 'OPEN')
# The last line of `lefdef compare` that an answer may have: one to `place` differs in places alone, one to `route` in wires that are added.
STILL_THE_BLOCK = {'place': 'same|places [0-9]+', 'route': 'same|wires [0-9]+'}
RIGHT, WRONG, NOT_JUDGED = range(3)
USAGE = 64


def usage_status(words, doc):
    """Prints what a script is for, where its words ask for that or are none that it takes, and returns its exit status; else None."""
    if words == ['--help']:
        print(doc.strip())
        return 0
    if words and not any(word.startswith('-') for word in words):
        return None
    print(doc.strip(), file=sys.stderr)
    return USAGE


class Verdict(NamedTuple):
    """What is said of an answer, and the exit status for it."""
    said: str
    status: int


def block_of(path):
    """Returns the name of the block that an answer is to, which is that of its file up to the first point, or None."""
    name = os.path.basename(path).partition('.')[0]
    return name if name in NAMES else None


def path_of(name):
    return os.path.join(HERE, name[:-1], f'{name}.def')


def comparison(before, after):
    """Returns the lines of `lefdef compare`, or None where it refused a text."""
    words = [program_path(), 'compare', before, after, LEF]
    try:
        done = subprocess.run(words, stdin=subprocess.DEVNULL, capture_output=True, check=False, encoding='utf-8', errors='replace')
    except OSError as error:
        raise NotRun(f'{words[0]}: {error.strerror}') from error
    if done.returncode not in (0, 1, 2) or not done.stdout:
        raise NotRun(f'lefdef compare ended with status {done.returncode}: {done.stderr.strip()}', done.returncode)
    return done.stdout.splitlines() if done.returncode < 2 else None


def judged(path):
    """Returns the verdict on an answer: whether it is a legal form of its block, and of nothing else."""
    name = block_of(path)
    if name is None:
        return Verdict(f'no block has this name: it is {NAMES[0]}.def to {NAMES[-1]}.def', NOT_JUDGED)
    exercise = name[:-1]
    answer = (place_check if exercise == 'place' else check)(path, [LEF])
    if answer.kind not in ('legal', 'violations'):
        why = answer.message.strip().partition('\n')[0]
        return Verdict(f'not read: {why or answer.lines[-1].text}', NOT_JUDGED)
    lines = comparison(path_of(name), path)
    if lines is None:
        return Verdict('not compared with its block: a text is refused', NOT_JUDGED)
    if not re.fullmatch(STILL_THE_BLOCK[exercise], lines[-1]):
        return Verdict(f'another block: {changes_in(name, lines)}', WRONG)
    if answer.kind == 'legal':
        return Verdict('legal', RIGHT)
    kinds = [violation.kind for violation in answer.violations]
    return Verdict('not legal: ' + ', '.join(f'{kind} {kinds.count(kind)}' for kind in KINDS if kind in kinds), WRONG)


def not_judged(error):
    return 'not judged: ' + ': '.join(str(error).splitlines())


def changes_in(name, lines):
    """Returns the first difference that an answer to this block may not have, and how many more of them there are."""
    block = read_design(path_of(name), read_library([LEF]))
    if name.startswith('place'):
        allowed = {f'CHANGED COMPONENT {it.name} PLACE' for it in block.components.values() if block.is_movable(it)}
    else:
        allowed = {f'CHANGED NET {net} MOREWIRES' for net in block.nets}
    found = [line for line in lines[:-1] if line not in allowed]
    return found[0] + (f', and {len(found) - 1} more' if len(found) > 1 else '')


# Scores


def score_of(name, path):
    """Returns the score of a legal answer, as pairs of a name and a number in database units, or, of vias, a count."""
    library = read_library([LEF])
    before, after = read_design(path_of(name), library), read_design(path, library)
    if name.startswith('route'):
        old, new = wiring_of(before.nets.values()), wiring_of(after.nets.values())
        return {'length': new.length() - old.length(), 'vias': new.via_count() - old.via_count()}
    moves = [move_of(before, component, after.components[component.name]) for component in before.components.values()]
    return {'hpwl': measure(path, [LEF]).value('hpwl', 'length'), 'moved': sum(moves), 'greatest': max(moves)}


def move_of(before, old, new):
    """Returns how far a component has moved; one without a place begins at the lower left corner of the die."""
    x, y = (before.die.x1, before.die.y1) if old.place is None else old.place[:2]
    return abs(new.place.x - x) + abs(new.place.y - y)


def best_scores():
    """Returns the best known scores: of each block the numbers by their names."""
    found = {}
    with open(BEST, encoding='utf-8') as file:
        for line in file:
            words = line.partition('#')[0].split()
            if words:
                found[words[0]] = {word: int(number) for word, number in zip(words[1::2], words[2::2])}
    return found
