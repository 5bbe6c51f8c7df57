"""What a check of some functions says, and what it shows of an edit.

A goal is open where the prover finds no proof of it: it says so at a line of the code, or, where a proof is written, at a call of a
tactic there. Other errors in a written proof only say that it no longer fits the code, as where it names what the edit took away."""
import re
from typing import NamedTuple

VERDICT = re.compile(r'^fn \w+?::(\S+): (.+)$', re.M)
GOAL = re.compile(r'^note: (src/\S+?):(\d+):\d+: (it is not proved.*)$', re.M)
# An error in a file of proofs, with the lines that go on about it.
ERROR = re.compile(r'^(?:\./)?(proofs/\S+?):\d+:\d+: error: (.*(?:\n  .*)*)$', re.M)
# A tactic says that the goal does not follow from what it knows.
UNPROVED = re.compile(r'`(?:omega|grind|search|simp|decide)\b[^`]*`: ')
CALLS = re.compile(r'it calls `\w+?::(\S+?)`')
PROVED, OPEN, UNFIT, UNKNOWN = 'proved', 'open', 'unfit', 'unknown'
# What a check says of a closure where a function that leads to it is not proved.
PROVED_AS_ASKED = 'proved where its callers give what it asks'


class Said(NamedTuple):
    """What was said, the verdicts by function, the open goals by file and line, and the errors in proofs by file. Without an end there
    are no verdicts."""
    text: str
    verdicts: dict
    goals: list
    errors: list
    has_ended: bool


class Finding(NamedTuple):
    """What was found of a function or an edit: PROVED, OPEN (a goal is), UNFIT (a written proof is) or UNKNOWN, and why, in a line."""
    kind: str
    why: str


def read(text):
    """Returns what a check said."""
    has_ended = re.search(r'^only=\d+ proved=\d+$', text, re.M) is not None
    goals = [(file, int(line), goal) for file, line, goal in GOAL.findall(text)]
    return Said(text, dict(VERDICT.findall(text)) if has_ended else {}, goals, ERROR.findall(text), has_ended)


def is_part(path, function):
    """Returns whether this is the path of the function or of one of its closures."""
    return path == function or path.replace('::fn::', '::').startswith(f'{function}::')


def is_proved(said, path):
    """Returns whether what has this path is proved: of a closure, also where it is as far as its callers go, if the function that has it is."""
    verdict = said.verdicts[path]
    owners = [it for it, other in said.verdicts.items() if it != path and other == PROVED and is_part(path, it)]
    return verdict == PROVED or (verdict == PROVED_AS_ASKED and owners != [])


def called(said, function):
    """Returns the function for want of whose proof nothing is said of this one, if it is so; none of its own closures."""
    for path, verdict in said.verdicts.items():
        callee = CALLS.search(verdict) if is_part(path, function) else None
        if callee and not is_part(callee[1], function):
            return callee[1]
    return None


def lowest_called(said, function):
    """Returns the function at the end of the calls for which nothing is said of this one, or None."""
    callee, passed = called(said, function), []
    while callee and callee not in passed and called(said, callee):
        passed.append(callee)
        callee = called(said, callee)
    return callee


def errors_of(said, function):
    """Returns what is wrong in the written proofs of the function and its closures. (The folder of one that calls itself begins with +.)"""
    folder = f"proofs/{function.replace('::', '/')}/"
    return [error for file, error in said.errors if file.replace('/fn/', '/').replace('/+', '/').startswith(folder)]


def finding_of(said, function):
    """Returns what was found of this function."""
    verdict = said.verdicts.get(function.path)
    if verdict is None:
        return Finding(UNKNOWN, 'the checker gave no verdict')
    if verdict == 'proved':
        return Finding(PROVED, verdict)
    for file, line, goal in said.goals:
        if file == function.file and function.first <= line <= function.last:
            return Finding(OPEN, f'{file}:{line}: {goal}')
    errors = [it.partition('\n')[0] for it in errors_of(said, function.path)]
    unproved = [it for it in errors if UNPROVED.search(it)]
    if unproved:
        return Finding(OPEN, unproved[0])
    return Finding(UNFIT, errors[0]) if errors else Finding(UNKNOWN, verdict)


def finding_of_all(said, functions):
    """Returns the finding that tells most of these functions: a goal that is open, then a proof that does not fit."""
    found = [finding_of(said, it) for it in functions]
    return next((it for kind in (OPEN, UNFIT, UNKNOWN, PROVED) for it in found if it.kind == kind))
