"""The rounds in which a crate's edits are tried: one check tries edits of several functions."""
from typing import NamedTuple

import said as of
from edit import DoesNotFit, read_edit
from source import functions_below

# How many edits a round has at most, and how many where the time is short.
MOST, FEW = 16, 4
REFUSED, KEPT, SAME, UNFIT, FAILED, LATE = 'refused', 'kept', 'same', 'unfit', 'failed', 'late'
WORDS = {
    REFUSED: 'refused, as it must be',
    KEPT: 'proved, as it must be, since it keeps the meaning',
    SAME: 'nothing has changed since all its edits were tried',
    UNFIT: 'REFUSED FOR WRITTEN PROOFS ALONE, and no edit of its lines that keeps the meaning is proved',
    FAILED: 'FAILED',
    LATE: 'not tried, for want of time',
}


class Result(NamedTuple):
    """What came of an edit, and what the checker said of it."""
    name: str
    kind: str
    why: str

    def __str__(self):
        return f'{self.name}: {WORDS[self.kind]}' + f': {self.why}' * bool(self.why)


def from_both_ends(items):
    """Returns the first of the items, the last, the second, the last but one, and so on."""
    return [it for pair in zip(items, reversed(items)) for it in pair][:len(items)]


def label(edit):
    return f"{'keep/' * edit.keeps}{edit.crate}/{edit.name}"


class Trial:
    """The edits of a crate that are still to be tried, and what came of the others."""

    def __init__(self, crate, files, folder):
        """`files` are the edits, each with the function that it is said to break, or None; the crate is in this folder."""
        functions = functions_below(folder)
        self.crate, self.folder, self.functions = crate, folder, {it.path: it for it in functions}
        self.left, self.results, self.unfit, self.kept = [], [], [], []
        # Functions of which one calls the other, and edits that are not tried beside others.
        self.apart, self.alone = set(), set()
        for path, named in files:
            try:
                edit = read_edit(path, folder, functions, [named] if named else [])
                lacking = [it for it in edit.functions if it not in self.functions]
                if lacking:
                    raise DoesNotFit(f'the crate has no function {lacking[0]}')
                self.left.append(edit)
            except (DoesNotFit, OSError, ValueError) as error:
                self.results.append(Result(f'{crate}/{path.stem}', FAILED, f'it does not fit: {error}'))

    def next_round(self, most=MOST):
        """Returns the edits of the next round, so many at most: of functions none of which is known to call another one."""
        made = []
        for edit in self.left:
            if edit.is_alone or edit in self.alone:
                if not made:
                    return [edit]
                continue
            others = {it for other in made for it in other.functions}
            is_apart = any((a, b) in self.apart or (b, a) in self.apart for a in others for b in edit.functions)
            if not others & {*edit.functions} and not is_apart and len(made) < most:
                made.append(edit)
        return made

    def take(self, made, said):
        """Takes what a check of this round said, and returns the results."""
        changed = {it for edit in made for it in edit.functions}
        unproved = [path for path, verdict in said.verdicts.items() if not of.is_proved(said, path) and not of.CALLS.search(verdict)]
        others = [path for path in unproved if not any(of.is_part(path, it) for it in changed)]
        if len(made) > 1 and (others or not said.has_ended):
            self.alone.update(made)
            return []
        before = len(self.results)
        for edit in made:
            if not self.is_hidden(edit, made, said):
                self.left.remove(edit)
                self.add(edit, said, [] if edit.is_alone else others)
        return self.results[before:]

    def is_hidden(self, edit, made, said):
        """Returns whether too little is said of a function that the edit changes, since it calls one that another edit of the round does."""
        for function in edit.functions if self.finding_of(edit, said).kind != of.OPEN else ():
            callee = of.lowest_called(said, function)
            for other in made:
                if callee and other != edit and any(of.is_part(callee, it) for it in other.functions):
                    self.apart.update((function, it) for it in other.functions)
                    return True
        return False

    def finding_of(self, edit, said):
        return of.finding_of_all(said, [self.functions[it] for it in edit.functions])

    def add(self, edit, said, others):
        """Adds what a check found of an edit; `others` are functions that are not proved, though nothing of theirs was changed."""
        found = self.finding_of(edit, said)
        if not said.has_ended:
            error = next((it for it in said.text.splitlines() if 'error' in it), said.text.strip().rpartition('\n')[2])
            found = of.Finding(of.UNKNOWN, f'the check gave no verdict: {error}')
        elif others:
            found = of.Finding(of.UNKNOWN, f'{others[0]} is not proved either')
        why = f"{', '.join(edit.functions)}: {found.why[:160]}"
        if edit.keeps:
            self.kept += [edit] * (found.kind == of.PROVED)
            self.results.append(Result(label(edit), KEPT if found.kind == of.PROVED else FAILED, why))
        elif found.kind == of.UNFIT:
            self.unfit.append((edit, why))
        else:
            self.results.append(Result(label(edit), REFUSED if found.kind == of.OPEN else FAILED, why))

    def settle(self):
        """Returns the results of the edits of which only written proofs say something: these need an edit of one of their lines that
        keeps the meaning and is proved. Edits that are left were not tried."""
        before = len(self.results)
        for edit, why in self.unfit:
            lines = {(file, number) for file, number, _ in edit.lines}
            beside = [label(it) for it in self.kept if any((file, number) in lines for file, number, _ in it.lines)]
            self.results.append(Result(label(edit), REFUSED if beside else UNFIT, f'beside {beside[0]}: {why}' if beside else why))
        self.results += [Result(label(it), LATE, '') for it in self.left]
        self.unfit, self.left = [], []
        return self.results[before:]
