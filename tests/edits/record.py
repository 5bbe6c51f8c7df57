"""The file `tried`: for which sources of a crate all its edits were last tried."""
import hashlib
from datetime import date
from pathlib import Path
from typing import NamedTuple

from libraries import PARTS, TOP

# Where the record stands in a repository, and the edits beside it.
EDITS = Path('tests/edits')
FILE = EDITS / 'tried'
HEAD = '''# When all edits of a crate were last tried, by tests/edits/run --record: the crate, the sum of its sources and edits, the day, how many
# edits that change the meaning the prover refused, how many it refused for written proofs alone, and how many that keep it it proved.
'''


class Entry(NamedTuple):
    """What the record says of a crate."""
    crate: str
    total: str
    day: str
    refused: int
    unfit: int
    kept: int


def sum_of(crate, top=TOP):
    """Returns a sum of the names and texts of the own sources of a crate of the repository `top`, and of its edits."""
    folders = [top / 'crates' / crate / it for it in PARTS] + [top / EDITS / crate, top / EDITS / 'keep' / crate]
    found = hashlib.sha256()
    for path in sorted(it for folder in folders for it in folder.rglob('*') if it.is_file()):
        found.update(repr((str(path.relative_to(top)), path.read_bytes())).encode())
    return found.hexdigest()[:16]


def entries(top=TOP):
    """Returns the entries of the record of the repository `top`, by the crate."""
    file = top / FILE
    rows = [it.split() for it in file.read_text(encoding='utf-8').splitlines() if it and not it.startswith('#')] if file.exists() else []
    return {it[0]: Entry(*it[:3], *map(int, it[3:])) for it in rows}


def old(top=TOP):
    """Returns the entries of that record whose crates have other sources or edits now."""
    return [it for it in entries(top).values() if sum_of(it.crate, top) != it.total]


def write(new, crates):
    """Writes the record with these entries in place of those of the same crates, and without those of crates that have no edits now."""
    kept = {**entries(), **{it.crate: it for it in new}}
    rows = [' '.join(map(str, kept[it])) for it in sorted(kept) if it in crates]
    (TOP / FILE).write_text(HEAD + '\n'.join([*rows, '']), encoding='utf-8')


def today():
    return date.today().isoformat()
