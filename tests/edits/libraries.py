"""The libraries that a crate's edits are tried over, and the words of a check.

    tests/edits/libraries.py --sums FILE             writes the sum of the sources of each crate to FILE
    tests/edits/libraries.py --note FILE CRATE..     notes beside the libraries of these crates in crates/*/out that they are of the sources
                                                     whose sum FILE has, if the sources have not changed since

Libraries in crates/*/out are used if they are of the sources that stand in the tree. Of those that `rt lib` and `rt check` make, the kit
notes the sum of the sources beside the library. `rt ci` leaves no such note. Some kits keep on the machine, by the sum of a crate's sources
and of the libraries below it, the sums of the files that it made of them. Where a kit keeps none, the gate, which runs `rt ci` and knows when
it has proved a crate, notes it by the two calls above. Otherwise `rt ci` makes the libraries anew: it takes what it keeps of the same
sources over the same libraries, and proves the rest. All is done in a copy of the crates, so what another rt does meanwhile changes nothing,
as the one that puts a checkout's own libraries back when its `rt ci` ends."""
import fcntl
import hashlib
import importlib.machinery
import importlib.util
import json
import os
import re
import shutil
import subprocess
import sys
from pathlib import Path

TOP = Path(__file__).resolve().parents[2]
# The parts of a crate that a check reads.
PARTS = ('src', 'specs', 'proofs')
# What the gate notes in the folder of a library: the sum of the sources, and that of the library.
NOTE = 'noted-by-the-gate'


def kit():
    """Returns the folder of the kit. (The page that rt doc names lies at its top.)"""
    return Path(subprocess.run(['rt', 'doc'], stdout=subprocess.PIPE, universal_newlines=True, check=True).stdout.strip()).parent


def lines_of_crates(top=TOP):
    """Returns the line of crates.txt for each crate, and the crates of the repository that it names."""
    rows = [it.partition('#')[0].strip() for it in (top / 'crates.txt').read_text(encoding='utf-8').splitlines()]
    lines = {it.partition(':')[0].split()[0]: it for it in rows if it}
    uses = {name: [it for it in line.partition(':')[2].split() if it in lines] for name, line in lines.items()}
    return lines, uses


def below(name, uses):
    """Returns the crates below this one, each after those that it stands on."""
    found = []
    for use in uses[name]:
        found += [it for it in [*below(use, uses), use] if it not in found]
    return found


def copy_parts(crate, folder):
    """Copies what a check of the crate in the folder `crate` reads to this folder."""
    for part in PARTS:
        if (crate / part).is_dir():
            shutil.copytree(str(crate / part), str(folder / part))


def link(one, other):
    """Gives a file of kept work a second name, or copies it: a check removes such a file before it makes it anew, and changes none."""
    try:
        os.link(one, other)
    except OSError:
        shutil.copy2(one, other)


def copy_kept(name, folder):
    """Has the checks of the crate that keep their work in this folder begin with that of earlier ones, unless an rt works there now."""
    kept = TOP / 'crates' / name / 'out' / 'incremental'
    lock = os.open(str(TOP / 'crates' / name), os.O_RDONLY)
    try:
        fcntl.flock(lock, fcntl.LOCK_SH | fcntl.LOCK_NB)
        if kept.is_dir():
            shutil.copytree(str(kept), str(folder), copy_function=link)
    except BlockingIOError:
        pass
    finally:
        os.close(lock)


def copy_crates(names, top):
    """Copies these crates to the folder `top`, as a repository of their own, with the libraries that stand in their out/."""
    lines, _ = lines_of_crates()
    for name in names:
        crate, made = top / 'crates' / name, TOP / 'crates' / name / 'out/rlib'
        copy_parts(TOP / 'crates' / name, crate)
        try:
            if made.is_dir():
                shutil.copytree(str(made), str(crate / 'out/rlib'), copy_function=link)
        except (OSError, shutil.Error):
            # (another rt makes it anew)
            shutil.rmtree(str(crate / 'out'), ignore_errors=True)
    (top / 'crates.txt').write_text('\n'.join([*[lines[it] for it in lines if it in names], '']), encoding='utf-8')
    shutil.copy(str(TOP / 'HANDLES'), str(top))


def module_of_rt(folder):
    """Returns the command rt of the kit in this folder, as a module."""
    loader = importlib.machinery.SourceFileLoader('rt', f'{folder}/bin/rt')
    rt = importlib.util.module_from_spec(importlib.util.spec_from_loader('rt', loader))
    sys.modules['rt'] = rt
    loader.exec_module(rt)
    return rt


def is_of_ci(kept, crate, sum_of):
    """Returns whether the library in the crate's out/ is the one that an `rt ci` made of the crate's sources over the libraries below it,
    by what it has kept; those below have to be asked for before."""
    try:
        entry = json.loads((Path(kept.place(crate, False, kept.key(crate))) / 'made.json').read_text(encoding='utf-8'))
    except (OSError, ValueError):
        return False
    # (its sum is a part of the keys of the crates above)
    kept.is_built(crate)
    files = kept.made(crate, False)
    return files != [] and entry['files'] == [[it, sum_of(f'{crate.folder}/out/{it}')] for it in files]


def sum_of_files(*folders):
    """Returns a sum of the files in these folders: their names and what they hold."""
    found = hashlib.sha256()
    for folder in folders:
        for path in sorted(it for it in folder.rglob('*') if it.is_file() and it.name != NOTE):
            found.update(repr((str(path.relative_to(folder)), path.read_bytes())).encode())
    return found.hexdigest()


def sums_of_sources(top):
    """Returns for each crate of the repository `top` a sum of its sources, of those below it, and of what the kit is."""
    lines, uses = lines_of_crates(top)
    own = {name: sum_of_files(*[top / 'crates' / name / part for part in PARTS]) for name in lines}
    what = (kit() / 'KIT-ID').read_text(encoding='utf-8') if (kit() / 'KIT-ID').exists() else ''
    return {name: hashlib.sha256(repr((what, lines[name], own[name], [own[it] for it in below(name, uses)])).encode()).hexdigest() for name in lines}


def is_noted(crate, source_sum):
    """Returns whether the library in the crate's out/ is one that the gate noted to be of sources with this sum."""
    try:
        return (crate / 'out/rlib' / NOTE).read_text(encoding='utf-8') == f"{source_sum} {sum_of_files(crate / 'out/rlib')}\n"
    except OSError:
        return False


def note_libraries(names, sums, top=TOP):
    """Notes beside the library of each of these crates whose sources have this sum still that it is of them."""
    now = sums_of_sources(top)
    for name in names:
        made = top / 'crates' / name / 'out/rlib'
        if made.is_dir() and now.get(name) == sums.get(name):
            (made / NOTE).write_text(f'{now[name]} {sum_of_files(made)}\n', encoding='utf-8')


def are_current(top, folder):
    """Returns whether each crate of the repository `top` has a library in its out/ that is of its sources, as the kit in this folder or the gate
    finds."""
    rt = module_of_rt(folder)
    if all(it.is_built() for it in rt.rtlib.crates_below(str(top))):
        return True
    if all(is_noted(top / 'crates' / name, source_sum) for name, source_sum in sums_of_sources(top).items()):
        return True
    try:
        # (the sums that `rt ci` goes by are those of its own kind of crate)
        rt.rtlib.Crate, rt.Crate.allowed = rt.Crate, rt.handles_of(str(top))
        crates = sorted(rt.rtlib.crates_below(str(top)), key=lambda it: len(it.below()))
        kept = rt.Kept(crates)
        return all(is_of_ci(kept, it, rt.rtlib.sum_of) for it in crates)
    except AttributeError:
        # (another kit may keep it in another way: then `rt ci` itself gives it)
        return False


def build(top, call):
    """Has `rt ci` make the libraries of the repository `top`, and returns whether all its crates are proved."""
    for made in top.glob('crates/*/out'):
        shutil.rmtree(str(made))
    said = call(['rt', 'ci'], top)
    is_well = re.search(r'^\d+ passed, 0 failed$', said.rstrip().rpartition('\n')[2]) is not None
    if not is_well:
        print(said, end='')
    return is_well


def externs_of(name, top, folder):
    """Returns the words by which a check finds the libraries that the crate stands on: those of the repository in top, and the kit's."""
    lines, uses = lines_of_crates()
    found, folders = [], [folder / 'rlibs']
    for use in ['std', *lines[name].partition(':')[2].split()]:
        made = top / 'crates' / use / 'out/rlib' if use in lines else folder / 'rlibs'
        found += ['--extern', f'{use}={made / use}.rlib']
    folders += [top / 'crates' / it / 'out/rlib' for it in below(name, uses)]
    return [*found, *[word for it in folders for word in ('-L', f'dependency={it}')]]


def words_of_check(name, top, folder, kept):
    """Returns the words of a check of the crate by the kit in this folder, over the libraries in top, that keeps its work in kept."""
    root = 'src/main.rt' if (TOP / 'crates' / name / 'src/main.rt').exists() else 'src/lib.rt'
    words = [f'{folder}/bin/rattle', 'check', '--crate-name', name, root, *externs_of(name, top, folder), '--jobs', '1']
    words += ['--antt-project', f'{folder}/rattle/logic/antt-project.json', '--logic-built', f'{folder}/logic_built']
    return [*words, '--incremental', str(kept)]


def main(words):
    if len(words) == 2 and words[0] == '--sums':
        Path(words[1]).write_text(json.dumps(sums_of_sources(TOP)), encoding='utf-8')
    elif len(words) >= 2 and words[0] == '--note':
        note_libraries(words[2:], json.loads(Path(words[1]).read_text(encoding='utf-8')))
    else:
        print(__doc__, file=sys.stderr)
        return 64
    return 0


if __name__ == '__main__':
    sys.exit(main(sys.argv[1:]))
