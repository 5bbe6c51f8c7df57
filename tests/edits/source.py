"""The functions of a crate's sources: the path of each, as the checker names it, and the lines that it stands on."""
import re
from typing import NamedTuple

HEAD = re.compile(r'^( *)(?:pub(?:\([^)]*\))? )?(?:const )?(?:unsafe )?(?:extern "C" )?fn (\w+)')
TYPE = re.compile(r'^(?:pub(?:\([^)]*\))? )?(?:struct|enum|trait) (\w+)', re.M)
OWNER = re.compile(r'^( *)(?:pub(?:\([^)]*\))? )?(?:unsafe )?(impl|trait)\b(.*)')


class Function(NamedTuple):
    """A function, the file that has it, and the numbers of its first line (an attribute's, where it has some), of the line where its body
    begins, and of its last."""
    path: str
    file: str
    first: int
    body: int
    last: int
    is_public: bool


def module_of(file):
    """Returns the path of the module that this file of src/ is, '' of the crate's root."""
    parts = file[len('src/'):-len('.rt')].split('/')
    return '::'.join(parts[:-1] if parts[-1] in ('lib', 'main', 'mod') else parts)


def without_angles(text):
    """Returns the text without what stands between angle brackets, and what stood between the first of these."""
    kept, inside, depth, first = [], [], 0, True
    for at, letter in enumerate(text):
        is_arrow = letter == '>' and text[at - 1:at] in ('-', '=')
        depth += letter == '<'
        if not depth:
            kept.append(letter)
        elif first:
            inside.append(letter)
        if letter == '>' and not is_arrow:
            depth -= 1
            first = first and depth > 0
    return ''.join(kept), ''.join(inside)[1:-1]


def plain(text, parameters=()):
    """Returns the last word of a type's or a trait's path, and after it those of its arguments that are types, and no parameters."""
    outer, inside = without_angles(text)
    words = re.findall(r'\w+', outer)
    arguments = [] if not inside else [it.strip() for it in without_angles(inside)[0].split(',')]
    types = [it for it in arguments if re.match(r'[A-Z]', it) and it not in parameters]
    return (words[-1] if words else ''), ''.join(re.findall(r'\w+', it)[-1] for it in types)


def owner_of(kind, rest):
    """Returns the name under which the checker has the functions of an impl or a trait: the type's and the trait's."""
    rest = rest.rpartition('{')[0] if rest.rstrip().endswith('{') else rest
    if kind == 'trait':
        return re.findall(r'\w+', rest)[0]
    parameters = []
    if rest.startswith('<'):
        depth = 0
        for at, letter in enumerate(rest):
            depth += (letter == '<') - (letter == '>' and rest[at - 1] not in '-=')
            if not depth:
                parameters = re.findall(r'(?:^|,) *([A-Z]\w*)', rest[1:at])
                rest = rest[at + 1:]
                break
    rest = rest.partition(' where ')[0]
    trait, is_for, of = rest.partition(' for ')
    if not is_for:
        return plain(rest)[0]
    name, arguments = plain(trait, parameters)
    of = plain(of)[0]
    # (an impl for each type that meets a bound is for any type)
    return ('Any' if of in parameters else of) + name + arguments


def end_of(lines, at, indent):
    """Returns the places of the line where the body of the function that begins at this line does, and of its last line."""
    body, depth = None, 0
    for here in range(at, len(lines)):
        line = lines[here]
        depth += line.count('{') - line.count('}')
        closes_head = body is None and (here == at or line.startswith(indent + ')'))
        if line == indent + '{' or closes_head and line.endswith('{'):
            body = here
        # (a declaration in a trait has no body: it ends with its last clause; a record in a clause may have lines of its own)
        is_declared = body is None and not depth and line.endswith(';')
        if line.startswith(indent + '}') or line == indent + '{}' or is_declared or here == at and line.endswith('}'):
            return here if body is None else body, here
    return at, len(lines) - 1


def functions_of(file, text, homes):
    """Returns the functions of a file of src/, in their order; `homes` are the modules of the crate's types. (An impl's own functions
    are named after the module that has the type, wherever the impl stands.)"""
    lines, found, owner, outer = text.split('\n'), [], '', None
    for at, line in enumerate(lines):
        begins = OWNER.match(line)
        if begins and not line.rstrip().endswith('}'):
            outer, owner = begins[1], owner_of(begins[2], begins[3])
        elif outer is not None and line == outer + '}':
            outer, owner = None, ''
        head = HEAD.match(line)
        if head and (not found or found[-1].last <= at):
            body, last = end_of(lines, at, head[1])
            module = homes.get(owner, module_of(file)) if owner else module_of(file)
            path = '::'.join(it for it in (module, owner, head[2]) if it)
            first = at
            while lines[first - 1].strip().startswith('#['):
                first -= 1
            found.append(Function(path, file, first + 1, body + 1, last + 1, line.strip().startswith('pub ')))
    return found


def functions_below(folder):
    """Returns the functions of the crate in this folder, file by file."""
    texts = {str(it.relative_to(folder)): it.read_text(encoding='utf-8') for it in sorted((folder / 'src').rglob('*.rt'))}
    homes = {name: module_of(file) for file, text in texts.items() for name in TYPE.findall(text)}
    return [it for file, text in texts.items() for it in functions_of(file, text, homes)]
