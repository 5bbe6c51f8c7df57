"""Counts the premises of the statements of specs/ and proofs/.

    for path, line, name, count in crowded(texts, most):     `texts` has the text of each .antt by its path

A premise is what stands left of an arrow and is no plain data: an equality, a comparison, or a definition or record that says something of
values. Numbers, lists, values of types, functions that give such, and types are plain data. What the parameters of a module say stands once,
at its head, for all that the module states, and is not counted.
"""
import re

TOKEN = re.compile(r"[(){}\[\];,]|[^\s(){}\[\];,]+")
COMMENT = re.compile(r"(?:^|\s)--(?: .*)?$")
MODULE = re.compile(r"(?:pub )?module \S+(.*) where$")
BLOCK = re.compile(r"(?:(?:pub|abbrev|unfoldable|opaque) )*(?:record|data) (\S+)(.*)$")
STATEMENT = re.compile(r"(?:(?:pub|abbrev|unfoldable|opaque) )*([^\s(){}\[\];,.:]+) :(?: (.*))?$")
# What relates two values, and the words of std that say something of values.
RELATIONS = {"≡", "≢", "≤", "<", "≤ℤ", "<ℤ", "↔", "¬", "⊥"}
OF_STD = re.compile(r"(?:Is|Are|Has|All|Can|Contains|Decides|Do|Fits|For|Gives|Holds|If|Match|No|Ok|On|Same|Some|Err|Updates|Yields)(?=[A-Z]|$)")
OPENS, CLOSES = {"(", "{", "["}, {")", "}", "]"}


def depth(line):
    return len(line) - len(line.lstrip(" "))


def outer(tokens):
    """Returns the tokens that stand in no brackets, and the outermost brackets."""
    level, found = 0, []
    for token in tokens:
        level -= token in CLOSES
        found += [token] if not level else []
        level += token in OPENS
    return found


def parts_at(tokens, mark):
    """Returns the parts of the tokens between the marks that stand in no brackets."""
    parts, level = [[]], 0
    for token in tokens:
        level += (token in OPENS) - (token in CLOSES)
        if token == mark and not level:
            parts.append([])
        else:
            parts[-1].append(token)
    return parts


def binders_of(tokens):
    """Returns the tokens as binders, each as its names and its type; none where they are something else."""
    found = []
    while tokens:
        level = 0
        for end, token in enumerate(tokens):
            level += (token in OPENS) - (token in CLOSES)
            if not level:
                break
        names, *types = parts_at(tokens[1:end], ":")
        if tokens[0] not in ("(", "{") or not types or OPENS & set(names):
            return []
        found.append((names, tokens[len(names) + 2:end]))
        tokens = tokens[end + 1:]
    return found


def gives_type(tokens):
    """Whether this is the type of a type, or of what gives one."""
    return parts_at(tokens, "→")[-1][:1] == ["Type"]


class Statement:
    """A statement: where it stands, its name, the parameters of the modules around it, and its type; of a record its parameters, and its
    type behind a colon."""

    def __init__(self, path, line, name, around, tokens, is_record):
        self.path, self.line, self.name = path, line, name
        self.around, self.tokens, self.is_record = around, tokens, is_record

    def left(self):
        """Returns what stands left of the arrows, each with its names; one empty name where it has none."""
        return [it for part in parts_at(self.tokens, "→")[:-1] for it in binders_of(part) or [([""], part)]]

    def says_something(self):
        """Whether it makes propositions of values: a record, or what gives a type, that takes more than types; None where it makes none."""
        if self.is_record:
            own, *types = parts_at(self.tokens, ":")
            taken = [kind for _, kind in binders_of(self.around + own)] + [part for it in types for part in parts_at(it, "→")[:-1]]
        else:
            taken = [kind for _, kind in self.left()]
        return any(kind[:1] != ["Type"] for kind in taken) if self.is_record or gives_type(self.tokens) else None


def statements(path, text):
    """Yields the statements of a file, its records and kinds of data among them, but not those that are the parts of a proof."""
    lines = [COMMENT.sub("", line) for line in text.split("\n")]
    modules, blocks = [], []
    for at, line in enumerate(lines):
        words = line.strip()
        while words and modules and depth(line) <= modules[-1][0]:
            modules.pop()
        while words and blocks and depth(line) <= blocks[-1]:
            blocks.pop()
        around, block, stated = [token for _, tokens in modules for token in tokens], BLOCK.match(words), STATEMENT.match(words)
        if re.match(r"(?:pub )?module ", words):
            modules.append((depth(line), TOKEN.findall(MODULE.match(whole(lines, at))[1])))
        elif block:
            yield Statement(path, at + 1, block[1], around, TOKEN.findall(BLOCK.match(whole(lines, at))[2].partition(" where")[0]), True)
            blocks.append(depth(line))
        elif stated and not blocks and depth(line) == (modules[-1][0] + 2 if modules else 0):
            yield Statement(path, at + 1, stated[1], around, TOKEN.findall(STATEMENT.match(whole(lines, at))[2] or ""), False)


def whole(lines, at):
    """Returns what begins in this line as one line: the head of a module up to its `where`, or a statement with the lines that stand further
    right behind it."""
    found = [lines[at].strip()]
    is_module = re.match(r"(?:pub )?module ", found[0])
    for line in lines[at + 1:]:
        if found[-1].endswith(" where") if is_module else not line.strip() or depth(line) <= depth(lines[at]):
            break
        found.append(line.strip())
    return " ".join(found)


class Words:
    """Which words say something of values, by the definitions of all files."""

    def __init__(self, found):
        self.says = {}
        for statement in found:
            told = statement.says_something()
            if told is not None:
                self.says[statement.name] = told or self.says.get(statement.name, False)

    def is_premise(self, tokens, variables):
        """Whether a type is a premise. The variables are those around it: whether each gives types."""
        *_, last = parts_at(tokens, "→")
        if last != tokens:
            return not gives_type(last) and self.is_premise(last, variables)
        words = outer(tokens)
        for mark in ("×", "⊎"):
            if mark in words:
                return any(self.is_premise(part, variables) for part in parts_at(tokens, mark) if not binders_of(part))
        if words == ["(", ")"]:
            return self.is_premise(tokens[1:-1], variables)
        head = tokens[0].rpartition(".")[2] if tokens else ""
        said = self.says.get(head, bool(OF_STD.match(head)) and len(tokens) > 1)
        return bool(RELATIONS & set(words)) or variables.get(head, said)

    def premises(self, statement):
        """Returns how many premises a statement has."""
        variables = {name: gives_type(kind) and kind[:1] != ["Type"] for names, kind in binders_of(statement.around) for name in names}
        count = 0
        for names, kind in statement.left():
            variables.update((name, gives_type(kind) and kind[:1] != ["Type"]) for name in names)
            count += len(names) * self.is_premise(kind, variables)
        return count


def crowded(texts, most):
    """Yields the path, the line, the name and the number of premises of each statement that has more than so many."""
    found = [it for path, text in texts.items() for it in statements(path, text)]
    words = Words(found)
    for statement in found:
        count = 0 if statement.is_record else words.premises(statement)
        if count > most:
            yield statement.path, statement.line, statement.name, count
