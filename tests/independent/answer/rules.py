"""Reads the nondefault rules of a DEF: the widths of their wires."""
import re

from .generated_via import clauses_of
from .model import numbers_of
from .words import NotRead, whole_number


def rules_of_section(words, layers):
    """Returns the widths of each rule by its name, each by the number of its layer; words are those of the section between its word and its END, and
    of several rules of one name the first counts."""
    rules, numbers = {}, {layer: number for layer, number in numbers_of(layers).items() if layers[number].has_metal()}
    if len(words) < 2 or not re.fullmatch('[+-]?[0-9]+', words[0]) or words[1] != ';' or words[-1] != ';':
        return rules
    entry = []
    for word in words[2:]:
        if word != ';':
            entry.append(word)
            continue
        try:
            name, widths = read_rule(entry, numbers)
            rules.setdefault(name, widths)
        except NotRead:
            pass  # (an entry that is none is left out)
        entry = []
    return rules


def read_rule(words, numbers):
    """Returns the name and the widths of the rule of an entry; numbers has those of layers with metal by their names."""
    if len(words) < 2 or words[0] != '-' or words[2:3] not in ([], ['+']):
        raise NotRead('an entry is no rule')
    widths = {}
    for clause in clauses_of(words[2:]):
        if clause and clause[0].upper() == 'LAYER':
            if len(clause) < 4 or clause[1] not in numbers or clause[2].upper() != 'WIDTH':
                raise NotRead('a clause gives no width')
            number, width = numbers[clause[1]], whole_number(clause[3])
            if number in widths or width < 1:
                raise NotRead('a rule does not tell the width of a layer once')
            widths[number] = width
    return words[1], widths
