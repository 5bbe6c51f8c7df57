"""The answer to a command: what is printed, and the exit status."""
from . import finisher, placement
from .legaliser import NotLegalised, legalised
from .printer import design_text, text_of
from .router import NotRouted, routed
from .violations import violation_lines
from .wirelength import wirelength


def violations(lines):
    """Returns the answer that lists violations."""
    return (text_of([*lines, f'violations {len(lines)}']), 1) if lines else ('legal\n', 0)


def check(design):
    """Returns the answer to check."""
    return violations(violation_lines(design))


def place_check(design):
    """Returns the answer to place-check."""
    return violations(placement.fault_lines(design, placement.faults(design)))


def measure(design):
    """Returns the answer to measure."""
    return f'hpwl {wirelength(design)}\n', 0


def print_design(design):
    """Returns the answer to print."""
    return design_text(design), 0


def move_lines(design, distances):
    """Returns the lines on how far components have moved."""
    moves = [f'# move {it.name} {distance}' for it, distance in zip(design.components, distances) if distance]
    return [*moves, f'# total {sum(distances)}', f'# greatest {max(distances, default=0)}']


def legalise(design):
    """Returns the answer to legalise."""
    try:
        found, distances = legalised(design)
    except NotLegalised as refusal:
        return text_of(refusal.lines), 3
    return design_text(found) + text_of(move_lines(found, distances)), 0


def route(design):
    """Returns the answer to route."""
    try:
        return design_text(routed(design)), 0
    except NotRouted as refusal:
        return text_of(refusal.lines), 3


def flow(design):
    """Returns the answer to flow."""
    try:
        found, distances = legalised(design)
        return design_text(routed(found)) + text_of(move_lines(found, distances)), 0
    except (NotLegalised, NotRouted) as refusal:
        return text_of(refusal.lines), 3


COMMANDS = {'check': check, 'place-check': place_check, 'measure': measure, 'print': print_design, 'legalise': legalise, 'route': route,
            'flow': flow}
# For each command whose answer is not determined: what is wrong with an output and a status for a design, in words, or None.
JUDGES = {'finish': finisher.wrong_with}
