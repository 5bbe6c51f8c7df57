"""Judges what `finish` prints. Which wires it adds is not determined, so most of its answers cannot be compared: a finished design is
read anew, and it has to be legal, and the design that was handed in but for added wires."""
import re

from . import connection, metal
from .def_text import read_design
from .differences import first_difference
from .grid import FINISH_LIMIT
from .model import Patch, PlacedVia, Segment, numbers_of
from .printer import design_text, text_of
from .router import NetRouter, NotRouted, ground
from .violations import violation_lines
from .words import words_of

# More shapes are not judged.
MOST_SHAPES = 4000000
# A finished design: its text, and how long the added wires are, and how many of them are vias.
FINISHED = re.compile(r'(.*\n)(# length [0-9]+\n# vias [0-9]+\n)', re.DOTALL)


class Wrong(Exception):
    """What is wrong with an output, in words."""


def wrong_with(design, text, status):
    """Returns in words what is wrong with this output of finish for a design, or None."""
    try:
        Judge(design).judge(text, status)
    except Wrong as fault:
        return str(fault)
    return None


class Judge:
    """What is known of a design that is to be finished: its grid and its metal, or the answer if it is refused, and its open nets."""

    def __init__(self, design):
        self.design = design
        self.nets = metal.whole_nets(design)
        self.refusal = self.grid = self.obstacles = None
        if len(metal.metal(design)) > MOST_SHAPES:
            self.refusal = ['TOOMANY']
            return
        try:
            self.grid, self.obstacles = ground(design, FINISH_LIMIT)
        except NotRouted as refusal:
            self.refusal = refusal.lines
        self.open_nets = sorted({number for _, number, _ in connection.faults(design)})

    def judge(self, text, status):
        """Raises Wrong unless this may be the output."""
        if self.refusal:
            compare(text_of(self.refusal), 3, text, status)
        elif not self.open_nets:
            compare(design_text(self.design) + text_of(total_lines([])), 0, text, status)
        elif status == 0:
            self.judge_finished(text)
        elif status == 3:
            self.judge_unfinished(text)
        else:
            raise Wrong(f'status {status} in place of 0 or 3')

    def judge_finished(self, text):
        """Raises Wrong unless this is the text of a finished design."""
        parts = FINISHED.fullmatch(text)
        if not parts:
            raise Wrong('its last lines are not those on the length and the vias of the added wires')
        found = read_anew(self.design, parts[1])
        added = self.added_wires(found)
        compare(design_text(found), 0, parts[1], 0)
        faults = violation_lines(found)
        if faults:
            raise Wrong(f'the design is not legal: {faults[0]}')
        off = [wire for wire in added if not is_on_grid(self.grid, wire)]
        if off:
            raise Wrong(f'an added wire is not one of the grid: {off[0]}')
        compare(text_of(total_lines(added)), 0, parts[2], 0)

    def added_wires(self, found):
        """Returns the wires that open nets have beyond their own in a design, or raises Wrong if anything else of it has changed."""
        for field, before, after in zip(found._fields, self.design, found):
            if field != 'nets' and before != after:
                raise Wrong(f'the {field} of the design have changed' if field.endswith('s') else f'the {field} of the design has changed')
        if len(found.nets) != len(self.design.nets):
            raise Wrong(f'there are {len(found.nets)} nets in place of {len(self.design.nets)}')
        added = []
        for number, (before, after) in enumerate(zip(self.design.nets, found.nets)):
            own = len(before.wires)
            if after._replace(wires=after.wires[:own]) != before:
                raise Wrong(f'net {before.name} has changed, or its wires from before do not come first')
            if len(after.wires) > own and number not in self.open_nets:
                raise Wrong(f'net {before.name} got wires and is not open')
            added += after.wires[own:]
        return added

    def judge_unfinished(self, text):
        """Raises Wrong unless this says which piece cannot be reached, or, if there is none, which open nets are unfinished."""
        piece = self.first_unreachable()
        if piece:
            compare(f'UNREACHABLE {piece}\n', 3, text, 3)
            return
        names = [line[len('UNFINISHED '):] for line in text.split('\n') if line.startswith('UNFINISHED ')]
        compare(text_of([*(f'UNFINISHED {name}' for name in names), f'unfinished {len(names)}']), 3, text, 3)
        self.judge_names(names)

    def judge_names(self, names):
        """Raises Wrong unless nets of these names may be those that are unfinished."""
        by_name = numbers_of(self.design.nets)
        numbers = [by_name.get(name, -1) for name in names]
        closed = [name for name, number in zip(names, numbers) if number not in self.open_nets]
        if closed:
            raise Wrong(f'net {closed[0]} is unfinished and not open')
        if not numbers or numbers != sorted(set(numbers)):
            raise Wrong('the nets that are unfinished are none, or not in their order')

    def router(self, number):
        """Returns what finds walks for a net in the design that was handed in."""
        return NetRouter(self.design, self.grid, self.obstacles, number, self.nets[number])

    def first_unreachable(self):
        """Returns the net and the piece, in words, of the first piece from which no open walk leads, or None."""
        for number in self.open_nets:
            net, router = self.nets[number], self.router(number)
            for group in connection.groups(router.parts):
                if router.shortest_walk(group) is None:
                    return f'{net.name} {connection.piece_words(self.design, net, min(group))}'
        return None


def compare(wanted, wanted_status, text, status):
    """Raises Wrong unless a text and a status are the wanted ones."""
    if status != wanted_status:
        raise Wrong(f'status {status} in place of {wanted_status}')
    if text != wanted:
        raise Wrong(first_difference(wanted, text))


def read_anew(design, text):
    """Returns the design that a printed text denotes under the library of this one, or raises Wrong."""
    # (a name that ends with a semicolon is printed unchanged, and would be read as two words; only that of the design may be one here)
    line = f'\nDESIGN {design.name} ;\n'
    if line not in text:
        raise Wrong('there is no line with the name of the design')
    try:
        return read_design(words_of(text.replace(line, '\nDESIGN any ;\n', 1)), design.library)._replace(name=design.name)
    except Exception as error:  # whatever it is: this text cannot be read
        raise Wrong(f'the design that is printed cannot be read: {error!r}') from error


def length_of(wire):
    """Returns how far the ends of a segment are apart, and 0 for a via or a patch."""
    return abs(wire.end[0] - wire.start[0]) + abs(wire.end[1] - wire.start[1]) if isinstance(wire, Segment) else 0


def total_lines(wires):
    """Returns the lines on how long wires are together and how many are vias."""
    vias = sum(isinstance(wire, PlacedVia) for wire in wires)
    return [f'# length {sum(map(length_of, wires))}', f'# vias {vias}']


def is_on_grid(grid, wire):
    """Whether a wire is one that walks over the grid have."""
    if isinstance(wire, Segment):
        ends = grid.node_at(wire.layer, wire.start), grid.node_at(wire.layer, wire.end)
        across = 1 if grid.is_vertical(grid.levels.index(wire.layer)) else 2
        return None not in ends and ends[0] != ends[1] and ends[0][across] == ends[1][across] and wire == grid.run(*ends)
    if isinstance(wire, Patch):
        node = grid.node_at(wire.layer, wire.point)
        return node is not None and metal.wire_shapes(wire) == grid.node_shapes(node)
    below, above = (grid.node_at(layer, wire.point) for layer in wire.via.joins)
    return below is not None and above is not None and wire == grid.via_at(below, above)
