"""Where violations lie in a block, and the marker database that KLayout shows with the layout.

A violation of placement lies at the component's box, or at what it shares with another one or with placement blockages; a short
or two shapes too near where the two meet, which is what they share or the gap between them. The open pieces of a net that are joined
to one another have one mark, which lies at the gap over which they are to be joined to the rest of the net.
"""
import math
from typing import List, NamedTuple, Optional, Tuple

from lefdef_text import Rect, Refused, Violation, least_box
from missing_joints import NetGroups, between, squared_distance
from off_sites import Sites

KINDS = {
    'UNPLACED': 'a component has no place',
    'OUTSIDE': 'a part of a component is outside the die',
    'OFFSITE': 'a component is not on consecutive sites of one row that its orientation fits',
    'OVERLAP': 'two components overlap',
    'BLOCKED': 'a component that may be moved stands in a placement blockage',
    'SHORT': 'metal of two owners on one layer shares a point',
    'TOONEAR': 'metal of two owners on one layer is nearer than the spacing of the layer',
    'OPEN': 'a piece of a net is not joined to its first piece',
}

Point = Tuple[int, int]


class Mark(NamedTuple):
    """Violations that lie at one place, by their numbers (from 1), with the first of them; the box where they lie, or None where they have
    no place; what they are between; a line over the gap, where there is one; and a few words. Only open pieces that are joined to one
    another have a mark together."""
    numbers: List[int]
    violation: Violation
    box: Optional[Rect]
    outlines: List[Rect]
    gap: Optional[Tuple[Point, Point]]
    note: str

    @property
    def number(self):
        return self.numbers[0]


def do_overlap(a, b):
    """Returns whether two rectangles share a unit square."""
    return a[0] < b[2] and b[0] < a[2] and a[1] < b[3] and b[1] < a[3]


def nearest_points(a, b):
    """Returns the ends of a shortest line from one rectangle to another."""
    ends = [[], []]
    for low, high in ((0, 2), (1, 3)):
        start, end = max(a[low], b[low]), min(a[high], b[high])
        if start <= end:
            ends[0].append((start + end) // 2)
            ends[1].append((start + end) // 2)
        else:
            ends[0].append(end if a[high] == end else start)
            ends[1].append(start if a[high] == end else end)
    return tuple(ends[0]), tuple(ends[1])


def distance_words(squared):
    """Returns a distance, rounded down to a tenth, so that one below the spacing stays below it."""
    tenths = math.isqrt(100 * squared)
    return f'{tenths // 10}' if tenths % 10 == 0 and tenths * tenths == 100 * squared else f'{tenths // 10}.{tenths % 10}'


class Finder:
    """Finds where the violations of a list lie in the block; a list that isn't of this block is refused at its line."""

    def __init__(self, design, path, violations):
        self.design, self.path, self.violations = design, path, violations
        self.layers = {layer.name: number for number, layer in enumerate(layer for layer in design.library.layers.values() if layer.has_metal())}
        self.sites = Sites(design)

    def marks(self):
        """Returns the marks, by the first numbers of their violations."""
        self.check_shapes()
        find = {'OVERLAP': self.overlap, 'BLOCKED': self.blocked, 'SHORT': self.pair, 'TOONEAR': self.pair}
        marks, nets = [], {}
        for number, violation in enumerate(self.violations, 1):
            if violation.kind == 'OPEN':
                nets.setdefault(violation.names[0], []).append((number, violation))
            else:
                marks.append(Mark([number], violation, *find.get(violation.kind, self.component)(violation)))
        for net, numbered in nets.items():
            marks += self.open_marks(net, numbered)
        return sorted(marks)

    def refuse(self, violation, why):
        raise Refused(self.path, violation.line, f'{why}: is the list that of another block?')

    def named_component(self, violation, name, is_placed=True):
        component = self.design.components.get(name) or self.refuse(violation, f'there is no component {name}')
        if bool(component.place) != is_placed:
            self.refuse(violation, f'component {name} is {"not " if is_placed else ""}placed')
        return component

    def component(self, violation):
        name = violation.names[0]
        if violation.kind == 'UNPLACED':
            self.named_component(violation, name, is_placed=False)
            return None, [], None, f'{name} has no place'
        component = self.named_component(violation, name)
        if violation.kind == 'OUTSIDE':
            return self.design.box(component), [], None, f'{name} is partly outside the die'
        where = self.sites.words(component) or self.refuse(violation, f'{name} is on its sites')
        return self.design.box(component), [], None, where

    def overlap(self, violation):
        a, b = [self.design.box(self.named_component(violation, name)) for name in violation.names]
        box = between(a, b)
        if not do_overlap(a, b):
            self.refuse(violation, 'the two components do not overlap')
        return box, [a, b], None, f'they share {box.x2 - box.x1} by {box.y2 - box.y1}'

    def blocked(self, violation):
        name = violation.names[0]
        component = self.named_component(violation, name)
        box = self.design.box(component)
        rects = [(number, rect) for number, rect in self.design.placement_rects() if do_overlap(box, rect)]
        if not rects or not self.design.is_movable(component):
            self.refuse(violation, f'{name} {"may not be moved" if rects else "is in no placement blockage"}')
        numbers = ', '.join(map(str, sorted({number for number, _ in rects})))
        shared = least_box(between(box, rect) for _, rect in rects)
        return shared, [box, *(rect for _, rect in rects)], None, f'{name} stands in placement blockage {numbers}'

    @staticmethod
    def pair_of(violation):
        """Returns the layer, the owners and the rectangles of a short or of two shapes too near."""
        layer, owner_a, sides_a, owner_b, sides_b = violation.names
        return layer, (owner_a, Rect(*map(int, sides_a.split(' ')))), (owner_b, Rect(*map(int, sides_b.split(' '))))

    def check_shapes(self):
        """Refuses a list that names a shape which the block hasn't."""
        wanted = {}
        for violation in self.violations:
            if violation.kind in ('SHORT', 'TOONEAR'):
                layer, *pair = self.pair_of(violation)
                for owner, rect in pair:
                    wanted.setdefault((layer, rect, owner), violation)
        window = least_box(rect for _, rect, _ in wanted)
        if window:
            for shape in self.design.shapes(window):
                wanted.pop((shape.layer, shape.rect, shape.owner), None)
        for (layer, rect, owner), violation in sorted(wanted.items(), key=lambda item: item[1].line):
            self.refuse(violation, f'there is no metal of {owner} with the sides {" ".join(map(str, rect))} on {layer}')

    def pair(self, violation):
        layer, (_, a), (_, b) = self.pair_of(violation)
        box, squared = between(a, b), squared_distance(a, b)
        spacing = self.design.library.layers[layer].spacing
        if violation.kind == 'SHORT':
            if squared:
                self.refuse(violation, 'the two shapes share no point')
            shared = 'one point' if box.x1 == box.x2 and box.y1 == box.y2 else f'{box.x2 - box.x1} by {box.y2 - box.y1}'
            return box, [a, b], None, f'they share {shared}'
        if not 0 < squared < spacing * spacing:
            self.refuse(violation, f'the two shapes are {distance_words(squared)} apart, and the spacing of {layer} is {spacing}')
        return box, [a, b], nearest_points(a, b), f'{distance_words(squared)} apart, {spacing} wanted'

    def pieces(self, net):
        """Returns the names of the pieces of a net in order, and their metal."""
        design = self.design
        entries = [entries[net] for entries in (design.nets, design.special) if net in entries]
        terminals = {terminal: None for entry in entries for terminal in entry.terminals}
        metal = [[(self.layers[shape.layer], shape.rect) for shape in design.terminal_shapes(terminal)] for terminal in terminals]
        wires = design.wires(net)
        metal += [[(self.layers[layer], rect) for layer, rect in design.wire_rects(wire)] for wire in wires]
        return [*map(' '.join, terminals), *(f'WIRE {number}' for number, _ in enumerate(wires, 1))], metal

    def open_marks(self, net, numbered):
        """Returns the marks of the open pieces of a net: one for those that are joined to one another, and one for each without metal."""
        if net not in self.design.nets:
            self.refuse(numbered[0][1], f'there is no net {net} in NETS')
        names, metal = self.pieces(net)
        # (a component may be named WIRE: then it is the wire that is meant)
        places, groups = {name: at for at, name in enumerate(names)}, NetGroups(metal)
        marks = {}
        for number, violation in numbered:
            name = ' '.join(violation.names[1:])
            at = places[name] if name in places else self.refuse(violation, f'net {net} has no piece {name}')
            if groups.group[at] == groups.group[0]:
                self.refuse(violation, f'{name} is joined to {names[0]}')
            marks.setdefault(groups.group[at], []).append((number, violation))
        joints, whole = groups.joints(), least_box(rect for shapes in metal for _, rect in shapes)
        return [Mark([number for number, _ in found], found[0][1], *joint_parts(joints.get(group), names, groups, group, whole))
                for group, found in marks.items()]


def joint_parts(joint, names, groups, group, whole):
    """Returns what a mark has of the joint that a group of pieces needs, or of a group that has no joint."""
    if joint is None:
        alone = names[group if not groups.has_metal(group) else 0]
        return whole, [], None, f'{alone} has no metal'
    (a, b), near, far = (joint.near.rect(), joint.far.rect()), names[joint.near.piece], names[joint.far.piece]
    where = ' on another layer' if joint.steps else ''
    sides = f'{counted(groups.size(joint.near.piece))} here, {groups.size(joint.far.piece)} there'
    if joint.squared:
        return between(a, b), [a, b], nearest_points(a, b), f'{distance_words(joint.squared)} from {near} to {far}{where}; {sides}'
    meet = f'{near} over {far}{where}' if joint.steps else f'{near} shares one point alone with {far}'
    return between(a, b), [a, b], None, f'{meet}; {sides}'


def counted(pieces):
    return f'{pieces} piece{"" if pieces == 1 else "s"}'


def count_of(marks):
    """Returns how many violations marks have."""
    return sum(len(mark.numbers) for mark in marks)


# The marker database


def xml_text(text):
    """Returns a text as it may stand in XML: what XML can't hold is shown by a question mark in a diamond."""
    text = ''.join(c if c in '\t\n\r' or ' ' <= c <= '\ud7ff' or '\ue000' <= c <= '\ufffd' or c >= '\U00010000' else '\ufffd' for c in text)
    return text.replace('&', '&amp;').replace('<', '&lt;').replace('>', '&gt;').replace('"', '&quot;')


def quoted(text):
    """Returns a text as a value of KLayout's marker database."""
    return "'" + text.replace('\\', '\\\\').replace("'", "\\'") + "'"


def microns(number, units):
    """Returns a number of database units in microns, to the last decimal that counts."""
    return f'{number / units:.9f}'.rstrip('0').rstrip('.') if number else '0'


def marker_database(design, marks, original):
    """Returns the text of a marker database: a category for each kind of violation, and an item for each violation."""
    def point(x, y):
        return f'{microns(x, design.units)},{microns(y, design.units)}'

    lines = ['<?xml version="1.0" encoding="utf-8"?>', '<report-database>', f' <description>Violations of {xml_text(design.name)}</description>',
             f' <original-file>{xml_text(original)}</original-file>', ' <generator>lefdef: tools/view</generator>',
             f' <top-cell>{xml_text(design.name)}</top-cell>', ' <tags>', ' </tags>', ' <categories>']
    for kind, meaning in KINDS.items():
        if any(mark.violation.kind == kind for mark in marks):
            lines += ['  <category>', f'   <name>{kind}</name>', f'   <description>{meaning}</description>', '   <categories>', '   </categories>',
                      '  </category>']
    lines += [' </categories>', ' <cells>', '  <cell>', f'   <name>{xml_text(design.name)}</name>', '   <variant/>', '   <references>',
              '   </references>', '  </cell>', ' </cells>', ' <items>']
    for mark in marks:
        values = []
        if mark.box:
            values.append(f'box: ({point(*mark.box[:2])};{point(*mark.box[2:])})')
        if mark.gap:
            values.append(f'edge: ({point(*mark.gap[0])};{point(*mark.gap[1])})')
        values += [f'text: {quoted(mark.violation.text)}', f'text: {quoted(mark.note)}']
        lines += ['  <item>', '   <tags/>', f'   <category>{mark.violation.kind}</category>', f'   <cell>{xml_text(design.name)}</cell>',
                  '   <visited>false</visited>', '   <multiplicity>1</multiplicity>', '   <image/>', '   <values>']
        lines += [f'    <value>{xml_text(value)}</value>' for value in values]
        lines += ['   </values>', '  </item>']
    return '\n'.join(lines + [' </items>', '</report-database>', ''])
