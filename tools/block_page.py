"""A page for a browser that shows a block: one file, with the data, the style and the script in it.

What the page is made of stands in the folder `page`; the comment at the top of `page/block.js` says what the data is.
"""
import base64
import json
import os
import re
import sys
from array import array
from itertools import chain

from block_picture import colours_of
from lefdef_text import ORIENTATIONS, Words
from violation_marks import KINDS, count_of, xml_text

FOLDER = os.path.join(os.path.dirname(os.path.abspath(__file__)), 'page')
SCRIPTS = (
    'loose_grid', 'block', 'dust', 'viewport', 'block_drawing', 'name_room', 'block_labels', 'viewer', 'controls', 'violation_list', 'search', 'switches', 'show_block',
    'start')
STATUSES = ('UNPLACED', 'PLACED', 'FIXED', 'COVER')
ROLES = {role: at for at, role in enumerate(('PIN', 'OBS', 'BLOCKAGE', 'WIRE'))}
OWNERS = {owner: at for at, owner in enumerate(('NET', 'TERM', 'POWER', 'GROUND', 'OBS', 'BLOCKAGE'))}
# What the page has of each shape.
SIDES = ('left', 'lower', 'right', 'upper')
COLUMNS = ('layer', 'role', 'owner', 'net', 'component', 'name', 'isAdded')
GREATEST_INT32 = 2 ** 31 - 1


class Numbers:
    """Numbers for names: the names so far, each once, in the order in which they came."""

    def __init__(self, names=()):
        self.places = {name: at for at, name in enumerate(names)}

    def of(self, name):
        return self.places.setdefault(name, len(self.places))

    def names(self):
        return list(self.places)


def packed(kind, numbers):
    """Returns numbers as the page reads them: bytes in base 64, the lowest byte of a number first; `kind` is u8 or i32, which f64 takes
    the place of where a number is too great."""
    numbers = list(numbers)
    if kind == 'i32' and numbers and not -GREATEST_INT32 <= min(numbers) <= max(numbers) <= GREATEST_INT32:
        kind = 'f64'
    data = array({'u8': 'B', 'i32': 'i', 'f64': 'd'}[kind], numbers)
    if sys.byteorder == 'big':
        data.byteswap()
    return {'type': kind, 'data': base64.b64encode(data.tobytes()).decode('ascii')}


class Changes:
    """What a design has otherwise than the one before it, of the same units: components of another place, and wires."""

    def __init__(self, design, before):
        self.design, self.before = design, before
        self.wires = {(shape.of, shape.layer, shape.rect) for shape in wire_shapes(before)}

    def is_added(self, shape):
        """Returns whether a shape is of a wire of a net that had none of this rectangle on this layer."""
        return shape.role == 'WIRE' and (shape.of, shape.layer, shape.rect) not in self.wires

    def moves(self):
        """Yields the components that stand elsewhere or otherwise than before, each with what it was."""
        for component in self.design.components.values():
            was = self.before.components.get(component.name)
            if was and component.place and component.place != was.place:
                yield component, was


def wire_shapes(design):
    return (shape for shape in design.shapes() if shape.role == 'WIRE')


class PageData:
    """The data of a page, as page/block.js has it."""

    def __init__(self, design, marks, title, changes=None, has_tracks=False):
        self.design, self.marks, self.title, self.changes, self.has_tracks = design, marks, title, changes, has_tracks
        self.layers = [layer for layer in design.library.layers.values() if layer.has_metal()]
        self.layer_numbers = {layer.name: at for at, layer in enumerate(self.layers)}
        self.components, self.macros = Numbers(design.components), Numbers()
        self.nets, self.pins = Numbers([*design.nets, *(name for name in design.special if name not in design.nets)]), Numbers(design.pins)

    def data(self):
        design = self.design
        shapes, components = self.shapes(), self.component_arrays()
        return {
            'title': self.title, 'name': design.name, 'units': design.units, 'die': design.die, 'hasTracks': self.has_tracks,
            'layers': self.layer_list(), 'rows': self.rows(), 'tracks': list(self.tracks()),
            'names': {'components': self.components.names(), 'macros': self.macros.names(), 'nets': self.nets.names(), 'pins': self.pins.names()},
            'components': components, 'placements': [{'number': number, 'box': rect} for number, rect in design.placement_rects()],
            'shapes': shapes, 'violations': self.violations(), 'kinds': self.kinds(), 'moves': self.moves()}

    def layer_list(self):
        colours = colours_of(self.design.library)
        return [{'name': layer.name, 'colour': colours[layer.name], 'isCut': not layer.is_routing(), 'width': layer.width or 0} for layer in self.layers]

    def rows(self):
        sites = self.design.library.sites
        return [{**row._asdict(), 'width': sites[row.site].width, 'height': sites[row.site].height} for row in self.design.rows]

    def tracks(self):
        """Yields tracks for each layer whose direction they have."""
        for tracks in self.design.tracks:
            direction = 'VERTICAL' if tracks.axis == 'X' else 'HORIZONTAL'
            for layer in self.layers:
                if layer.direction == direction and (layer.name in tracks.layers or not tracks.layers):
                    yield {'axis': tracks.axis, 'start': tracks.start, 'step': tracks.step, 'count': tracks.count, 'layer': self.layer_numbers[layer.name]}

    def component_arrays(self):
        components = self.design.components.values()
        boxes = [self.design.box(component) if component.place else (0, 0, 0, 0) for component in components]
        return {
            'sides': packed('i32', (side for box in boxes for side in box)),
            'macro': packed('i32', (self.macros.of(component.macro.name) for component in components)),
            'status': packed('u8', (STATUSES.index(component.status) for component in components)),
            'orientation': packed('u8', (ORIENTATIONS.index(component.place.orientation) if component.place else 0 for component in components))}

    def shapes(self):
        numbers = list(chain.from_iterable(map(self.shape, self.design.shapes())))
        size = len(SIDES) + len(COLUMNS)
        sides = [0] * (len(numbers) // size * len(SIDES))
        for at in range(len(SIDES)):
            sides[at::len(SIDES)] = numbers[at::size]
        kinds = {'net': 'i32', 'component': 'i32', 'name': 'i32', 'layer': 'i32' if len(self.layers) > 255 else 'u8'}
        columns = {name: packed(kinds.get(name, 'u8'), numbers[at::size]) for at, name in enumerate(COLUMNS, len(SIDES))}
        return {'sides': packed('i32', sides), **columns}

    def shape(self, shape):
        """Returns the numbers of a shape: its sides, and the others in the order of COLUMNS."""
        layer, rect, owner, role, of, name = shape
        whose, _, net = owner.partition(' ')
        number = self.pins.of(name) if role == 'PIN' else int(name or 0)
        component = self.components.of(of) if of and role != 'WIRE' else -1
        is_added = self.changes is not None and self.changes.is_added(shape)
        return (*rect, self.layer_numbers[layer], ROLES[role], OWNERS[whose], self.nets.of(net) if whose == 'NET' else -1, component, number, int(is_added))

    def violations(self):
        if self.marks is None:
            return None
        return [{'numbers': mark.numbers, 'kind': mark.violation.kind, 'text': mark.violation.text, 'note': mark.note, 'box': mark.box,
                 'outlines': mark.outlines, 'gap': [*mark.gap[0], *mark.gap[1]] if mark.gap else None} for mark in self.marks]

    def kinds(self):
        present = {mark.violation.kind for mark in self.marks or ()}
        return [{'name': kind, 'meaning': meaning} for kind, meaning in KINDS.items() if kind in present]

    def moves(self):
        if self.changes is None:
            return None
        return [{'component': self.components.of(component.name), 'box': self.changes.before.box(was) if was.place else None,
                 'orientation': was.place.orientation if was.place else ''} for component, was in self.changes.moves()]


def check_before(design, before, path):
    """Refuses a text before that is in other units."""
    if before.units != design.units:
        text = Words(path)
        at = next(at for at, pair in enumerate(zip(text.words, text.words[1:])) if [word.upper() for word in pair] == ['UNITS', 'DISTANCE'])
        text.refuse(f'the units are {before.units} a micron, and those of the block {design.units}', at)


def page_part(name):
    with open(os.path.join(FOLDER, name), encoding='utf-8') as file:
        return file.read()


def json_text(data):
    """Returns data as JSON in ASCII that may stand in a script: no name in it can end the script or begin a comment."""
    text = json.dumps(data, ensure_ascii=True, separators=(',', ':'))
    return text.replace('&', '\\u0026').replace('<', '\\u003c').replace('>', '\\u003e')


def page_text(design, marks, title, changes=None, has_tracks=False):
    """Returns the text of a page; `marks` is None where no list of violations was given."""
    number = None if marks is None else count_of(marks)
    count = '' if number is None else f': {number} violation{"" if number == 1 else "s"}'
    parts = {
        'title': xml_text(f'{title}{count}'), 'style': page_part('view.css').rstrip('\n'),
        'data': json_text(PageData(design, marks, title, changes, has_tracks).data()),
        'script': '\n'.join(["'use strict';", *(page_part(f'{name}.js') for name in SCRIPTS), 'start();'])}
    return re.sub('<!-- (title|style|data|script) -->', lambda found: parts[found[1]], page_part('view.html'))
