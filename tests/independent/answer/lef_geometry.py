"""Reads the geometries of a LEF: the shapes of ports and of obstructions."""
from . import geometry
from .model import Library, numbers_of
from .path import rectangles_of, width_in
from .polygon import slabs_of
from .words import NotRead, millionths

# How many rectangles the copies of one statement of a geometry have at the most.
MOST_COPIED = 4000000


class NotOnUnit(NotRead):
    """A length is not a whole number of database units: no macro is dropped for it."""


class GeometryReader:
    """Reads lengths and geometries over a library that grows."""

    def __init__(self, units, profile):
        self.units = units
        self.profile = profile
        self.library = Library([], [], [], [], {})

    def length(self, word):
        """Returns a length of the text in database units."""
        return self.in_units(millionths(word))

    def in_units(self, length):
        """Returns so many millionths of a micron in database units."""
        units, rest = divmod(length * self.units, 10 ** 6)
        if rest:
            raise NotOnUnit(f'{length} millionths are not a whole number of database units')
        return units

    def point(self, text, length=None):
        """Reads `len len` or `( len len )`, each length by a function: in database units, if none is given."""
        length = length or self.length
        if text.takes('('):
            point = length(text.next()), length(text.next())
            text.expect(')')
            return point
        return length(text.next()), length(text.next())

    def layer_number(self, name):
        """Returns the number of the layer with this name."""
        return number_of(self.library.layers, name)

    def read_geometry(self, text):
        """Reads a geometry up to its END, and returns its shapes on layers with metal."""
        shapes, layer, width = [], None, None
        while not text.takes('END'):
            word = text.keyword()
            if word == 'LAYER':
                layer, width = self.geometry_layer(text), None
            elif word == 'WIDTH':
                width = width_in(text.statement())
            elif word == 'CLASS' or layer is not None and not self.library.layers[layer].has_metal():
                text.statement()
            elif word == 'RECT' and layer is not None:
                shapes += [(layer, rect) for rect in self.rectangles(text)]
            elif word == 'POLYGON' and layer is not None and self.profile.wide:
                shapes += [(layer, rect) for rect in self.polygon(text)]
            elif word == 'PATH' and layer is not None and self.profile.wide:
                shapes += [(layer, rect) for rect in self.path(text, self.width_of_layer(layer) if width is None else width)]
            elif word == 'VIA' and self.profile.wide:
                shapes += self.via_shapes(text)
            else:
                raise NotRead(f'a geometry has {word}')
        return shapes

    def geometry_layer(self, text):
        """Reads a LAYER of a geometry behind its first word, and returns the number of the layer."""
        name, *rest = text.statement()
        if 'EXCEPTPGNET' in [word.upper() for word in rest] and not self.profile.wide:
            raise NotRead('a shape does not keep out power and ground')
        return self.layer_number(name)

    def skip_mask(self, text):
        """Goes past a mask if masks are dropped, and returns whether there was one."""
        if not self.profile.drops_masks or not text.takes('MASK'):
            return False
        text.whole_number()
        return True

    def rectangles(self, text):
        """Reads a rectangle, or one that is repeated, and the semicolon behind it."""
        self.skip_mask(text)
        is_repeated = self.profile.wide and text.takes('ITERATE')
        rect = geometry.between(self.point(text), self.point(text))
        return [copy for copy, in self.copies([rect], text, is_repeated)]

    def copies(self, rects, text, is_repeated):
        """Returns each copy of some rectangles, a list of rectangles, by the steps that come next if they are repeated, and takes the semicolon."""
        steps = self.read_steps(text, len(rects)) if is_repeated else [(0, 0)]
        text.expect(';')
        return [[geometry.moved(rect, by) for rect in rects] for by in steps]

    def read_steps(self, text, count):
        """Reads how often so many rectangles are repeated, and returns by what each copy is moved."""
        text.expect('DO')
        columns = text.whole_number()
        text.expect('BY')
        rows = text.whole_number()
        text.expect('STEP')
        across, up = self.length(text.next()), self.length(text.next())
        if columns < 1 or rows < 1 or columns * rows * count > MOST_COPIED:
            raise NotRead('a shape is repeated too often')
        return [(column * across, row * up) for row in range(rows) for column in range(columns)]

    def points(self, text):
        """Reads the points of a polygon, in millionths of a micron."""
        points = []
        while text.peek() not in (';', 'DO'):
            points.append(self.point(text, millionths))
        return points

    def polygon(self, text):
        """Reads a polygon, or one that is repeated, and the semicolon behind it, and returns its slabs in database units."""
        self.skip_mask(text)
        is_repeated = text.takes('ITERATE')
        slabs = [tuple(self.in_units(it) for it in slab) for slab in slabs_of(self.points(text))]
        return [rect for copy in self.copies(slabs, text, is_repeated) for rect in copy]

    def width_of_layer(self, number):
        """Returns the width of the wires of a layer in millionths of a micron, or None if it has none."""
        layer = self.library.layers[number]
        return layer.width * 10 ** 6 // self.units if layer.routes() else None

    def path(self, text, width):
        """Reads a path of a width, or of None if there is none, and the semicolon behind it, and returns its rectangles in database units."""
        self.skip_mask(text)
        rects = rectangles_of(self.points(text), width)
        text.expect(';')
        return [tuple(self.in_units(side) for side in rect) for rect in rects]

    def via_shapes(self, text):
        """Reads a point and a good via, or one that is repeated, and returns its shapes there."""
        is_repeated = text.takes('ITERATE')
        self.skip_mask(text)
        by, name = self.point(text), text.next()
        via = self.library.vias[number_of(self.library.vias, name)]
        if not via.joins:
            raise NotRead(f'{name} is not good')
        layers, rects = zip(*via.shapes)
        placed = [geometry.moved(rect, by) for rect in rects]
        return [shape for copy in self.copies(placed, text, is_repeated) for shape in zip(layers, copy)]


def number_of(items, name):
    """Returns the number of the item with this name."""
    numbers = numbers_of(items)
    if name not in numbers:
        raise NotRead(f'nothing is named {name}')
    return numbers[name]
