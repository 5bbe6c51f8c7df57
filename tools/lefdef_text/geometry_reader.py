"""Reading the shapes of ports and of obstructions of LEF texts (docs/FORMATS.md, "Sites and macros")."""
from .lef_blocks import BlockReader
from .rects import grown, moved, ordered
from .words import GREATEST_LENGTH, millionths_of

# How many rectangles the copies of one statement have at the most.
MOST_COPIED = 4_000_000


class Drawing:
    """The rectangles that statements have drawn so far, the layer of the next one, and the width of paths on it where WIDTH gives one."""

    def __init__(self):
        self.layer, self.width, self.shapes = None, None, []
        self.why_not_good = None

    def go_to(self, layer):
        """Goes to a layer, of which WIDTH says nothing yet."""
        self.layer, self.width = layer, None

    def width_of_paths(self):
        """Returns the width of paths on the layer: that of WIDTH, or else that of the layer's wires; None where there is neither."""
        return self.layer.width if self.width is None else self.width


def lines_of(points):
    """Returns the lines of a path through points, each as its two points: a path of one point has a line to the point itself."""
    return list(zip(points, points[1:] or points))


class GeometryReader(BlockReader):
    """Reads geometries of a LEF text, under a library."""

    def point(self):
        """Takes two lengths, in parentheses or without."""
        text = self.text
        return text.point(text.length) if text.peek() == '(' else (text.length(), text.length())

    def geometry(self, block):
        """Takes the geometry of a port or of obstructions, with its END, and returns its rectangles on layers with metal."""
        drawing = Drawing()
        self.statements(lambda word: self.geometry_statement(word, block, drawing))
        return drawing.shapes

    def geometry_statement(self, word, block, drawing):
        text, begin = self.text, self.text.at - 1
        if word == 'LAYER':
            drawing.go_to(self.geometry_layer(block))
        elif word not in ('RECT', 'WIDTH', 'CLASS', 'POLYGON', 'PATH', 'VIA'):
            text.unexpected('a form of a geometry')
        elif word == 'WIDTH' and self.profile.is_wide:
            drawing.width = self.written_width()
        elif word in ('WIDTH', 'CLASS'):
            self.skip(block, word)
        elif drawing.layer and not drawing.layer.has_metal():
            text.skip_statement()
            text.past(f'{block} {word} on a layer without metal', begin)
        elif word == 'VIA' and self.profile.is_wide:
            self.placed_via(drawing)
        elif word != 'RECT' and not self.profile.is_wide:
            text.refuse(f'{word} in a geometry is not supported', kind='Unsupported')
        elif not drawing.layer:
            text.refuse(f'{word} comes before any LAYER')
        elif word == 'PATH':
            self.path_of_geometry(drawing)
        else:
            self.plain_mask(word, may_be_copied=self.profile.is_wide)
            is_copied = self.is_copied()
            rects = [text.corners(self.point)] if word == 'RECT' else self.polygon(begin)
            shapes = [(drawing.layer.name, rect) for rect in rects]
            drawing.shapes += self.copies(shapes, begin) if is_copied else shapes
            text.expect(';')

    def plain_mask(self, word, may_be_copied):
        """Takes a mask behind the word of a shape, where masks have no effect, and refuses another one, and copies that may not be."""
        text = self.text
        self.skip_mask()
        if text.peek() == 'MASK' or text.peek() == 'ITERATE' and not may_be_copied:
            text.refuse(f'{word} {text.peek()} is not supported', text.at, 'Unsupported')

    def is_copied(self):
        """Takes ITERATE, if it comes next, and returns whether it does."""
        if self.text.peek() != 'ITERATE':
            return False
        self.text.take()
        return True

    def copies(self, shapes, begin):
        """Takes DO n BY m STEP x y, and returns so many copies of shapes, row by row, of a statement whose word is the word number `begin`."""
        text = self.text
        text.expect('DO')
        columns_at = text.at
        columns = self.count_of_copies()
        text.expect('BY')
        rows = self.count_of_copies()
        text.expect('STEP')
        across, up = text.length(), text.length()
        if columns * rows * len(shapes) > MOST_COPIED:
            text.fault(f'there are more than {MOST_COPIED:,} rectangles of copies', columns_at, 'TooMany')
            return []
        ways = [(column * across, row * up) for row in range(rows) for column in range(columns)]
        return self.in_reach([(layer, moved(rect, *way)) for way in ways for layer, rect in shapes], begin)

    def count_of_copies(self):
        """Takes a number of columns or rows, at least 1."""
        if (count := self.text.whole()) < 1:
            self.text.refuse('there is no copy', kind='TooLarge')
        return count

    def in_reach(self, shapes, begin):
        """Returns shapes, or refuses those beyond the limit of lengths."""
        if any(max(map(abs, rect)) > GREATEST_LENGTH for _, rect in shapes):
            self.text.fault('a copy is beyond 2,000 metres', begin, 'TooLarge')
        return shapes

    def placed_via(self, drawing):
        """Takes a VIA behind its word: a point and a good via, or copies of it."""
        text, begin = self.text, self.text.at - 1
        is_copied = self.is_copied()
        self.plain_mask('VIA', may_be_copied=True)
        x, y = self.point()
        via = self.known('via', self.library.vias)
        if not via.is_good():
            self.bad_via_of_geometry(via)
        shapes = self.in_reach([(layer, moved(rect, x, y)) for layer, rect in via.shapes], begin)
        drawing.shapes += self.copies(shapes, begin) if is_copied else shapes
        text.expect(';')

    def bad_via_of_geometry(self, via):
        """Refuses the word that was taken last, the name of a via that is not good."""
        self.text.fault(f'via {via.name} does not join two routing layers', kind='BadVia', form='a via does not join two routing layers')

    def written_width(self):
        """Takes a WIDTH behind its word, and returns the width that it gives paths: where it is malformed 0, a width that no path has."""
        words = self.text.statement()
        width = millionths_of(words[0]) if words else None
        return width if width is not None and 0 < width <= GREATEST_LENGTH else 0

    def path_of_geometry(self, drawing):
        """Takes a PATH behind its word, and draws the rectangles of its lines."""
        text, begin = self.text, self.text.at - 1
        half = self.half_of_path(drawing)
        self.plain_mask('PATH', may_be_copied=False)
        points = [self.point()]
        while text.peek() != ';':
            points.append(self.point())
        text.take()
        drawing.shapes += [(drawing.layer.name, rect) for rect in self.rects_of_path(lines_of(points), half, begin)]

    def half_of_path(self, drawing):
        """Returns half the width of a path, whose word was taken last."""
        width = drawing.width_of_paths()
        if width is None:
            self.text.refuse('PATH on a cut layer without a WIDTH is not supported', kind='Unsupported')
        if width == 0:
            self.text.refuse('PATH behind a WIDTH that is no length above 0 is not supported', kind='Unsupported')
        if width % 2:
            self.text.refuse('PATH of an odd width is not supported', kind='Unsupported')
        return width // 2

    def rects_of_path(self, lines, half, begin):
        """Returns the rectangles that reach this far around the lines of a path, whose word is the word number `begin`."""
        rects = [grown(ordered(*p, *q), half) for p, q in lines]
        if any(x != xb and y != yb for (x, y), (xb, yb) in lines):
            self.text.refuse('PATH with a slanted line is not supported', begin, 'Unsupported')
        if any(max(map(abs, rect)) > GREATEST_LENGTH for rect in rects):
            self.text.refuse('PATH beyond 2,000 metres is not supported', begin, 'Unsupported')
        return rects

    def polygon(self, begin):
        """Takes the points of a polygon, whose word is the word number `begin`, and returns its slabs."""
        text, points = self.text, []
        while text.peek() not in (';', 'DO'):
            points.append(self.point())
        return self.slabs(points, begin)

    def geometry_layer(self, block):
        """Takes a LAYER statement of a geometry; the words after the name are read past."""
        text = self.text
        layer, begin = self.known('layer', self.library.layers), text.at
        while text.peek() != ';':
            if text.word('a word').upper() == 'EXCEPTPGNET' and not self.profile.is_wide:
                text.fault('EXCEPTPGNET is not supported', kind='Unsupported')
        if text.at > begin:
            text.past(f'{block} LAYER {text.words[begin].upper()}', begin)
        text.expect(';')
        return layer
