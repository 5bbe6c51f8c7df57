"""A picture of a block, or of a window of it, as SVG.

Metal is drawn in database units, with y upwards, in one group for each layer from the bottom up; that group of groups is moved
and scaled to the page. Names, axes and the key are drawn on the page.
"""
from lefdef_text import Rect, TURNS, grown, least_box, meets
from picture_names import HALO, LEFT, LONG, TOP, MarkNumbers, Names, View, number
from violation_marks import xml_text

# The usual colours of routing layers, from the lowest one up: blue, red, green, yellow, orange, purple, cyan, brown.
LAYER_COLOURS = ('#2457d6', '#d62222', '#1f9a3c', '#c9a400', '#e8771a', '#8a3fc4', '#149fb5', '#7a5230')
CUT_COLOUR = '#222222'
MARK_COLOUR = '#e6007e'
PLACEMENT_COLOUR = '#8a6d3b'
MOVABLE_COLOUR, FIXED_COLOUR, ROW_COLOUR, SITE_COLOUR = '#fbf7e6', '#e4e4e4', '#eaf0f6', '#b8c6d4'
WIDEST, HIGHEST = 900, 640
BOTTOM = 44
LINE, KEY_LINE = 18, 21
# How opaque the metal of each role is, in the order in which it is drawn; obstructions are hatched, and blockages the other way.
ROLES = {'OBS': 1, 'BLOCKAGE': 1, 'PIN': 0.6, 'WIRE': 0.42}
MOST_DETAILED = 20_000
MOST_LISTED = 40
# Above the first number of marks they are thin lines; above the second, squares of the page are numbered in place of each mark.
MOST_DETAILED_MARKS, MOST_NUMBERED = 60, 200
# (readers of XML refuse a path of some megabytes)
MOST_IN_PATH = 1_000
FONT = 'font-family="Helvetica, Arial, sans-serif"'


def whole_window(design):
    """Returns the window of the whole block: the die, what stands outside it, and a margin."""
    boxes = [design.box(component) for component in design.components.values() if component.place]
    box = least_box([design.die, *boxes, *(rect for _, rect in design.placement_rects()), *(shape.rect for shape in design.shapes())])
    return grown(box, max(max(box.x2 - box.x1, box.y2 - box.y1) // 24, 1))


def window_around(design, box, margin=None):
    """Returns the window around a box: so much of the block that what it stands among is seen."""
    width, height = box.x2 - box.x1, box.y2 - box.y1
    if margin is None:
        widths = [layer.width for layer in design.library.layers.values() if layer.width]
        margin = max(5 * widths[0] if widths else 1, max(width, height) // 2)
    lack = max(width, height) * 2 // 3 - min(width, height)
    wider = max(lack // 2, 0)
    return Rect(box.x1 - margin - (wider if width < height else 0), box.y1 - margin - (wider if height < width else 0),
                box.x2 + margin + (wider if width < height else 0), box.y2 + margin + (wider if height < width else 0))


def colours_of(library):
    """Returns a colour for each layer with metal."""
    routing = [layer.name for layer in library.routing()]
    return {layer.name: LAYER_COLOURS[routing.index(layer.name) % len(LAYER_COLOURS)] if layer.is_routing() else CUT_COLOUR
            for layer in library.layers.values() if layer.has_metal()}


def rect_element(rect, attributes, title=None):
    inside = f'><title>{xml_text(title)}</title></rect>' if title else '/>'
    return f'<rect x="{rect.x1}" y="{rect.y1}" width="{rect.x2 - rect.x1}" height="{rect.y2 - rect.y1}"{attributes}{inside}'


def paths(attributes, lines):
    """Yields paths of many lines, each of a limited length."""
    lines = list(lines)
    for at in range(0, len(lines), MOST_IN_PATH):
        yield f'<path{attributes} d="{"".join(lines[at:at + MOST_IN_PATH])}"/>'


def outline(r):
    """Returns the line round a rectangle."""
    return f'M{r[0]} {r[1]}h{r[2] - r[0]}v{r[3] - r[1]}H{r[0]}z'


class Picture:
    """The picture of a design in a window, with the marks of violations."""

    def __init__(self, design, window, marks, title, chosen=None, has_tracks=False):
        self.design, self.marks, self.title, self.chosen, self.has_tracks = design, marks, title, chosen, has_tracks
        scale = min(WIDEST / (window.x2 - window.x1), HIGHEST / (window.y2 - window.y1))
        self.view = View(window, scale)
        self.shapes = list(design.shapes(window))
        self.components = [component for component in design.components.values() if component.place and meets(design.box(component), window)]
        self.placement_rects = [(of, rect) for of, rect in design.placement_rects() if meets(rect, window)]
        self.is_detailed = len(self.shapes) + len(self.components) + len(self.placement_rects) <= MOST_DETAILED
        self.colours = colours_of(design.library)
        present = {(shape.layer, shape.role) for shape in self.shapes}
        self.drawn = [name for name in self.colours if any((name, role) in present for role in ROLES)]
        self.hatched = [(name, role) for name in self.drawn for role in ('OBS', 'BLOCKAGE') if (name, role) in present]
        self.seen = [mark for mark in marks if mark.box and meets(mark.box, window) or not mark.box and chosen in (None, mark.number)]

    def text(self):
        view = self.view
        listed = self.violation_lines()
        caption = max([len(line) for line in listed], default=0) * 7.3 + 2 * LINE
        entries = self.key_entries()
        room = 16 + 29 + max([len(text) for _, text in entries], default=0) * 8 + 16
        width = max(LEFT + view.width() + room, caption, len(self.title) * 9 + LEFT)
        foot = TOP + max(view.height() + BOTTOM, KEY_LINE * len(entries))
        height = foot + (len(listed) + 1) * LINE * bool(listed)
        lines = [f'<svg xmlns="http://www.w3.org/2000/svg" width="{width:.0f}" height="{height:.0f}" viewBox="0 0 {width:.0f} {height:.0f}" {FONT}>',
                 f'<title>{xml_text(self.title)}</title>', '<defs>',
                 f'<clipPath id="window">{rect_element(view.window, "")}</clipPath>', *self.hatches(), '</defs>',
                 '<rect width="100%" height="100%" fill="#ffffff"/>',
                 f'<text x="{LEFT}" y="{TOP - 16}" font-size="15" font-weight="bold" fill="#222222">{xml_text(self.title)}</text>',
                 f'<g id="block" transform="translate({number(view.x(0))} {number(view.y(0))}) scale({view.scale:.9g} {-view.scale:.9g})" clip-path="url(#window)">',
                 *self.floor(), *self.metal(), *self.mark_shapes(), '</g>',
                 *self.names(), *self.mark_numbers(), *self.axes(), *self.key(entries), *self.list_of_violations(listed, foot), '</svg>', '']
        return '\n'.join(lines)

    # The block, in database units

    def hatches(self):
        """Yields patterns for the obstructions of each layer that is drawn and for blockages, and one for marks; each for the block and for
        the key."""
        names = [(f'hatch{at}', self.colours[name], 45) for at, name in enumerate(self.drawn)]
        names += [(f'hatch{self.drawn.index(name)}-blockage', self.colours[name], -45) for name, role in self.hatched if role == 'BLOCKAGE']
        names += [('hatch-placement', PLACEMENT_COLOUR, -45)] if self.placement_rects else []
        for name, colour, lean in names + [('hatch-mark', MARK_COLOUR, 45)]:
            for which, size, line, turn in ((name, self.view.pixels(7), self.view.pixels(1.6), lean), (f'{name}-key', 6, 1.6, -lean)):
                yield (f'<pattern id="{which}" patternUnits="userSpaceOnUse" width="{size}" height="{size}" patternTransform="rotate({turn})">'
                       f'<rect width="{line}" height="{size}" fill="{colour}"/></pattern>')

    def floor(self):
        """Yields the die, rows, components and tracks."""
        design, view = self.design, self.view
        yield f'<g id="die" fill="#fafafa" stroke="#333333" stroke-width="{view.pixels(2)}">{rect_element(design.die, "", "die")}</g>'
        yield f'<g id="rows" fill="{ROW_COLOUR}" stroke="{SITE_COLOUR}" stroke-width="{view.pixels(1)}">'
        for row in design.rows:
            yield from self.row(row)
        yield '</g>'
        yield f'<g id="components" stroke="#444444" stroke-width="{view.pixels(1.3)}">'
        if self.is_detailed:
            for component in self.components:
                yield from self.component(component)
        else:
            yield from paths(f' fill="{MOVABLE_COLOUR}"', (outline(design.box(component)) for component in self.components))
        yield '</g>'
        if self.placement_rects:
            yield f'<g id="placement-blockages" fill="url(#hatch-placement)" stroke="{PLACEMENT_COLOUR}" stroke-width="{view.pixels(1)}">'
            yield from self.placement_blockages()
            yield '</g>'
        if self.has_tracks:
            yield f'<g id="tracks" fill="none" stroke-width="{view.pixels(0.8)}" stroke-dasharray="{view.pixels(1.5)} {view.pixels(3)}" stroke-opacity="0.6">'
            for tracks in design.tracks:
                yield from self.track_lines(tracks)
            yield '</g>'

    def row(self, row):
        site = self.design.library.sites[row.site]
        box = Rect(row.x, row.y, row.x + row.count * site.width, row.y + site.height)
        if not meets(box, self.view.window):
            return
        yield rect_element(box, '', f'row {row.name} of {row.count} sites {row.site}, {row.orientation}' if self.is_detailed else None)
        if self.is_detailed and site.width * self.view.scale >= 6:
            first = max((self.view.window.x1 - row.x) // site.width, 1)
            last = min((self.view.window.x2 - row.x) // site.width, row.count - 1)
            yield from paths('', (f'M{row.x + k * site.width} {row.y}v{site.height}' for k in range(first, last + 1)))

    def track_lines(self, tracks):
        """Yields the lines of tracks for each layer whose direction they have."""
        window, die = self.view.window, self.design.die
        if tracks.step * self.view.scale < 3:
            return
        direction = 'VERTICAL' if tracks.axis == 'X' else 'HORIZONTAL'
        low, high = (window.x1, window.x2) if tracks.axis == 'X' else (window.y1, window.y2)
        first = max((low - tracks.start) // tracks.step, 0)
        last = min((high - tracks.start) // tracks.step, tracks.count - 1)
        places = [tracks.start + k * tracks.step for k in range(first, last + 1)]
        for layer in self.design.library.routing():
            if layer.direction == direction and (layer.name in tracks.layers or not tracks.layers):
                lines = (f'M{at} {die.y1}V{die.y2}' if tracks.axis == 'X' else f'M{die.x1} {at}H{die.x2}' for at in places)
                yield from paths(f' stroke="{self.colours[layer.name]}"', lines)

    def component(self, component):
        """Yields the box of a component, and a corner that shows where its macro's origin lies."""
        box, macro = self.design.box(component), component.macro
        fill = FIXED_COLOUR if component.status in ('FIXED', 'COVER') else MOVABLE_COLOUR
        title = f'{component.name} {macro.name} {component.status} ( {box.x1} {box.y1} ) {component.place.orientation}'
        yield rect_element(box, f' fill="{fill}" fill-opacity="0.85"', title)
        short = min(macro.width, macro.height, 60 / self.view.scale) / 2.5
        corners = [TURNS[component.place.orientation](x, y, macro.width, macro.height) for x, y in ((short / 2, 0), (0, short))]
        (xa, ya), (xb, yb) = [(box.x1 + x, box.y1 + y) for x, y in corners]
        yield f'<path fill="none" d="M{number(xa)} {number(ya)}L{number(xb)} {number(yb)}"/>'

    def placement_blockages(self):
        """Yields the rectangles of the placement blockages, over the components."""
        if self.is_detailed:
            for of, rect in self.placement_rects:
                yield rect_element(rect, '', f'placement blockage {of}: {rect.x1} {rect.y1} {rect.x2} {rect.y2}')
        else:
            yield from paths('', (outline(rect) for _, rect in self.placement_rects))

    def metal(self):
        """Yields a group for each layer: obstructions, blockages, pins, wires."""
        groups = {name: {role: [] for role in ROLES} for name in self.drawn}
        for shape in self.shapes:
            groups[shape.layer][shape.role].append(shape)
        for at, name in enumerate(self.drawn):
            is_cut = not self.design.library.layers[name].is_routing()
            colour = self.colours[name]
            yield f'<g class="layer" id="layer{at}" data-name="{xml_text(name)}" fill="{colour}" stroke="{colour}" stroke-width="{self.view.pixels(1)}">'
            for role, opacity in ROLES.items():
                shapes = groups[name][role]
                if not shapes:
                    continue
                hatch = {'OBS': f'hatch{at}', 'BLOCKAGE': f'hatch{at}-blockage'}.get(role)
                fill = f' fill="url(#{hatch})"' if hatch else f' fill-opacity="{0.8 if is_cut else opacity}"'
                if self.is_detailed:
                    yield f'<g class="{role.lower()}"{fill}>'
                    yield from (rect_element(shape.rect, '', self.shape_title(shape)) for shape in shapes)
                    yield '</g>'
                else:
                    yield from paths(f' class="{role.lower()}"{fill} stroke="none"', (outline(shape.rect) for shape in shapes))
            if is_cut and self.is_detailed:
                yield from self.crosses([shape.rect for role in ('PIN', 'WIRE') for shape in groups[name][role]])
            yield '</g>'

    def crosses(self, rects):
        """Yields a white cross over each cut."""
        yield from paths(' fill="none" stroke="#ffffff"', (f'M{r.x1} {r.y1}L{r.x2} {r.y2}M{r.x1} {r.y2}L{r.x2} {r.y1}' for r in rects))

    @staticmethod
    def shape_title(shape):
        what = {'OBS': f'obstruction of {shape.of}', 'BLOCKAGE': f'blockage {shape.name}', 'PIN': f'{shape.of or "PIN"} {shape.name}', 'WIRE': f'wire {shape.name} of {shape.of}'}[shape.role]
        owner = '' if shape.role != 'PIN' or shape.owner.startswith('TERM') else f', {shape.owner}'
        return f'{what}{owner}: {shape.layer} {shape.rect.x1} {shape.rect.y1} {shape.rect.x2} {shape.rect.y2}'

    def mark_shapes(self):
        """Yields the marks; where there are many, thin lines and spots for all but the chosen one."""
        placed = [mark for mark in self.seen if mark.box]
        yield f'<g id="marks" fill="none" stroke="{MARK_COLOUR}" stroke-width="{self.view.pixels(2)}">'
        if len(placed) > MOST_DETAILED_MARKS:
            yield from self.thin_marks(placed)
            placed = [mark for mark in placed if mark.number == self.chosen]
        for mark in placed:
            yield from self.mark(mark)
        yield '</g>'

    def thin_marks(self, marks):
        """Yields the gaps of marks, the places of those that have none, and spots on those that are too small to be seen."""
        # (many paths over one another let through what is beneath them)
        opacity = min(0.8, 1.6 * MOST_IN_PATH / len(marks))
        width, reach = (1.4, 2.5) if opacity == 0.8 else (0.8, 0.8)
        thin = f' stroke-width="{self.view.pixels(width)}" stroke-opacity="{opacity:.3f}"'
        yield from paths(f' class="gaps"{thin}', (f'M{xa} {ya}L{xb} {yb}' for (xa, ya), (xb, yb) in (mark.gap for mark in marks if mark.gap)))
        yield from paths(f' class="places"{thin}', (outline(mark.box) for mark in marks if not mark.gap))
        reach /= self.view.scale
        middles = [((box.x1 + box.x2) / 2, (box.y1 + box.y2) / 2) for box in (mark.box for mark in marks) if self.side(box) < 6]
        spots = (f'M{number(x - reach)} {number(y - reach)}h{number(2 * reach)}v{number(2 * reach)}h{number(-2 * reach)}z' for x, y in middles)
        yield from paths(f' class="spots" fill="{MARK_COLOUR}" stroke="none"', spots)

    def side(self, box):
        """Returns the longer side of a rectangle, in pixels."""
        return max(box.x2 - box.x1, box.y2 - box.y1) * self.view.scale

    def mark(self, mark):
        """Yields one mark: what it is between in dashed lines, and where it lies."""
        view, is_wide = self.view, mark.gap and self.side(mark.box) >= LONG
        yield f'<g class="mark" data-number="{mark.number}" data-kind="{mark.violation.kind}">'
        title = f'{mark.number}: {mark.violation.text} ({mark.note})'
        fill = ' fill="url(#hatch-mark)"' if self.chosen in (None, mark.number) and not is_wide else ''
        yield rect_element(mark.box, f' class="place"{fill}', title)
        for rect in mark.outlines:
            yield rect_element(rect, f' class="outline" stroke-dasharray="{view.pixels(5)} {view.pixels(3)}"')
        if mark.gap:
            (xa, ya), (xb, yb) = mark.gap
            yield f'<path class="gap" stroke-width="{view.pixels(1.5 if is_wide else 3)}" d="M{xa} {ya}L{xb} {yb}"/>'
        if min(mark.box.x2 - mark.box.x1, mark.box.y2 - mark.box.y1) * view.scale < 6 and not is_wide:
            yield self.ring(mark.box)
        yield '</g>'

    def ring(self, box):
        """Returns a ring around a box that is too thin to be seen."""
        reach = 7 / self.view.scale
        x, y = box.x1 - reach, box.y1 - reach
        return (f'<rect class="ring" x="{number(x)}" y="{number(y)}" width="{number(box.x2 + reach - x)}" height="{number(box.y2 + reach - y)}" '
                f'rx="{number(reach)}"/>')

    # What stands on the page

    def names(self):
        """Yields the names of components, pins, nets and rows that there is room for."""
        if not self.is_detailed:
            return
        yield '<g id="names">'
        names = Names(self.view)
        labels = [self.component_label(names, component) for component in self.components]
        largest = {}
        for shape in self.shapes:
            room = (shape.rect.x2 - shape.rect.x1) * (shape.rect.y2 - shape.rect.y1)
            key = shape.role, shape.of, shape.name if shape.role == 'PIN' else ''
            if shape.role in ('PIN', 'WIRE') and room > largest.get(key, (0, None))[0]:
                largest[key] = room, shape
        labels += [names.name(shape.rect, shape.name if shape.role == 'PIN' else shape.of, 12, '#111111') for _, shape in largest.values()]
        yield from filter(None, labels)
        yield from filter(None, map(self.row_name, self.design.rows))
        yield '</g>'

    def component_label(self, names, component):
        """Returns the name of a component and of its macro, in the upper part of its box, where pins are rare."""
        box = self.design.box(component)
        quarter = (box.y2 - box.y1) // 4
        text = f'{component.name} {component.macro.name}'
        upper = Rect(box.x1, box.y1 + 2 * quarter, box.x2, box.y2 - quarter // 2)
        return names.name(upper, text, 14, '#333333', is_bold=True, least=10) or names.name(upper, component.name, 12, '#333333', is_bold=True)

    def row_name(self, row):
        view, site = self.view, self.design.library.sites[row.site]
        if site.height * view.scale < 12 or not (view.window.x1 < row.x < view.window.x2 and view.window.y1 < row.y + site.height / 2 < view.window.y2):
            return None
        return (f'<text class="row-name" x="{number(view.x(row.x) - 5)}" y="{number(view.y(row.y + site.height / 2))}" text-anchor="end" font-size="11" '
                f'font-style="italic" fill="#55708c">{xml_text(row.name)}</text>')

    def mark_numbers(self):
        """Yields the numbers of the marks."""
        placed, numbers = [mark for mark in self.seen if mark.box], MarkNumbers(self.view, MARK_COLOUR)
        yield '<g id="mark-numbers" font-size="11" font-weight="bold">'
        if len(placed) > MOST_NUMBERED:
            yield from numbers.of_squares(placed)
        else:
            yield from numbers.of_each(placed, has_gaps=len(placed) <= MOST_DETAILED_MARKS)
        yield '</g>'

    def axes(self):
        """Yields the frame, and ticks with round numbers of database units."""
        view, window = self.view, self.view.window
        step = 1
        while step * view.scale < 60:
            step = {'1': step * 2, '2': step * 5 // 2, '5': step * 2}[str(step)[0]]
        bottom, right = TOP + view.height(), LEFT + view.width()
        yield '<g id="axes" font-size="11" fill="#444444" stroke="none">'
        yield f'<rect x="{LEFT}" y="{TOP}" width="{number(view.width())}" height="{number(view.height())}" fill="none" stroke="#777777"/>'
        for x in range(-(-window.x1 // step) * step, window.x2 + 1, step):
            yield f'<path stroke="#777777" d="M{number(view.x(x))} {number(bottom)}v4"/>'
            yield f'<text x="{number(view.x(x))}" y="{number(bottom + 16)}" text-anchor="middle">{x}</text>'
        for y in range(-(-window.y1 // step) * step, window.y2 + 1, step):
            yield f'<path stroke="#777777" d="M{LEFT} {number(view.y(y))}h-4"/>'
            yield f'<text x="{LEFT - 7}" y="{number(view.y(y))}" dy="0.35em" text-anchor="end">{y}</text>'
        yield f'<text x="{number(right)}" y="{number(bottom + 33)}" text-anchor="end" fill="#777777">database units, {self.design.units} a micron</text>'
        yield '</g>'

    def key_entries(self):
        """Returns how each thing is painted, with its name, the highest layer first."""
        layers = [(f'fill="{self.colours[name]}" fill-opacity="0.5" stroke="{self.colours[name]}"', name) for name in reversed(self.drawn)]
        entries = layers + [self.hatched_entry(*it) for it in self.hatched]
        if self.placement_rects:
            entries.append((f'fill="url(#hatch-placement-key)" stroke="{PLACEMENT_COLOUR}"', 'placement blockage'))
        stays = {component.status in ('FIXED', 'COVER') for component in self.components}
        if False in stays:
            entries.append((f'fill="{MOVABLE_COLOUR}" stroke="#444444"', 'component'))
        if True in stays:
            entries.append((f'fill="{FIXED_COLOUR}" stroke="#444444"', 'fixed component'))
        if self.design.rows:
            entries.append((f'fill="{ROW_COLOUR}" stroke="{SITE_COLOUR}"', 'row'))
        if any(mark.box for mark in self.seen):
            entries.append((f'fill="url(#hatch-mark-key)" stroke="{MARK_COLOUR}" stroke-width="2"', 'violation'))
        return entries

    def hatched_entry(self, name, role):
        """Returns how the obstructions or the blockages of a layer are painted, with their name."""
        hatch, what = ('', 'obstruction') if role == 'OBS' else ('-blockage', 'blockage')
        return f'fill="url(#hatch{self.drawn.index(name)}{hatch}-key)" stroke="{self.colours[name]}"', f'{name} {what}'

    def key(self, entries):
        """Yields what the colours mean."""
        x, y = LEFT + self.view.width() + 16, TOP + 6
        yield '<g id="key" font-size="12" fill="#222222">'
        for at, (paint, text) in enumerate(entries):
            yield f'<rect x="{number(x)}" y="{number(y + at * KEY_LINE)}" width="22" height="13" {paint}/>'
            yield f'<text x="{number(x + 29)}" y="{number(y + at * KEY_LINE + 11)}">{xml_text(text)}</text>'
        yield '</g>'

    def violation_lines(self):
        """Returns the lines of the violations that are seen, the chosen one first."""
        seen = sorted(self.seen, key=lambda mark: mark.number != self.chosen)
        lines = [f'{mark.number}: {mark.violation.text} ({mark.note})' for mark in seen[:MOST_LISTED]]
        return lines + ([f'and {len(seen) - MOST_LISTED} more'] if len(seen) > MOST_LISTED else [])

    def list_of_violations(self, lines, foot):
        yield '<g id="violations" font-size="12" font-family="DejaVu Sans Mono, Menlo, Consolas, monospace" fill="#222222">'
        for at, line in enumerate(lines):
            weight = ' font-weight="bold"' if at == 0 and self.chosen else ''
            yield f'<text x="{LINE}" y="{number(foot + LINE + at * LINE)}"{weight}>{xml_text(line)}</text>'
        yield '</g>'
