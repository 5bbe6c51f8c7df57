"""What of a block is not judged, or cannot be met, though its texts do not show it: names that match nothing, wires that other readers draw
with more metal, macros that no row fits, and pins that hold no crossing of tracks."""
from flow_text import counted

MILLIONTHS = 10 ** 6


def microns(millionths):
    """Returns a length as LEF writes it."""
    whole, part = divmod(abs(millionths), MILLIONTHS)
    decimals = f'{part:06d}'.rstrip('0')
    return f'{"-" if millionths < 0 else ""}{whole}{"." if decimals else ""}{decimals}'


def unmatched_lines(texts):
    """Returns a warning for each ( * pin ) in SPECIALNETS that denotes no pin."""
    lines = []
    for at, pin, net, has_components in texts.reader.nets.unmatched:
        why = 'no component before it has a pin of this name' if has_components else 'no component comes before it'
        lines.append(f'warning {texts.words[-1].place(at)} ( * {pin} ) of net {net} matches nothing: {why}')
    return lines


def wiring_lines(texts):
    """Returns a warning for each form of wiring that is there and that other readers draw with more metal."""
    nets = texts.reader.nets
    forms = ((nets.bends, 'bend', 'a path of SPECIALNETS has no metal at the outer corner of a bend, which other readers fill'),
             (nets.steps, 'step', 'a step of a path to the same point has no metal, where other readers draw a square as wide as the wire'))
    return [f'warning {texts.words[-1].place(met.at)} {why}: {counted(met.count, form)}, the first is in net {met.net}'
            for met, form, why in forms if met.count]


def row_fault(texts, macro):
    """Returns why no row of a block fits a macro that has a site, or None."""
    site = texts.library.sites[macro.site]
    rows = [row for row in texts.design.rows if row.site == site.name]
    if macro.height != site.height:
        return f'it is {microns(macro.height)} microns high, and its site {site.name} is {microns(site.height)}'
    if macro.width % site.width:
        return f'it is {microns(macro.width)} microns wide, which is no whole number of sites {site.name} of {microns(site.width)}'
    if not rows:
        return f'no row is of its site {site.name}'
    longest = max(row.count for row in rows) * site.width
    if longest < macro.width:
        return f'it is {microns(macro.width)} microns wide, and the longest row of its site {site.name} is {microns(longest)}'
    return None


def row_lines(texts):
    """Returns a warning for each macro in use that no row fits."""
    used = {}
    for component in texts.design.components.values():
        if component.macro.site is not None:
            used.setdefault(component.macro.name, []).append(component.name)
    lines = []
    for name, components in used.items():
        why = row_fault(texts, texts.library.macros[name])
        if why:
            place = texts.words[-1].place(texts.reader.component_at[components[0]])
            lines.append(f'warning {place} macro {name}: no row fits it, since {why}: {counted(len(components), "component")}, the first is {components[0]}')
    return lines


class Lines:
    """Lines of tracks along one axis."""

    def __init__(self, tracks):
        self.tracks = list({(it.start, it.step, it.count) for it in tracks})

    def cross(self, low, high):
        """Returns whether one of the lines is at least at `low` and at most at `high`."""
        for start, step, count in self.tracks:
            first = max(0, -((start - low) // step))
            if first < count and start + first * step <= high:
                return True
        return False


class Grid:
    """Where the tracks of routing layers cross, by the rules of docs/RULES.md, "The grid"."""

    def __init__(self, design):
        self.own, along = {}, {'VERTICAL': [], 'HORIZONTAL': []}
        for layer in design.library.routing():
            axis = 'X' if layer.direction == 'VERTICAL' else 'Y'
            tracks = [it for it in design.tracks if it.axis == axis and (not it.layers or layer.name in it.layers)]
            self.own[layer.name] = layer.direction, Lines(tracks)
            along[layer.direction] += tracks
        self.xs, self.ys = Lines(along['VERTICAL']), Lines(along['HORIZONTAL'])

    def is_empty(self):
        return not (self.xs.tracks and self.ys.tracks)

    def meets(self, layer, rect):
        """Returns whether a rectangle on a layer holds a crossing of tracks at which the layer has a node."""
        if layer not in self.own:
            return False
        direction, lines = self.own[layer]
        xs, ys = (lines, self.ys) if direction == 'VERTICAL' else (self.xs, lines)
        return xs.cross(rect.x1, rect.x2) and ys.cross(rect.y1, rect.y2)


class PinCount:
    """The terminals of NETS that are one pin of a macro or of the block: how many have a place, and those of them that no track crosses."""

    def __init__(self):
        self.count, self.missed = 0, []


def pin_counts(design, grid):
    """Returns the terminals of NETS by the macro, or None, and the pin."""
    pins = {}
    for net in design.nets.values():
        for terminal in net.terminals:
            component = design.components.get(terminal[0]) if terminal[0] != 'PIN' else None
            shapes = design.terminal_shapes(terminal)
            is_placed = component.place is not None if component else bool(shapes)
            if is_placed:
                pin = pins.setdefault((component and component.macro.name, terminal[1]), PinCount())
                pin.count += 1
                if not any(grid.meets(shape.layer, shape.rect) for shape in shapes):
                    pin.missed.append((terminal, net.name))
    return pins


def pin_lines(texts):
    """Returns a warning for each pin that holds no crossing of tracks at some terminals of NETS."""
    grid = Grid(texts.design)
    if texts.design.nets and grid.is_empty():
        return [f'warning {texts.words[-1].place(0)} no track of a vertical layer crosses one of a horizontal layer: route and finish have no grid']
    missed = [(place_of(texts, found.missed[0][0]), macro, pin, found) for (macro, pin), found in pin_counts(texts.design, grid).items() if found.missed]
    return [pin_line(texts, *it) for it in sorted(missed, key=lambda it: it[0])]


def place_of(texts, terminal):
    """Returns the place of a terminal in NETS, as the number of its first word; 0 for a pin of the block that NETS does not list."""
    return texts.reader.nets.terminal_at.get(terminal, 0)


def pin_line(texts, at, macro, pin, found):
    terminal, net = found.missed[0]
    place = texts.words[-1].place(at)
    if macro:
        which = f'pin {pin} of macro {macro}'
        where = f' at {len(found.missed)} of {counted(found.count, "terminal")}, the first is {" ".join(terminal)} of net {net}'
    else:
        which, where = f'pin {pin} of the block', f', and is in net {net}'
    return f'warning {place} {which} holds no crossing of tracks{where}: route and finish reach it only by wires that are there'
