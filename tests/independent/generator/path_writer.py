"""Writes the wires of a net as paths, in which wires that meet can follow one another."""
from answer.model import PlacedVia, Segment


class Chain:
    """Wires that one path can have: each begins where the path is. A stop has its point and the extensions that segments have there."""

    def __init__(self, layers, special):
        self.layers = layers
        self.special = special
        self.wires = []
        self.layer = self.first_layer = self.width = None
        self.stops = []

    def default(self, layer):
        return 0 if self.special else self.layers[layer].width // 2

    def takes(self, wire):
        """Adds a wire if the path can have it, and returns whether it can."""
        begins = [wire.layer] if not isinstance(wire, PlacedVia) else list(wire.via.joins)
        point = wire.start if isinstance(wire, Segment) else wire.point
        if self.wires and (self.layer not in begins or point != self.stops[-1][0]):
            return False
        if isinstance(wire, Segment):
            if not self.takes_segment(wire):
                return False
        elif not self.wires:
            self.stops = [(point, [])]
        if not self.wires:
            self.layer = self.first_layer = begins[0]
        if isinstance(wire, PlacedVia):
            self.layer = sum(wire.via.joins) - self.layer
        self.wires.append(wire)
        return True

    def takes_segment(self, wire):
        """Adds the stop of a segment if the width and the extensions at its start agree with those before it."""
        pairs = [(end, self.default(wire.layer)) for end in (wire.start_extension, wire.end_extension)]
        before = self.stops[-1][1] if self.wires else []
        if self.special and self.width not in (None, wire.width) or not agree(before + pairs[:1]):
            return False
        if not self.wires:
            self.stops = [(wire.start, [])]
        self.stops[-1][1].append(pairs[0])
        self.stops.append((wire.end, [pairs[1]]))
        self.width = wire.width
        return True


def agree(pairs):
    """Whether one written extension, or none, gives all of these, each beside its default."""
    return all(value == default for value, default in pairs) or len({value for value, _ in pairs}) == 1


def written(pairs):
    """Returns the extension that has to be written for these, or None."""
    return None if all(value == default for value, default in pairs) else pairs[0][0]


class PathWriter:
    """Writes wires; number is how whole numbers are written, and joins how often wires follow one another in a path."""

    def __init__(self, dice, layers, special, number, joins):
        self.dice = dice
        self.layers = layers
        self.special = special
        self.number = number
        self.joins = joins

    def text(self, wires):
        """Returns the clauses of these wires."""
        chains = []
        for wire in wires:
            if not chains or not self.dice.chance(self.joins) or not chains[-1].takes(wire):
                chains.append(Chain(self.layers, self.special))
                chains[-1].takes(wire)
        return ''.join(f'\n  {it}' for it in self.clauses(chains))

    def clauses(self, chains):
        """Returns the words of chains of wires, each in a line of its own."""
        words = []
        for place, chain in enumerate(chains):
            begins = not place or self.dice.chance(self.joins / 8)
            words.append((f'+ {self.beginning()} ' if begins else 'NEW ') + self.path(chain))
        return words

    def beginning(self):
        """Returns the word of a wiring."""
        return 'ROUTED' if not self.joins else self.dice.one_of(('ROUTED', 'FIXED', 'COVER', 'SHIELD any' if self.special else 'NOSHIELD'))

    def path(self, chain):
        """Returns a path."""
        words = [self.layers[chain.first_layer].name]
        if self.special:
            words.append(self.number(chain.width if chain.width is not None else self.dice.one_of((0, 40))))
            words += ['+ SHAPE STRIPE'] if self.joins and self.dice.chance(0.3) else []
        else:
            words += self.tapering()
        return ' '.join([*words, *self.stop(chain, 0, None), *self.items(chain)])

    def tapering(self):
        """Returns what may stand behind the layer of a path of NETS."""
        return ['TAPER'] if self.joins and self.dice.chance(0.05) else []

    def items(self, chain):
        """Returns the words of a path behind its first point."""
        words, at = [], 0
        for wire in chain.wires:
            if isinstance(wire, Segment):
                at += 1
                words += self.masked(self.stop(chain, at, chain.stops[at - 1][0]))
            elif isinstance(wire, PlacedVia):
                words += self.masked(self.via(wire.via))
            else:
                words += self.masked(['RECT (', *map(self.number, wire.rect), ')'])
        return words

    def via(self, via):
        """Returns the words of a via."""
        return [via.name] + (['N'] if self.joins and self.dice.chance(0.1) else [])

    def masked(self, words):
        """Returns the words of an item, with a mask before them where one has no effect."""
        return words

    def stop(self, chain, at, last):
        """Returns the words of a stop: its point, in some cases twice."""
        point, pairs = chain.stops[at]
        extension = written(pairs)
        words = [self.point(point, last, extension)]
        if self.joins and self.dice.chance(0.1):
            words = [self.point(point, last, None), self.point(point, point, extension)]
        return words

    def point(self, point, last, extension):
        """Returns a point, with `*` in some cases for the last point's coordinate."""
        words = [self.number(value) for value in point]
        for side in range(2):
            if last and self.joins and last[side] == point[side] and self.dice.chance(0.5):
                words[side] = '*'
        words += [self.number(extension)] if extension is not None else []
        return f'( {" ".join(words)} )'
