"""Vias that wires name with an orientation."""
from . import geometry
from .lef_text import joined_layers
from .model import Via


class TurnedVias:
    """The vias of a design that come behind those of VIAS, and which via stands for a pair of a via's name and an orientation."""

    def __init__(self, layers):
        self.layers = layers
        self.vias = []
        self.found = {}

    def via(self, name, orientation):
        """Returns the via for a pair, or None where the text was not gone through for it."""
        return self.found.get((name, orientation))

    def find(self, words, known):
        """Finds the pairs among words, where known has vias by their names."""
        for name, word in zip(words, words[1:]):
            pair = name, word.upper()
            if name in known and pair[1] in geometry.ORIENTATIONS and pair not in self.found:
                self.found[pair] = self.turned(known[name], pair[1], known)

    def turned(self, via, orientation, known):
        """Returns a via in an orientation: itself if it has the same shapes, or else a new one, which is known from now on."""
        shapes = tuple((layer, geometry.oriented(rect, 0, 0, orientation)) for layer, rect in via.shapes)
        if shapes == via.shapes:
            return via
        name, number = f'{via.name}_{orientation}', 0
        while name in known:
            number += 1
            name = f'{via.name}_{orientation}_{number}'
        known[name] = Via(name, shapes, False, joined_layers(self.layers, name, shapes))
        self.vias.append(known[name])
        return known[name]
