"""The violations between shapes: Short and TooNear."""
from . import geometry
from .metal import owner_words

OBSTRUCTIONS = ('OBS', 'BLOCKAGE')


def comparable(a, b):
    """Whether two shapes can be short or too near."""
    if a.layer != b.layer or a.owner == b.owner:
        return False
    of_one = a.component is not None and a.component == b.component
    return not of_one and not (a.owner[0] in OBSTRUCTIONS and b.owner[0] in OBSTRUCTIONS)


def fault_of(layers, a, b):
    """Returns the kind of the violation of two shapes, or None."""
    if not comparable(a, b):
        return None
    if geometry.common(a.rect, b.rect):
        return 'SHORT'
    return 'TOONEAR' if geometry.squared_distance(a.rect, b.rect) < layers[a.layer].spacing ** 2 else None


def faults(design, shapes):
    """Returns the violations in order, each its kind and the numbers of the two shapes."""
    layers = design.library.layers
    on_layers = {}
    for number, shape in enumerate(shapes):
        on_layers.setdefault(shape.layer, []).append(number)
    found = {'SHORT': [], 'TOONEAR': []}
    for layer, numbers in on_layers.items():
        for a, b in geometry.near_pairs([shapes[it].rect for it in numbers], layers[layer].spacing):
            kind = fault_of(layers, shapes[numbers[a]], shapes[numbers[b]])
            if kind:
                found[kind].append((numbers[a], numbers[b]))
    return [(kind, *pair) for kind in ('SHORT', 'TOONEAR') for pair in sorted(found[kind])]


def shape_words(design, shape):
    """Returns the words of a shape: its owner and its sides."""
    return ' '.join([owner_words(design, shape.owner), *map(str, shape.rect)])


def fault_lines(design, shapes, found):
    """Returns the lines of violations between shapes."""
    return [f'{kind} {design.library.layers[shapes[a].layer].name} {shape_words(design, shapes[a])} {shape_words(design, shapes[b])}'
            for kind, a, b in found]
