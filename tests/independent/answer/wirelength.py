"""The half-perimeter wirelength."""
from . import geometry
from .metal import terminal_shapes, whole_nets


def centre(design, terminal):
    """Returns the centre of a terminal, or None if it has no shapes at a place."""
    box = geometry.box_around([rect for _, rect in terminal_shapes(design, terminal)])
    return box and ((box[0] + box[2]) // 2, (box[1] + box[3]) // 2)


def wirelength(design):
    """Returns the lengths of the nets of NETS together."""
    total = 0
    for net in whole_nets(design)[:len(design.nets)]:
        centres = [centre(design, terminal) for terminal in net.terminals]
        box = geometry.box_around([place + place for place in centres if place])
        total += box[2] - box[0] + box[3] - box[1] if box else 0
    return total
