"""The pieces of a net that are joined, and the violation Open."""
from . import geometry
from .metal import pieces, terminal_name, whole_nets


def touch(a, b):
    """Whether two pieces touch: on one layer two different points lie in both."""
    corners = {}
    for layer, rect in a:
        for other, opposite in b:
            shared = geometry.common(rect, opposite) if layer == other else None
            if shared:
                corners.setdefault(layer, set()).update(shared)
    # (rectangles that share one point share it as the least and as the greatest)
    return any(len(points) > 1 for points in corners.values())


def touching_pairs(parts):
    """Yields the pairs of pieces that touch; only pieces whose boxes share a point are looked at."""
    having = [number for number, part in enumerate(parts) if part]
    around = [geometry.box_around([rect for _, rect in parts[number]]) for number in having]
    for a, b in geometry.near_pairs(around, 0):
        if touch(parts[having[a]], parts[having[b]]):
            yield having[a], having[b]


def touching(parts):
    """Returns for each piece that touches others the pieces that it touches."""
    found = {}
    for a, b in touching_pairs(parts):
        found.setdefault(a, []).append(b)
        found.setdefault(b, []).append(a)
    return found


def reached(first, neighbours):
    """Returns the numbers of the pieces that are joined to this one; neighbours has the pieces that touch each piece."""
    found, waiting = {first}, [first]
    while waiting:
        for other in neighbours.get(waiting.pop(), ()):
            if other not in found:
                found.add(other)
                waiting.append(other)
    return found


def joined(parts):
    """Returns the numbers of the pieces that are joined to the first one."""
    return reached(0, touching(parts)) if parts else set()


def groups(parts):
    """Returns the pieces as sets of those that are joined, in the order of the least piece of each."""
    neighbours = touching(parts)
    found, left = [], set(range(len(parts)))
    for piece in range(len(parts)):
        if piece in left:
            found.append(reached(piece, neighbours))
            left -= found[-1]
    return found


def faults(design):
    """Returns the violations Open in order: the numbers of the net and of its piece."""
    found = []
    for number, net in enumerate(whole_nets(design)[:len(design.nets)]):
        parts = pieces(design, net)
        together = joined(parts)
        found += [('OPEN', number, piece) for piece in range(len(parts)) if piece not in together]
    return found


def fault_lines(design, found):
    """Returns the lines of violations Open."""
    nets = whole_nets(design)
    return [f'OPEN {nets[number].name} {piece_words(design, nets[number], piece)}' for _, number, piece in found]


def piece_words(design, net, piece):
    """Returns the words of a piece: its terminal, or the number of the wire from 1."""
    terminals = len(net.terminals)
    return terminal_name(design, net.terminals[piece]) if piece < terminals else f'WIRE {piece - terminals + 1}'
