"""Routes a design over the grid of tracks."""
from . import connection, geometry, metal, placement, spacing
from .grid import DIRECTIONS, LIMIT, Grid, GridTooLarge
from .model import Patch
from .obstacles import Obstacles


class NotRouted(Exception):
    """A design is not routed; lines is what is printed."""

    def __init__(self, lines):
        super().__init__(lines)
        self.lines = lines


def ground(design, limit=LIMIT):
    """Returns the grid of a design and its metal, or raises NotRouted if it has violations but open nets, or a grid beyond the limit."""
    shapes = metal.metal(design)
    places, near = placement.faults(design), spacing.faults(design, shapes)
    if places or near:
        lines = placement.fault_lines(design, places) + spacing.fault_lines(design, shapes, near)
        raise NotRouted(lines + [f'NOTCLEAN {len(lines)}'])
    try:
        return Grid(design, limit), Obstacles(design.library.layers, shapes)
    except GridTooLarge:
        raise NotRouted(['GRIDTOOLARGE']) from None


def routed(design):
    """Returns the routed design, or raises NotRouted."""
    grid, obstacles = ground(design)
    nets = list(design.nets)
    for number, net in enumerate(metal.whole_nets(design)[:len(nets)]):
        wires = NetRouter(design, grid, obstacles, number, net).wires()
        nets[number] = nets[number]._replace(wires=nets[number].wires + tuple(wires))
    return design._replace(nets=nets)


class NetRouter:
    """Routes one net; what is open to it does not change meanwhile, since its own metal never blocks it."""

    def __init__(self, design, grid, obstacles, number, net):
        self.grid = grid
        self.obstacles = obstacles
        self.name = net.name
        self.owner = ('NET', number)
        self.parts = metal.pieces(design, net)
        self.known = {}
        self.neighbours = {}

    def wires(self):
        """Returns the wires that the net gets, and adds their metal to the obstacles of others."""
        added = []
        together = connection.joined(self.parts)
        while len(together) < len(self.parts):
            walk = self.shortest_walk(together)
            if walk is None:
                raise NotRouted([f'UNROUTABLE {self.name}'])
            for wire in self.wires_of(walk):
                added.append(wire)
                self.parts.append(metal.wire_shapes(wire))
                for layer, rect in self.parts[-1]:
                    self.obstacles.add(layer, rect, self.owner)
            together = connection.joined(self.parts)
        return added

    def is_free(self, shapes):
        """Whether none of these shapes is blocked."""
        return not any(self.obstacles.blocks(layer, rect, self.owner) for layer, rect in shapes)

    def is_open(self, node):
        """Whether a node is open."""
        if node not in self.known:
            self.known[node] = self.is_free(self.grid.node_shapes(node))
        return self.known[node]

    def is_open_step(self, a, b):
        """Whether the step between two open nodes is open."""
        key = (a, b) if a < b else (b, a)
        if key not in self.known:
            self.known[key] = self.is_free(self.grid.step_shapes(*key))
        return self.known[key]

    def open_neighbours(self, node):
        """Returns the nodes that open steps lead to, in the order of the directions."""
        if node not in self.neighbours:
            others = (self.grid.neighbour(node, direction) for direction in DIRECTIONS)
            self.neighbours[node] = [it for it in others if it is not None and self.is_open(it) and self.is_open_step(node, it)]
        return self.neighbours[node]

    def meeting(self, numbers):
        """Returns the open nodes that meet one of the pieces with these numbers."""
        levels = {layer: level for level, layer in enumerate(self.grid.levels)}
        shapes = {shape for number in numbers for shape in self.parts[number] if shape[0] in levels}
        nodes = {node for layer, rect in shapes for node in self.grid.nodes_in(levels[layer], rect)}
        return {node for node in nodes if self.is_open(node)}

    def shortest_walk(self, together):
        """Returns a walk from the joined pieces to another one, as a list of nodes, or None."""
        ends = self.meeting(set(range(len(self.parts))) - together)
        layer = self.meeting(together)
        steps = dict.fromkeys(layer, 0)
        while layer and not ends & layer:
            layer = self.next_layer(layer, steps)
        if not layer:
            return None
        # (the least by layer, y and x)
        return self.walk_back(min(ends & layer, key=lambda node: (node[0], node[2], node[1])), steps)

    def next_layer(self, layer, steps):
        """Returns the nodes one step further than those of a layer, and notes how many steps they are from the beginning."""
        found = set()
        for node in layer:
            for other in self.open_neighbours(node):
                if other not in steps:
                    steps[other] = steps[node] + 1
                    found.add(other)
        return found

    def walk_back(self, node, steps):
        """Returns the walk to a node: going back, the first direction that lies on a shortest walk."""
        walk = [node]
        while steps[node]:
            node = next(it for it in self.open_neighbours(node) if steps.get(it) == steps[node] - 1)
            walk.append(node)
        return walk[::-1]

    def wires_of(self, walk):
        """Returns the wires of a walk."""
        if len(walk) == 1:
            layer = self.grid.levels[walk[0][0]]
            half = self.grid.layers[layer].width // 2
            return [Patch(layer, self.grid.point(walk[0]), geometry.around((0, 0), half))]
        wires, begin = [], walk[0]
        for before, node, after in zip(walk, walk[1:], walk[2:] + [None]):
            if before[0] != node[0]:
                wires.append(self.grid.via_at(before, node))
                begin = node
            elif after is None or after[0] != node[0]:
                wires.append(self.grid.run(begin, node))
                begin = node
        return wires
