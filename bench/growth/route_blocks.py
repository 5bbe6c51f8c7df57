"""Blocks for `route`. All of them are without a violation but open nets, and all can be routed."""
from text import PITCH, block, layers_lef, net_of, pin, pins_in_square, routed, wires

# So many tracks each way have the blocks that fill the largest grid, of three layers.
SIDE = 1180


def fanout(n):
    """one net of so many pins on an open grid, as a reset has"""
    pins, side = pins_in_square(n, 4)
    return layers_lef(), routed(side, side, pins, [net_of("n", [f"p{k}" for k in range(n)])])


def pockets(n):
    """the same net, each pin with a wall on both layers at three sides"""
    pins, side = pins_in_square(n, 8)
    low, high = -2 * PITCH - 50, 2 * PITCH + 50
    bars = [(layer, *bar) for layer in ("m1", "m2") for bar in (
        (low, low, low + 100, high), (low, low, high, low + 100), (low, high - 100, high, high))]
    walls = [pin(f"w{k}", k % (side // 8) * 8 * PITCH, k // (side // 8) * 8 * PITCH, None, bars) for k in range(n)]
    return layers_lef(), routed(side, side, pins + walls, [net_of("n", [f"p{k}" for k in range(n)])])


def pile(n):
    """one net of 200 pins with so many special wires of its own at one place"""
    pins, side = pins_in_square(200, 4)
    special = wires("n", ["m1 100 ( 0 0 ) ( 400 0 )"] * n)
    return layers_lef(), routed(side, side, pins, [net_of("n", [f"p{k}" for k in range(200)])], [special])


def planes(name, n):
    """Returns a special net of so many wires on the top layer, each as large as the grid."""
    middle = SIDE * PITCH // 2
    return wires(name, [f"m3 {SIDE * PITCH} ( 0 {middle} ) ( {SIDE * PITCH} {middle} )"] * n)


def plane(n):
    """so many die-wide wires of another net, over 4,177,200 slots"""
    pins = [pin("a", 0, 0, "n"), pin("b", 4 * PITCH, 0, "n")]
    return layers_lef(3), routed(SIDE, SIDE, pins, [net_of("n", "ab")], [planes("P", n)])


def joined(n):
    """the same with no net that is open"""
    return layers_lef(3), routed(SIDE, SIDE, [], ["- n ;\n"], [planes("P", n)])


def own(n):
    """so many die-wide wires of the net itself, which has ten pins"""
    pins = [pin(f"p{k}", SIDE // 12 * k * PITCH, SIDE // 12 * k * PITCH, "n") for k in range(10)]
    return layers_lef(3), routed(SIDE, SIDE, pins, [net_of("n", [f"p{k}" for k in range(10)])], [planes("n", n)])


def near(n):
    """so many small wires on a layer whose spacing is as large as the block"""
    places = [2 * k * PITCH % (SIDE * PITCH) for k in range(n)]
    special = wires("P", [f"m3 100 ( {x} 0 ) ( {x + 200} 0 )" for x in places])
    pins = [pin("a", 0, 0, "n"), pin("b", 4 * PITCH, 0, "n")]
    return layers_lef(3, spacings={3: "250"}), routed(SIDE, SIDE, pins, [net_of("n", "ab")], [special])


def tracks(n):
    """so many statements TRACKS, of one track each"""
    lines = "".join(f"TRACKS X {PITCH * k} DO 1 STEP 1 LAYER m2 ;\n" for k in range(n))
    return layers_lef(), block((-1000, -1000, n * PITCH + 1000, 1200), tracks=lines + "TRACKS Y 0 DO 1 STEP 1 LAYER m1 ;\n")


def cuts(n):
    """a via of so many rectangles, and a net of ten pins"""
    pins, side = pins_in_square(10, 4)
    return layers_lef(2, n), routed(side, side, pins, [net_of("n", [f"p{k}" for k in range(10)])])


def layers(n):
    """so many layers, and a via between each two, with 20,000 rectangles on the lowest one"""
    rects = [("m1", 400 * k, 400, 400 * k + 100, 500) for k in range(20000)]
    return layers_lef(n), routed(1, 1, [pin("p", 0, 0, None, rects)], [])


# With the first size that is tried, and how often it doubles.
BLOCKS = {
    fanout: (500, 3), pockets: (400, 3), pile: (1000, 3), plane: (4, 4), joined: (4, 4), own: (4, 4), near: (10, 4),
    tracks: (25000, 2), cuts: (1000, 3), layers: (8000, 2),
}
COMMAND = "route"
