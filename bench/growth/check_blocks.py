"""Blocks for `check`, `place-check` and `measure`. None of them has a violation but open nets."""
from text import CELLS, SITE, block, cell, layers_lef, macro, pin, row, wires


def equal_wires(n):
    """one net of so many equal wires"""
    net = wires("n", ["m1 ( 0 0 ) ( 1000 0 )"] * n)
    return layers_lef(), block((0, 0, 2000, 2000), nets=[net])


def open_wires(n):
    """one net of so many equal wires of two segments, none of which is joined to its first one"""
    paths = ["m1 ( 0 0 ) ( 1000 0 )"] + ["m1 ( 0 5000 ) ( 1000 5000 ) ( 1000 6000 )"] * n
    return layers_lef(), block((0, 0, 10000, 10000), nets=[wires("n", paths)])


def vias(n):
    """so many vias in VIAS, and as many layers"""
    entries = [f"- W{k} + RECT m{k + 1} ( -50 -50 ) ( 50 50 ) ;\n" for k in range(n)]
    return layers_lef(n), block((0, 0, 2000, 2000), vias=entries)


def equal_obstructions(n):
    """a macro with so many equal rectangles of obstructions"""
    body = "OBS LAYER m1 ; " + "RECT 0.05 0.05 0.15 0.15 ; " * n + "END "
    return layers_lef().replace("END LIBRARY\n", macro("M", SITE, SITE, None, body)) + "END LIBRARY\n", block(
        (0, 0, 2000, 2000), components=[cell(0, "M", 0, 0)])


def crossing_classes(n):
    """so many long wires across one layer, and as many along it, apart from one another"""
    paths = [f"m1 100 ( 0 {400 * k} ) ( {400 * n} {400 * k} )" for k in range(n)]
    paths += [f"m1 100 ( {400 * (n + k + 1)} 0 ) ( {400 * (n + k + 1)} {400 * n} )" for k in range(n)]
    nets = [wires(f"s{k}", [path]) for k, path in enumerate(paths)]
    return layers_lef(), block((0, 0, 800 * n + 2000, 400 * n + 2000), special=nets)


def both_sections(n):
    """so many entries in NETS, and as many others in SPECIALNETS"""
    pins = [pin(f"p{k}", 400 * k, 0, f"n{k}") for k in range(n)]
    return layers_lef(), block(
        (0, -1000, 400 * n + 1000, 1000), pins=pins, special=[f"- s{k} ;\n" for k in range(n)],
        nets=[f"- n{k} ( PIN p{k} ) ;\n" for k in range(n)])


def flat_and_tall(n):
    """FIXED boxes: two thirds are flat and lie above one another, one third are as high as all of them"""
    flat = 2 * n // 3
    cells = [cell(i, "FLAT", 0, i, "FIXED") for i in range(flat)]
    cells += [cell(i, "TALL", 1000 + i - flat, 0, "FIXED") for i in range(flat, n)]
    lef = CELLS + macro("FLAT", 1000, 1) + macro("TALL", 1, max(flat, 1))
    return lef, block((0, 0, 1000 + n, max(flat, SITE)), [row(0, "a", 0, 0, 1)], components=cells)


BLOCKS = {
    equal_wires: (10000, 3), open_wires: (5000, 3), vias: (20000, 2), equal_obstructions: (10000, 3), crossing_classes: (25000, 2), both_sections: (25000, 2),
    flat_and_tall: (50000, 2),
}
COMMANDS = {both_sections: "measure", flat_and_tall: "place-check"}
COMMAND = "check"
