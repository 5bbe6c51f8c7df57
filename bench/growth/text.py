"""The texts of made blocks: LEF and DEF, 1000 units to the micron, on tracks of one pitch and sites of one size."""

PITCH = 200
SITE = 200


def micron(units):
    """Returns a length of so many units, in microns."""
    return f"{units // 1000}.{units % 1000:03d}"


def via(low, cuts=1):
    """Returns the default via from layer `low` to the next one, with so many cuts, all in one place."""
    square = "-0.05 -0.05 0.05 0.05"
    metal = "".join(f"LAYER m{layer} ; RECT {square} ; " for layer in (low, low + 1))
    return f"VIA V{low} DEFAULT {metal}LAYER v{low} ; " + f"RECT {square} ; " * cuts + f"END V{low}\n"


def layers_lef(layers=2, cuts=1, spacings=None):
    """Returns a LEF of so many routing layers: odd ones run along x, even ones along y."""
    text = []
    for n in range(1, layers + 1):
        direction = "HORIZONTAL" if n % 2 else "VERTICAL"
        spacing = (spacings or {}).get(n, "0.1")
        text.append(f"LAYER m{n} TYPE ROUTING ; DIRECTION {direction} ; WIDTH 0.1 ; SPACING {spacing} ; END m{n}\n")
        if n < layers:
            text.append(f"LAYER v{n} TYPE CUT ; SPACING 0.1 ; END v{n}\n")
    return "".join([*text, *(via(n, cuts) for n in range(1, layers)), "END LIBRARY\n"])


def site(name, width=SITE, height=SITE):
    return f"SITE {name} CLASS CORE ; SIZE {micron(width)} BY {micron(height)} ; END {name}\n"


def macro(name, width, height, site_name=None, body=""):
    at = f" SITE {site_name} ;" if site_name else ""
    return f"MACRO {name} CLASS CORE ; SIZE {micron(width)} BY {micron(height)} ; SYMMETRY X Y ;{at} {body}END {name}\n"


CELLS = "".join([
    site("a"), site("b"), *(macro(f"A{n}", n * SITE, SITE, "a") for n in (1, 2, 3)), macro("B1", SITE, SITE, "b"),
])


def row(number, site_name, x, y, count, orient="N"):
    return f"ROW r{number} {site_name} {x} {y} {orient} DO {count} BY 1 STEP {SITE} 0 ;\n"


def cell(number, master, x, y, status="PLACED", orient="N"):
    if status == "UNPLACED":
        return f"- u{number} {master} + UNPLACED ;\n"
    return f"- u{number} {master} + {status} ( {x} {y} ) {orient} ;\n"


def pin(name, x, y, net=None, rects=(("m1", -50, -50, 50, 50),)):
    """Returns a pin of the design at this point, with rectangles given from it."""
    of = f" + NET {net}" if net else ""
    ports = "".join(f" + LAYER {layer} ( {a} {b} ) ( {c} {d} )" for layer, a, b, c, d in rects)
    return f"- {name}{of}{ports} + PLACED ( {x} {y} ) N ;\n"


def net_of(name, pins):
    return f"- {name} " + " ".join(f"( PIN {it} )" for it in pins) + " ;\n"


def section(word, entries):
    return f"{word} {len(entries)} ;\n" + "".join(entries) + f"END {word}\n" if entries else ""


def block(die, rows=(), tracks="", components=(), vias=(), pins=(), special=(), nets=()):
    """Returns a DEF of these parts."""
    return "".join([
        "VERSION 5.8 ;\nDESIGN block ;\nUNITS DISTANCE MICRONS 1000 ;\n",
        "DIEAREA ( {} {} ) ( {} {} ) ;\n".format(*die), *rows, tracks,
        section("VIAS", list(vias)), section("COMPONENTS", list(components)), section("PINS", list(pins)),
        section("SPECIALNETS", list(special)), section("NETS", list(nets)), "END DESIGN\n",
    ])


def routed(columns, rows, pins, nets, special=()):
    """Returns a DEF of so many tracks each way."""
    die = (-1000, -1000, columns * PITCH + 1000, rows * PITCH + 1000)
    tracks = f"TRACKS X 0 DO {columns} STEP {PITCH} ;\nTRACKS Y 0 DO {rows} STEP {PITCH} ;\n"
    return block(die, (), tracks, (), (), pins, special, nets)


def pins_in_square(count, apart):
    """Returns so many pins of net n, each so many tracks from the next, and how many tracks that takes each way."""
    side = 1
    while side * side < count:
        side += 1
    return [pin(f"p{k}", k % side * apart * PITCH, k // side * apart * PITCH, "n") for k in range(count)], side * apart


def wires(name, paths):
    """Returns an entry of a section of nets with these paths."""
    return f"- {name}\n  + ROUTED " + "\n  NEW ".join(paths) + " ;\n"
