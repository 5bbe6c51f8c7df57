// The data of a block for the viewer, as tools/page/block.js describes it, from a design and from what lefdef printed.

// The usual colours of routing layers, from the lowest one up.
const LAYER_COLOURS = ['#2457d6', '#d62222', '#1f9a3c', '#c9a400', '#e8771a', '#8a3fc4', '#149fb5', '#7a5230'];
const CUT_COLOUR = '#222222';
const DATA_STATUSES = ['UNPLACED', 'PLACED', 'FIXED', 'COVER'];
const DATA_ROLES = { PIN: 0, OBS: 1, BLOCKAGE: 2, WIRE: 3 };
const DATA_OWNERS = { NET: 0, TERM: 1, POWER: 2, GROUND: 3, OBS: 4, BLOCKAGE: 5 };

// Numbers for names: those so far, each once, in the order in which they came.
class Numbers {
  constructor(names = []) {
    this.places = new Map();
    for (const name of names) this.of(name);
  }

  of(name) {
    const place = this.places.get(name);
    if (place !== undefined) return place;
    this.places.set(name, this.places.size);
    return this.places.size - 1;
  }

  names() {
    return [...this.places.keys()];
  }
}

// All metal of a design, in the order of docs/RULES.md ("Metal"), as columns.
class Shapes {
  // `isAdded` tells of the wire of this net, on this layer and with these sides, whether it is one that the text before had not.
  constructor(design, isAdded) {
    this.design = design;
    this.isAddedWire = isAdded;
    this.metal = design.library.metal();
    this.places = new Map(this.metal.map((layer, place) => [layer.number, place]));
    this.pins = new Numbers(design.pins.keys());
    this.sides = new Column(Float64Array);
    const isMany = this.metal.length > 255;
    const types = { layer: isMany ? Int32Array : Uint8Array, role: Uint8Array, owner: Uint8Array, net: Int32Array, component: Int32Array, name: Int32Array, isAdded: Uint8Array };
    for (const [name, Type] of Object.entries(types)) this[name] = new Column(Type);
    this.turned = new Map();
    for (const component of design.components.values()) if (component.place) this.addComponent(component);
    for (const pin of design.pins.values()) this.addPin(pin);
    design.blockages.forEach(({ layer, rects }, at) => layer && rects.forEach((rect) => this.add(layer.number, rect, 'BLOCKAGE', 'BLOCKAGE', -1, -1, at + 1)));
    this.addWires(design.regular);
    this.addWires(design.special);
  }

  add(layer, [left, lower, right, upper], role, owner, net, component, name, isAdded = 0) {
    this.sides.push(left);
    this.sides.push(lower);
    this.sides.push(right);
    this.sides.push(upper);
    this.layer.push(this.places.get(layer));
    this.role.push(DATA_ROLES[role]);
    this.owner.push(DATA_OWNERS[owner]);
    this.net.push(net);
    this.component.push(component);
    this.name.push(name);
    this.isAdded.push(isAdded);
  }

  // Returns the shapes of a macro in an orientation, each with its pin, or null for obstructions.
  turnedMacro(macro, orientation) {
    const key = `${orientation} ${macro.name}`;
    if (!this.turned.has(key)) {
      const shapes = [...macro.pins.values()].flatMap((pin) => pin.shapes.map(({ layer, rect }) => ({ pin, layer, rect })));
      const all = shapes.concat(macro.obstructions.map(({ layer, rect }) => ({ pin: null, layer, rect })));
      this.turned.set(key, all.map(({ pin, layer, rect }) => ({ pin, layer: layer.number, rect: turned(rect, macro.width, macro.height, orientation) })));
    }
    return this.turned.get(key);
  }

  addComponent({ macro, place, owners, number }) {
    for (const { pin, layer, rect } of this.turnedMacro(macro, place.orientation)) {
      const sides = moved(rect, place.x, place.y);
      if (pin) {
        const net = owners && owners[pin.number];
        const power = pin.use === 'POWER' || pin.use === 'GROUND' ? pin.use : 'TERM';
        this.add(layer, sides, 'PIN', net ? 'NET' : power, net ? net.number : -1, number, this.pins.of(pin.name));
      } else {
        this.add(layer, sides, 'OBS', 'OBS', -1, number, 0);
      }
    }
  }

  addPin({ name, owner, ports }) {
    for (const { shapes, place } of ports) {
      for (const { layer, rect } of place ? shapes : []) {
        const sides = moved(turned(rect, 0, 0, place.orientation), place.x, place.y);
        this.add(layer.number, sides, 'PIN', owner ? 'NET' : 'TERM', owner ? owner.number : -1, -1, this.pins.of(name));
      }
    }
  }

  // Adds the wires of a section. Those of SPECIALNETS are numbered after those that the net has in NETS.
  addWires({ entries, wires }) {
    const isSpecial = entries === this.design.special.entries;
    const [entry, wire, layer, sides] = [wires.entry.numbers, wires.wire.numbers, wires.layer.numbers, wires.sides.numbers];
    for (let at = 0; at < wires.layer.length; at++) {
      const { net } = entries[entry[at]];
      const before = isSpecial && net.regular ? net.regular.wires : 0;
      const rect = [sides[4 * at], sides[4 * at + 1], sides[4 * at + 2], sides[4 * at + 3]];
      this.add(layer[at], rect, 'WIRE', 'NET', net.number, -1, before + wire[at], this.isAddedWire(net, layer[at], rect) ? 1 : 0);
    }
  }

  data() {
    const columns = Object.fromEntries(['layer', 'role', 'owner', 'net', 'component', 'name', 'isAdded'].map((name) => [name, this[name].array()]));
    return { sides: packed(this.sides.array()), ...columns };
  }
}

// What a design has otherwise than the one before it, under the same library: components of another place, and wires.
class Changes {
  constructor(before) {
    this.before = before;
    this.wires = new Set();
    for (const { entries, wires } of [before.regular, before.special]) {
      for (let at = 0; at < wires.layer.length; at++) {
        this.wires.add(wireKey(entries[wires.entry.numbers[at]].net, wires.layer.numbers[at], wires.sides.numbers.subarray(4 * at, 4 * at + 4)));
      }
    }
  }

  isAdded(net, layer, rect) {
    return !this.wires.has(wireKey(net, layer, rect));
  }

  // Returns the components that stand elsewhere or otherwise than before, each with its box and orientation then.
  moves(design) {
    return [...design.components.values()].flatMap(({ name, number, place }) => {
      const was = this.before.components.get(name);
      const isSame = was && was.place && place && was.place.x === place.x && was.place.y === place.y && was.place.orientation === place.orientation;
      if (!was || !place || isSame) return [];
      return [{ component: number, box: boxOf(was), orientation: was.place ? was.place.orientation : '' }];
    });
  }
}

function wireKey(net, layer, rect) {
  return `${net.name} ${layer} ${rect.join(' ')}`;
}

// Returns the data of a block. `answer` is what lefdef printed of it if that is a list of violations, and else null; `before` is the design
// before `legalise`, `route`, `flow` or `finish` printed this one, or null.
function blockData(design, answer, before) {
  const nets = design.numberNets();
  const changes = before ? new Changes(before) : null;
  const shapes = new Shapes(design, changes ? (...wire) => changes.isAdded(...wire) : () => false);
  const macros = new Numbers();
  const components = componentArrays(design, macros);
  const data = {
    title: design.name, name: design.name, units: design.units, die: design.die, hasTracks: false, layers: layerList(design.library), rows: rowList(design),
    tracks: trackList(design),
    names: { components: [...design.components.keys()], macros: macros.names(), nets, pins: shapes.pins.names() },
    components, placements: design.placements(), shapes: shapes.data(), violations: null, kinds: [], moves: changes ? changes.moves(design) : null,
  };
  if (answer !== null) {
    data.violations = new MarkFinder(design, data).marks(answer);
    data.kinds = kindsOf(data.violations);
  }
  return data;
}

function layerList(library) {
  let routing = 0;
  return library.metal().map(({ name, isRouting, width }) => {
    const colour = isRouting ? LAYER_COLOURS[routing++ % LAYER_COLOURS.length] : CUT_COLOUR;
    return { name, colour, isCut: !isRouting, width };
  });
}

function rowList({ rows, library }) {
  return rows.map((row) => {
    const { width, height } = library.sites.get(row.site);
    return { ...row, width, height };
  });
}

// Returns tracks for each layer whose direction they have.
function trackList({ tracks, library }) {
  return tracks.flatMap(({ axis, start, step, count, layers }) => {
    const direction = axis === 'X' ? 'VERTICAL' : 'HORIZONTAL';
    const isOf = (layer) => layer.direction === direction && (layers.includes(layer.name) || !layers.length);
    return library.metal().flatMap((layer, place) => (isOf(layer) ? [{ axis, start, step, count, layer: place }] : []));
  });
}

function componentArrays(design, macros) {
  const components = [...design.components.values()];
  const sides = new Float64Array(4 * components.length);
  components.forEach((component, at) => sides.set(boxOf(component) || [0, 0, 0, 0], 4 * at));
  return {
    sides: packed(sides),
    macro: Int32Array.from(components, ({ macro }) => macros.of(macro.name)),
    status: Uint8Array.from(components, ({ status }) => DATA_STATUSES.indexOf(status)),
    orientation: Uint8Array.from(components, ({ place }) => (place ? ['N', 'S', 'W', 'E', 'FN', 'FS', 'FW', 'FE'].indexOf(place.orientation) : 0)),
  };
}
