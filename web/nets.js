// Reading the nets of a DEF text and their wiring (docs/FORMATS.md, "Nets" and "Wiring").

// The metal of wires, a rectangle each: the place of its entry in the section, the number of its wire in the entry, its layer, its sides.
class WireColumns {
  constructor() {
    this.entry = new Column(Int32Array);
    this.wire = new Column(Int32Array);
    this.layer = new Column(Int32Array);
    this.sides = new Column(Float64Array);
  }

  add(entry, wire, layer, rect) {
    this.entry.push(entry);
    this.wire.push(wire);
    this.layer.push(layer.number);
    for (const side of rect) this.sides.push(side);
  }

  // Gives the rectangle of this number other sides.
  change(at, rect) {
    this.sides.numbers.set(rect, 4 * at);
  }
}

// Returns the rectangle of a straight wire between two points, with its width and how far it reaches past each of them.
function segmentRect({ x1, y1, x2, y2, width, before }, after) {
  const half = Math.floor(width / 2);
  if (y1 === y2) return x1 > x2 ? [x2 - after, y1 - half, x1 + before, y1 + half] : [x1 - before, y1 - half, x2 + after, y1 + half];
  return y1 > y2 ? [x1 - half, y2 - after, x1 + half, y1 + before] : [x1 - half, y1 - before, x1 + half, y2 + after];
}

class NetReader {
  constructor(words, design) {
    this.words = words;
    this.design = design;
    this.number = () => words.whole();
  }

  entry(isSpecial) {
    const { words, design } = this;
    const net = design.net(words.take());
    const section = isSpecial ? design.special : design.regular;
    const entry = { net, number: section.entries.length, terminals: [], wires: 0 };
    net[isSpecial ? 'special' : 'regular'] = entry;
    section.entries.push(entry);
    while (words.isAt('(')) this.terminal(entry, isSpecial);
    while (words.take() === '+') {
      const word = words.keyword();
      if (word === 'SHIELD' && isSpecial) words.take();
      if (['ROUTED', 'FIXED', 'COVER', isSpecial ? 'SHIELD' : 'NOSHIELD'].includes(word)) this.wiring(entry, section.wires, isSpecial);
      else this.otherClause(word, entry, section.wires, isSpecial);
    }
  }

  // Takes a clause that is no wiring.
  otherClause() {
    const { words } = this;
    while (!words.isAt('+') && !words.isAt(';')) words.take();
  }

  terminal(entry, isSpecial) {
    const { words, design } = this;
    words.at++;
    const [name, pin] = [words.take(), words.take()];
    if (isSpecial && name === '*') {
      for (const component of design.components.values()) if (component.macro.pins.has(pin)) this.join(entry, component, pin);
    } else if (name.toUpperCase() === 'PIN') {
      design.pins.get(pin).owner = entry.net;
      entry.terminals.push(['PIN', pin]);
    } else {
      this.join(entry, design.components.get(name), pin);
    }
    while (words.take() !== ')');
  }

  join(entry, component, pin) {
    component.owners = component.owners || [];
    component.owners[component.macro.pins.get(pin).number] = entry.net;
    entry.terminals.push([component.name, pin]);
  }

  wiring(entry, wires, isSpecial) {
    do this.path(entry, wires, isSpecial);
    while (this.words.takeIf('NEW'));
  }

  // Takes one path, up to NEW, + or ;. An extension that is written at a point holds for both segments that meet there.
  path(entry, wires, isSpecial) {
    const { words } = this;
    const layer = this.design.library.layers.get(words.take());
    const widthOn = isSpecial ? null : this.widths();
    const width = isSpecial ? this.specialWidth() : widthOn(layer);
    const path = { entry, wires, isSpecial, layer, width, widthOn, segment: null, ...this.point(0, 0) };
    while (!words.isAt('+') && !words.isAt(';') && words.peek() !== 'NEW') this.item(path);
    this.settle(path);
  }

  // Takes what stands behind the layer of a path of NETS, and returns the width of its wires on each layer.
  widths() {
    this.words.takeIf('TAPER');
    return (layer) => layer.width;
  }

  item(path) {
    const { words } = this;
    if (words.isAt('(')) this.segment(path);
    else if (!path.isSpecial && words.takeIf('RECT')) this.add(path, [{ layer: path.layer, rect: this.patch() }]);
    else this.via(path);
  }

  // Adds a wire of these shapes at the point of a path.
  add({ entry, wires, x, y }, shapes) {
    entry.wires++;
    for (const { layer, rect } of shapes) wires.add(entry.number, entry.wires, layer, moved(rect, x, y));
  }

  segment(path) {
    const to = this.point(path.x, path.y);
    if (to.x === path.x && to.y === path.y) {
      path.extension = to.extension ?? path.extension;
      return;
    }
    this.settle(path);
    const { entry, wires, layer, width, x, y, extension } = path;
    const half = path.isSpecial ? 0 : width / 2;
    entry.wires++;
    path.segment = { at: wires.layer.length, x1: x, y1: y, x2: to.x, y2: to.y, width, before: extension ?? half };
    wires.add(entry.number, entry.wires, layer, segmentRect(path.segment, half));
    Object.assign(path, to);
  }

  // Gives the segment that ends at the point of a path the extension that was written there, if any was.
  settle({ wires, segment, extension }) {
    if (segment && extension !== null) wires.change(segment.at, segmentRect(segment, extension));
  }

  // Takes the name of a via, and goes on with its other layer.
  via(path) {
    const via = this.placedVia();
    this.addVia(path, via);
    path.layer = path.layer === via.lower ? via.upper : via.lower;
    if (!path.isSpecial) path.width = path.widthOn(path.layer);
  }

  // Takes the name of a via, and N behind it, and returns the via.
  placedVia() {
    const via = this.design.vias.get(this.words.take());
    this.words.takeIf('N');
    return via;
  }

  // Adds a via at the point of a path.
  addVia(path, via) {
    this.add(path, via.shapes);
  }

  // Takes a point of a path and its extension, null where none is written; * stands for a coordinate of the point before.
  point(lastX, lastY) {
    const { words } = this;
    words.at++;
    const coordinate = (last) => {
      if (!words.isAt('*')) return words.whole();
      words.at++;
      return last;
    };
    const [x, y] = [coordinate(lastX), coordinate(lastY)];
    const extension = words.isAt(')') ? null : words.whole();
    words.at++;
    return { x, y, extension };
  }

  specialWidth() {
    const { words } = this;
    const width = words.whole();
    while (words.isAt('+')) words.at += 3;
    return width;
  }

  // Takes the four sides of a patch, relative to a point.
  patch() {
    const { words } = this;
    words.at++;
    const sides = [words.whole(), words.whole(), words.whole(), words.whole()];
    words.at++;
    return ordered(...sides);
  }
}
