// Reading the nets of a DEF text in the wide profile (docs/FORMATS.md, "Nets" and "Wiring"): figures, steps without metal, arrays, vias that are
// turned, masks, and widths of nondefault rules.

class WideNetReader extends NetReader {
  entry(isSpecial) {
    this.rule = isSpecial ? null : this.ruleOfEntry();
    super.entry(isSpecial);
  }

  // Returns the rule that the entry names whose words come next, wherever that stands, or null.
  ruleOfEntry() {
    const { words, design } = this;
    for (let at = words.at; !words.isAt(';', at); at++) {
      if (words.isAt('+', at) && words.word(at + 1).toUpperCase() === 'NONDEFAULTRULE') return design.rules.get(words.word(at + 2));
    }
    return null;
  }

  // Takes a clause that is no wiring: a figure, in SPECIALNETS.
  otherClause(word, entry, wires, isSpecial) {
    if (!isSpecial || !['RECT', 'POLYGON', 'VIA'].includes(word)) super.otherClause(word, entry, wires, isSpecial);
    else if (word === 'VIA') this.viasOfFigure(entry, wires);
    else this.rectsOfFigure(word, entry, wires);
  }

  viasOfFigure(entry, wires) {
    const shapes = this.placedVia().shapes;
    while (this.words.isAt('(')) {
      const [x, y] = this.words.pair(this.number);
      this.add({ entry, wires, x, y }, shapes);
    }
  }

  rectsOfFigure(word, entry, wires) {
    const { words } = this;
    const layer = this.design.library.layers.get(words.take());
    const rects = word === 'RECT' ? [words.corners(this.number)] : slabsAt(words);
    for (const rect of rects.flatMap(segmentsOf)) this.add({ entry, wires, x: 0, y: 0 }, [{ layer, rect }]);
  }

  // A figure may stand behind a status in place of a path.
  wiring(entry, wires, isSpecial) {
    if (!this.words.isAt('+')) super.wiring(entry, wires, isSpecial);
  }

  // Takes what stands behind the layer of a path of NETS, and returns the width of its wires on each layer.
  widths() {
    const { words, design } = this;
    let { rule } = this;
    if (words.takeIf('TAPER')) rule = null;
    else if (words.takeIf('TAPERRULE')) rule = design.rules.get(words.take());
    return (layer) => rule?.widths.get(layer) ?? layer.width;
  }

  item(path) {
    const { words } = this;
    if (words.takeIf('MASK')) words.at++;
    if (!path.isSpecial && words.takeIf('VIRTUAL')) this.virtual(path);
    else super.item(path);
  }

  // Takes the point behind VIRTUAL, from which the path goes on as from its first one.
  virtual(path) {
    this.settle(path);
    Object.assign(path, this.point(path.x, path.y), { segment: null, extension: null });
  }

  // Takes the name of a via, and the orientation behind it, and returns the via as it lies.
  placedVia() {
    const { words } = this;
    const via = this.design.vias.get(words.take());
    const orientation = words.peek();
    if (!TURNED_ORIENTATIONS.includes(orientation)) return via;
    words.at++;
    return { ...via, shapes: via.shapes.map(({ layer, rect }) => ({ layer, rect: turned(rect, 0, 0, orientation) })) };
  }

  // Adds a via at the point of a path, or an array of it.
  addVia(path, via) {
    const { words } = this;
    if (!path.isSpecial || !words.takeIf('DO')) {
      super.addVia(path, via);
      return;
    }
    const columns = words.whole();
    words.at++;
    const rows = words.whole();
    words.at++;
    const [across, up] = [words.whole(), words.whole()];
    for (let row = 0; row < rows; row++) {
      for (let column = 0; column < columns; column++) super.addVia({ ...path, x: path.x + column * across, y: path.y + row * up }, via);
    }
  }
}

// Returns the rectangles of the segments that a rectangle of a special net is: one where a side is even, and else two.
function segmentsOf([left, lower, right, upper]) {
  if ((upper - lower) % 2 === 0 || (right - left) % 2 === 0) return [[left, lower, right, upper]];
  if (upper - lower > 1) return [[left, lower, right, upper - 1], [left, lower + 1, right, upper]];
  return [[left, lower, right - 1, upper], [left + 1, lower, right, upper]];
}
