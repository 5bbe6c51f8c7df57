// Reading LEF texts in the wide profile (docs/FORMATS.md, "Profiles"): copies, polygons, paths and vias in geometries, generated vias, nondefault
// rules, and macros that are left out.

const LENGTH = /^[+-]?[0-9]*[.]?[0-9]*$/;
// A length of at most six decimals that isn't below 0.
const WIDTH_OF_PATHS = /^[+]?(?=[.]?[0-9])[0-9]*[.]?[0-9]{0,6}0*$/;
const MOST_MILLIONTHS = 2e15;

class WideLefReader extends LefReader {
  constructor(words, library) {
    super(words, library);
    library.rules = library.rules || new Map();
    // (what is left out may have anything in a length's place)
    this.number = () => {
      if (!LENGTH.test(words.word(words.at)) || !words.more()) throw new Error('a length is missing');
      return words.length(library.units);
    };
  }

  forms() {
    return { ...super.forms(), NONDEFAULTRULE: () => this.rule() };
  }

  skipMask() {
    if (this.words.takeIf('MASK')) this.words.at++;
  }

  // Takes a via. One that is kept by its name alone is named by no wire, so it does not matter where its metal would be.
  via() {
    const { words, library } = this;
    const name = words.take();
    this.flagsOfVia();
    const begin = words.at;
    let shapes = [];
    try {
      shapes = this.shapesOfVia();
    } catch {
      shapes = [];
    }
    words.at = begin;
    this.block({}, name);
    const joined = shapes.every(({ layer }) => layer) ? joinedLayers(library, name, shapes) : null;
    library.vias.set(name, { name, ...joined, shapes: joined ? shapes : [] });
  }

  // Returns the shapes of the statements of a via.
  shapesOfVia() {
    const { words } = this;
    const [shapes, found] = [[], {}];
    let [layer, isGenerated] = [null, false];
    for (let word = words.keyword(); word !== 'END'; word = words.keyword()) {
      if (word === 'VIARULE') isGenerated = true;
      else if (word === 'LAYER') layer = this.knownLayer();
      else if (word === 'RECT' || word === 'POLYGON') shapes.push(...this.drawn(word, layer));
      else takeOfVia(words, found, word, () => this.knownLayer(), this.number);
      if (word !== ';') words.skipStatement();
    }
    return isGenerated ? generatedShapes(found) : shapes;
  }

  // Takes a rectangle or a polygon, or copies of it, up to its semicolon, and returns the shapes; none on a layer without metal.
  drawn(word, layer) {
    const { words } = this;
    if (!layer.hasMetal) return [];
    this.skipMask();
    const isCopied = words.takeIf('ITERATE');
    const rects = word === 'RECT' ? [words.corners(this.number)] : this.slabs();
    const shapes = rects.map((rect) => ({ layer, rect }));
    return isCopied ? this.copies(shapes) : shapes;
  }

  slabs() {
    const { words } = this;
    const points = [];
    while (!words.isAt(';') && words.peek() !== 'DO') points.push(words.pair(this.number));
    return slabsOf(points);
  }

  // Takes DO n BY m STEP x y, and returns so many copies of shapes, row by row.
  copies(shapes) {
    const { words } = this;
    words.at++;
    const columns = words.whole();
    words.at++;
    const rows = words.whole();
    words.at++;
    const [across, up] = [this.number(), this.number()];
    const found = [];
    for (let row = 0; row < rows; row++) for (let column = 0; column < columns; column++) found.push(...movedShapes(shapes, column * across, row * up));
    return found;
  }

  // Takes the via of a geometry, or copies of it, up to its semicolon.
  placedVia() {
    const { words, library } = this;
    const isCopied = words.takeIf('ITERATE');
    this.skipMask();
    const [x, y] = words.pair(this.number);
    const shapes = movedShapes(library.vias.get(words.take()).shapes, x, y);
    return isCopied ? this.copies(shapes) : shapes;
  }

  // Takes a width of paths, and returns it in millionths of a micron; one that is malformed is 0.
  writtenWidth() {
    return WIDTH_OF_PATHS.test(this.words.word(this.words.at)) ? this.words.length(MILLION) : 0;
  }

  // Returns half the width of a path in units: of the WIDTH that was written, or where there is none of the layer's wires.
  halfOfPath(layer, written) {
    const { units } = this.library;
    const width = written ?? layer.width * MILLION / units;
    if (width === 0 || width > MOST_MILLIONTHS || width % 2) throw new Error('a path has no width, or an odd one');
    return width * units / 2 / MILLION;
  }

  // Takes a path up to its semicolon, and returns a rectangle for each of its lines; none on a layer without metal.
  path(layer, width) {
    const { words } = this;
    if (!layer.hasMetal) return [];
    const half = this.halfOfPath(layer, width);
    this.skipMask();
    const points = [words.pair(this.number)];
    while (!words.isAt(';')) points.push(words.pair(this.number));
    if (points.length === 1) points.push(points[0]);
    return points.slice(1).map((to, before) => ({ layer, rect: aroundLine(points[before], to, half) }));
  }

  geometry() {
    const { words } = this;
    const shapes = [];
    let [layer, width] = [null, null];
    for (let word = words.keyword(); word !== 'END'; word = words.keyword()) {
      if (word === 'LAYER') {
        layer = this.knownLayer();
        width = null;
      } else if (word === 'WIDTH') width = this.writtenWidth();
      else if (word === 'RECT' || word === 'POLYGON') shapes.push(...this.drawn(word, layer));
      else if (word === 'PATH') shapes.push(...this.path(layer, width));
      else if (word === 'VIA' && (!layer || layer.hasMetal)) shapes.push(...this.placedVia());
      words.skipStatement();
    }
    return shapes;
  }

  // Takes a macro. One that is none is left out, up to its first END: no component is of it.
  macro() {
    const { words } = this;
    const begin = words.at;
    try {
      super.macro();
    } catch {
      words.at = begin;
      this.skipNamed(words.take());
    }
  }

  rule() {
    const { words, library } = this;
    const rule = { name: words.take(), widths: new Map() };
    this.block({ LAYER: () => this.layerOfRule(rule.widths), VIA: () => this.via(), SPACING: () => words.skipBlock('SPACING') }, rule.name);
    library.rules.set(rule.name, rule);
  }

  layerOfRule(widths) {
    const layer = this.knownLayer();
    this.block({
      WIDTH: () => {
        widths.set(layer, this.number());
        this.words.at++;
      },
    }, layer.name);
  }
}

// Returns the rectangle that reaches so far around a straight line.
function aroundLine([x1, y1], [x2, y2], half) {
  if (x1 !== x2 && y1 !== y2) throw new Error('a path has a slanted line');
  return [Math.min(x1, x2) - half, Math.min(y1, y2) - half, Math.max(x1, x2) + half, Math.max(y1, y2) + half];
}

function movedShapes(shapes, x, y) {
  return shapes.map(({ layer, rect }) => ({ layer, rect: moved(rect, x, y) }));
}
