// Reading LEF texts (docs/FORMATS.md, "LEF") into a library: layers, sites, vias and macros, in database units.

class Library {
  // `units` is how many database units a micron is.
  constructor(units) {
    this.units = units;
    this.layers = new Map();
    this.sites = new Map();
    this.vias = new Map();
    this.macros = new Map();
  }

  // The layers that have metal, from the bottom up.
  metal() {
    return [...this.layers.values()].filter((layer) => layer.hasMetal);
  }
}

const WIRING_WORDS = new Set(['NEW', 'RECT', 'TAPER', 'TAPERRULE', 'STYLE', 'MASK', 'VIRTUAL', 'DO', ...TURNED_ORIENTATIONS]);

// Returns the lower and the upper routing layer of a good via of these shapes, or null.
function joinedLayers(library, name, shapes) {
  const layers = [...library.layers.values()];
  const used = [...new Set(shapes.map(({ layer }) => layer))].sort((a, b) => a.number - b.number);
  if (WIRING_WORDS.has(name.toUpperCase()) || used.map((layer) => layer.isRouting).join() !== 'true,false,true') return null;
  const [lower, cut, upper] = used;
  if (layers.some((layer) => layer.isRouting && layer.number > lower.number && layer.number < upper.number)) return null;
  const isAround = ([left, low, right, high]) => left < 0 && right > 0 && low < 0 && high > 0;
  return shapes.every(({ layer, rect }) => layer === cut || isAround(rect)) ? { lower, upper } : null;
}

// Reads one LEF text into a library.
class LefReader {
  constructor(words, library) {
    this.words = words;
    this.library = library;
    this.number = () => words.length(library.units);
  }

  read() {
    const { words } = this;
    const forms = this.forms();
    while (words.more()) {
      const word = words.keyword();
      if (Object.hasOwn(forms, word)) forms[word]();
      else if (word === 'VIARULE' || word === 'NONDEFAULTRULE') this.skipNamed(words.take());
      else if (word === 'UNITS' || word === 'PROPERTYDEFINITIONS' || word === 'SPACING') words.skipBlock(word);
      else if (word === 'BEGINEXT') words.skipTo('ENDEXT');
      else if (word === 'END') return;
      else if (word !== ';') words.skipStatement();
    }
  }

  forms() {
    return { LAYER: () => this.layer(), VIA: () => this.via(), SITE: () => this.site(), MACRO: () => this.macro() };
  }

  skipNamed(name) {
    const { words } = this;
    while (words.keyword() !== 'END' || words.word(words.at) !== name);
    words.at++;
  }

  // Takes the statements of a block up to its END and its name. Each is taken by the act of `parts` for its first word, and else passed over.
  block(parts, name) {
    const { words } = this;
    for (let word = words.keyword(); word !== 'END'; word = words.keyword()) {
      if (Object.hasOwn(parts, word)) parts[word]();
      else if (word !== ';') words.skipStatement();
    }
    if (words.take() !== name) throw new Error(`there is no END of ${name}`);
  }

  layer() {
    const { words, library } = this;
    const layer = { name: words.take(), number: library.layers.size, kind: '', direction: null, width: null, spacing: null, table: null };
    const keep = (name) => () => {
      layer[name] = words.keyword();
      words.at++;
    };
    this.block({
      TYPE: keep('kind'), DIRECTION: keep('direction'), WIDTH: () => this.layerLength(layer, 'width'), SPACING: () => this.layerLength(layer, 'spacing'),
      SPACINGTABLE: () => this.spacingTable(layer),
    }, layer.name);
    layer.isRouting = layer.kind === 'ROUTING';
    layer.hasMetal = layer.isRouting || layer.kind === 'CUT';
    layer.width = layer.isRouting ? layer.width : 0;
    layer.spacing = layer.spacing ?? layer.table ?? 0;
    library.layers.set(layer.name, layer);
  }

  // Takes the first width or spacing of one length.
  layerLength(layer, name) {
    const { words } = this;
    if (layer[name] === null && words.isAt(';', words.at + 1)) layer[name] = this.number();
    words.skipStatement();
  }

  // Takes the second length after the first WIDTH of the first table.
  spacingTable(layer) {
    const { words } = this;
    const isRead = words.peek() === 'PARALLELRUNLENGTH' && !layer.hasTable;
    while (!words.isAt(';') && words.peek() !== 'WIDTH') words.at++;
    if (isRead) {
      layer.hasTable = true;
      const row = [1, 2].map((place) => words.word(words.at + place).toUpperCase());
      if (!row.includes(';') && !row.includes('WIDTH') && !words.isAt(';')) {
        words.at += 2;
        layer.table = this.number();
      }
    }
    words.skipStatement();
  }

  // Takes the name of a layer.
  knownLayer() {
    return this.library.layers.get(this.words.take());
  }

  // Takes the words between a via's name and its statements, each once.
  flagsOfVia() {
    const given = new Set();
    while (['DEFAULT', 'TOPOFSTACKONLY', 'GENERATED'].includes(this.words.peek()) && !given.has(this.words.peek())) given.add(this.words.keyword());
  }

  via() {
    const { words, library } = this;
    const name = words.take();
    this.flagsOfVia();
    const shapes = [];
    let [layer, isGood] = [null, true];
    const spoil = () => {
      isGood = false;
      words.skipStatement();
    };
    this.block({
      VIARULE: spoil, POLYGON: spoil,
      LAYER: () => {
        layer = this.knownLayer();
        words.at++;
      },
      RECT: () => {
        if (words.peek() === 'MASK') isGood = false;
        else if (layer.hasMetal) shapes.push({ layer, rect: words.corners(this.number) });
        words.skipStatement();
      },
    }, name);
    const joined = isGood ? joinedLayers(library, name, shapes) : null;
    library.vias.set(name, { name, ...joined, shapes: joined ? shapes : [] });
  }

  // Takes a size after SIZE.
  size() {
    const { words } = this;
    const width = this.number();
    words.at++;
    const height = this.number();
    words.at++;
    return { width, height };
  }

  site() {
    const { words, library } = this;
    const name = words.take();
    let size = null;
    this.block({ SIZE: () => { size = this.size(); } }, name);
    if (!library.sites.has(name)) library.sites.set(name, { name, ...size });
  }

  macro() {
    const { words, library } = this;
    const macro = { name: words.take(), width: 0, height: 0, site: null, hasYSymmetry: false, pins: new Map(), obstructions: [] };
    let origin = [0, 0];
    this.block({
      SIZE: () => Object.assign(macro, this.size()),
      ORIGIN: () => {
        origin = words.pair(this.number);
        words.at++;
      },
      SITE: () => {
        macro.site = words.take();
        words.skipStatement();
      },
      SYMMETRY: () => {
        while (!words.isAt(';')) macro.hasYSymmetry = words.keyword() === 'Y' || macro.hasYSymmetry;
        words.at++;
      },
      PIN: () => this.pin(macro.pins), OBS: () => macro.obstructions.push(...this.geometry()), DENSITY: () => words.skipTo('END'), TIMING: () => words.skipBlock('TIMING'),
    }, macro.name);
    for (const { shapes } of macro.pins.values()) shift(shapes, origin);
    shift(macro.obstructions, origin);
    library.macros.set(macro.name, macro);
  }

  pin(pins) {
    const { words } = this;
    const pin = { name: words.take(), number: pins.size, use: '', shapes: [] };
    this.block({
      USE: () => {
        pin.use = words.keyword();
        words.at++;
      },
      PORT: () => pin.shapes.push(...this.geometry()),
    }, pin.name);
    pins.set(pin.name, pin);
  }

  // Takes the geometry of a port or of obstructions, with its END, and returns its rectangles on layers with metal.
  geometry() {
    const { words } = this;
    const shapes = [];
    let layer = null;
    for (let word = words.keyword(); word !== 'END'; word = words.keyword()) {
      if (word === 'LAYER') layer = this.knownLayer();
      else if (word === 'RECT' && layer.hasMetal) shapes.push({ layer, rect: words.corners(this.number) });
      words.skipStatement();
    }
    return shapes;
  }
}

// Moves shapes by the origin of their macro.
function shift(shapes, [x, y]) {
  for (const shape of shapes) shape.rect = moved(shape.rect, x, y);
}
