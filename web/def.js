// Reading a DEF text (docs/FORMATS.md, "DEF") into a design; nets and their wiring are read by NetReader.

const PASSED_LINES = new Set(['VERSION', 'NAMESCASESENSITIVE', 'TECHNOLOGY', 'HISTORY', 'GCELLGRID', 'DIVIDERCHAR', 'BUSBITCHARS', 'UNITS']);
const PASSED_SECTIONS = new Set([
  'PROPERTYDEFINITIONS', 'NONDEFAULTRULES', 'REGIONS', 'FILLS', 'SLOTS', 'STYLES', 'SCANCHAINS', 'GROUPS', 'PINPROPERTIES']);
const PLACE_WORDS = new Set(['PLACED', 'FIXED', 'COVER']);

// Returns how many database units a micron is: the number after the first words UNITS DISTANCE MICRONS that follow one another.
function unitsOf(words) {
  for (let at = 0; at < words.count; at++) {
    if (words.ends[at] - words.starts[at] !== 5) continue;
    if (['UNITS', 'DISTANCE', 'MICRONS'].every((word, place) => words.word(at + place).toUpperCase() === word)) {
      words.at = at + 3;
      const units = words.whole();
      words.at = 0;
      return units;
    }
  }
  throw new Error('the DEF has no units');
}

// What a DEF text denotes, in its database units. Records are kept by their names, in the order of the text.
class Design {
  constructor(library) {
    this.library = library;
    this.units = library.units;
    this.name = this.die = null;
    this.rows = [];
    this.tracks = [];
    this.vias = new Map(library.vias);
    this.components = new Map();
    this.pins = new Map();
    this.blockages = [];
    this.nets = new Map();
    // the entries of NETS and of SPECIALNETS: { net, terminals, wires }, with the metal of their wires
    this.regular = { entries: [], wires: new WireColumns() };
    this.special = { entries: [], wires: new WireColumns() };
  }

  // Returns the net of this name, which is made where there is none.
  net(name) {
    if (!this.nets.has(name)) this.nets.set(name, { name, regular: null, special: null, number: -1 });
    return this.nets.get(name);
  }

  // Returns the placement blockages, rectangle by rectangle.
  placements() {
    return this.blockages.flatMap(({ layer, rects }, at) => (layer ? [] : rects.map((rect) => ({ number: at + 1, box: rect }))));
  }

  // Numbers the nets: those of NETS in their order, and then those of SPECIALNETS alone.
  numberNets() {
    const alone = this.special.entries.filter(({ net }) => !net.regular);
    [...this.regular.entries, ...alone].forEach(({ net }, at) => { net.number = at; });
    return [...this.regular.entries, ...alone].map(({ net }) => net.name);
  }
}

// Returns the box of a component, or null where it has no place.
function boxOf({ macro, place }) {
  if (!place) return null;
  const isLying = ['W', 'E', 'FW', 'FE'].includes(place.orientation);
  const [width, height] = isLying ? [macro.height, macro.width] : [macro.width, macro.height];
  return [place.x, place.y, place.x + width, place.y + height];
}

class DefReader {
  constructor(words, library) {
    this.words = words;
    this.library = library;
    this.design = new Design(library);
    this.number = () => words.whole();
  }

  read() {
    const { words } = this;
    const nets = this.netReader();
    const forms = this.forms();
    const entries = {
      VIAS: () => this.via(), COMPONENTS: () => this.component(), PINS: () => this.pin(), BLOCKAGES: () => this.blockage(),
      SPECIALNETS: () => nets.entry(true), NETS: () => nets.entry(false),
    };
    for (let word = words.keyword(); word !== 'END'; word = words.keyword()) {
      if (Object.hasOwn(forms, word)) forms[word]();
      else if (Object.hasOwn(entries, word)) this.section(entries[word]);
      else if (PASSED_LINES.has(word)) words.skipStatement();
      else if (PASSED_SECTIONS.has(word)) words.skipBlock(word);
      else if (word === 'BEGINEXT') words.skipTo('ENDEXT');
      else throw new Error(`${word} is no form of a DEF`);
    }
    this.joinPins();
    return this.design;
  }

  netReader() {
    return new NetReader(this.words, this.design);
  }

  forms() {
    return { DESIGN: () => this.name(), DIEAREA: () => this.die(), ROW: () => this.row(), TRACKS: () => this.tracks() };
  }

  // Gives each pin of the design that no net lists the net that it names, where that is an entry.
  joinPins() {
    for (const pin of this.design.pins.values()) {
      const net = pin.owner ? null : this.design.nets.get(pin.net);
      if (net) {
        pin.owner = net;
        (net.regular || net.special).terminals.push(['PIN', pin.name]);
      }
    }
  }

  // Takes a section after its word, each entry by `entry`.
  section(entry) {
    const { words } = this;
    words.skipStatement();
    while (words.take() === '-') entry();
    words.at++;
  }

  // Takes the clauses of an entry and its semicolon, each after its + and its first word by `clause`.
  clauses(clause) {
    const { words } = this;
    while (words.take() === '+') clause(words.keyword());
  }

  skipClause() {
    const { words } = this;
    while (!words.isAt('+') && !words.isAt(';')) words.take();
  }

  name() {
    this.design.name = this.words.take();
    this.words.at++;
  }

  die() {
    const { words } = this;
    const points = [];
    while (!words.isAt(';')) points.push(words.pair(this.number));
    words.at++;
    this.design.die = ordered(...points[0], ...points[points.length === 4 ? 2 : 1]);
  }

  row() {
    const { words } = this;
    const [name, site, x, y, orientation] = [words.take(), words.take(), words.whole(), words.whole(), words.keyword()];
    const count = words.takeIf('DO') ? words.whole() : 1;
    words.skipStatement();
    this.design.rows.push({ name, site, x, y, orientation, count });
  }

  tracks() {
    const { words } = this;
    const axis = words.keyword();
    const start = words.whole();
    words.at++;
    const count = words.whole();
    words.at++;
    const step = words.whole();
    const layers = this.tracksLayers();
    words.at++;
    this.design.tracks.push({ axis, start, step, count, layers });
  }

  // Takes the layers of tracks, up to their semicolon.
  tracksLayers() {
    const { words } = this;
    const layers = [];
    if (words.takeIf('LAYER')) while (!words.isAt(';')) layers.push(words.take());
    return layers;
  }

  layer() {
    return this.library.layers.get(this.words.take());
  }

  via() {
    const { words, design } = this;
    const name = words.take();
    const shapes = [];
    this.clauses((word) => {
      if (word !== 'RECT') return this.skipClause();
      const layer = this.layer();
      const rect = words.corners(this.number);
      return layer.hasMetal && shapes.push({ layer, rect });
    });
    design.vias.set(name, { name, ...joinedLayers(this.library, name, shapes), shapes });
  }

  component() {
    const { words, design } = this;
    const name = words.take();
    const component = { name, number: design.components.size, macro: this.library.macros.get(words.take()), status: 'UNPLACED', place: null, owners: null };
    this.clauses((word) => {
      if (!PLACE_WORDS.has(word)) return this.skipClause();
      component.status = word;
      component.place = this.place();
      return null;
    });
    design.components.set(name, component);
  }

  place() {
    const [x, y] = this.words.pair(this.number);
    return { x, y, orientation: this.words.keyword() };
  }

  pin() {
    const { words, design } = this;
    const pin = { name: words.take(), net: null, owner: null, ports: [] };
    const port = (isNew) => {
      if (isNew || !pin.ports.length) pin.ports.push({ shapes: [], place: null });
      return pin.ports[pin.ports.length - 1];
    };
    this.clauses((word) => {
      if (word === 'NET') pin.net = words.take();
      else if (word === 'PORT') port(true);
      else this.portClause(word, () => port(false));
    });
    design.pins.set(pin.name, pin);
  }

  // Takes the rest of a clause of a port, which `port` returns.
  portClause(word, port) {
    if (word === 'LAYER') this.portLayer(port());
    else if (PLACE_WORDS.has(word)) port().place = this.place();
    else this.skipClause();
  }

  // Takes the layer of a shape of a port, and what may stand behind it.
  layerOfPort() {
    const layer = this.layer();
    for (const word of ['SPACING', 'DESIGNRULEWIDTH']) if (this.words.takeIf(word)) this.words.whole();
    return layer;
  }

  portLayer(port) {
    const { words } = this;
    const layer = this.layerOfPort();
    const rect = words.corners(this.number);
    if (layer.hasMetal) port.shapes.push({ layer, rect });
  }

  blockage() {
    const { words } = this;
    const layer = words.keyword() === 'LAYER' ? this.layer() : null;
    const rects = [];
    while (!words.isAt(';')) {
      if (words.takeIf('RECT')) rects.push(words.corners(this.number));
      else words.take();
    }
    words.at++;
    if (!layer || layer.hasMetal) this.design.blockages.push({ layer, rects });
  }
}
