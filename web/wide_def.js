// Reading a DEF text in the wide profile (docs/FORMATS.md, "Profiles"); its nets are read by WideNetReader.

const GREATEST_WIDTH = 2e9;

class WideDefReader extends DefReader {
  // `soft` is what becomes of placement blockages that are soft or partial: 'drop', or 'hard'.
  constructor(words, library, soft) {
    super(words, library);
    this.soft = soft;
    this.design.rules = new Map(library.rules);
  }

  netReader() {
    return new WideNetReader(this.words, this.design);
  }

  forms() {
    return { ...super.forms(), COMPONENTMASKSHIFT: () => this.words.skipStatement(), NONDEFAULTRULES: () => this.rules() };
  }

  skipMask() {
    if (!this.words.takeIf('MASK')) return;
    this.words.at++;
    this.words.takeIf('SAMEMASK');
  }

  // Takes a row, and leaves it out if it is turned or of several lines.
  row() {
    const { words, design } = this;
    const begin = words.at;
    super.row();
    const lines = words.word(begin + 7).toUpperCase() === 'BY' ? Number(words.word(begin + 8)) : 1;
    if (lines > 1 || ['W', 'E', 'FW', 'FE'].includes(design.rows[design.rows.length - 1].orientation)) design.rows.pop();
  }

  // Takes the section of rules, and keeps those of its entries that are rules.
  rules() {
    const { words, design } = this;
    const begin = words.at;
    words.skipBlock('NONDEFAULTRULES');
    const end = words.at - 2;
    const found = new Map();
    const isSection = /^[+-]?[0-9]+$/.test(words.word(begin)) && words.isAt(';', begin + 1) && words.isAt(';', end - 1);
    for (let at = begin + 2; isSection && at < end;) {
      let next = at;
      while (!words.isAt(';', next)) next++;
      const rule = this.ruleOf(at, next);
      if (rule && !found.has(rule.name)) found.set(rule.name, rule);
      at = next + 1;
    }
    design.rules = new Map([...this.library.rules, ...found]);
  }

  // Returns the rule of the entry of the words from a place up to another one, or null.
  ruleOf(begin, end) {
    const { words, library } = this;
    const rule = { name: words.word(begin + 1), widths: new Map() };
    if (!words.isAt('-', begin) || end < begin + 2 || words.isAt('+', begin + 1) || (end > begin + 2 && !words.isAt('+', begin + 2))) return null;
    for (let at = begin + 2; at < end; at++) {
      if (!words.isAt('+', at) || words.word(at + 1).toUpperCase() !== 'LAYER') continue;
      const layer = library.layers.get(words.word(at + 2));
      const width = /^[+]?[0-9]+$/.test(words.word(at + 4)) && at + 4 < end ? Number(words.word(at + 4)) : 0;
      if (!layer || !layer.hasMetal || words.word(at + 3).toUpperCase() !== 'WIDTH' || width < 1 || width > GREATEST_WIDTH || rule.widths.has(layer)) return null;
      rule.widths.set(layer, width);
    }
    return rule;
  }

  tracksLayers() {
    this.skipMask();
    return super.tracksLayers();
  }

  via() {
    const { words, design, library } = this;
    if (!this.isGenerated()) {
      super.via();
      return;
    }
    const [name, found] = [words.take(), {}];
    this.clauses((word) => {
      if (!takeOfVia(words, found, word, () => this.layer(), this.number)) this.skipClause();
    });
    const shapes = generatedShapes(found);
    design.vias.set(name, { name, ...joinedLayers(library, name, shapes), shapes });
  }

  // Whether the entry of VIAS whose words come next has the clause VIARULE.
  isGenerated() {
    const { words } = this;
    for (let at = words.at; !words.isAt(';', at); at++) if (words.isAt('+', at) && words.word(at + 1).toUpperCase() === 'VIARULE') return true;
    return false;
  }

  portClause(word, port) {
    if (word === 'VIA') this.viaOfPort(port());
    else if (word === 'POLYGON') this.polygonOfPort(port());
    else super.portClause(word, port);
  }

  viaOfPort(port) {
    const via = this.design.vias.get(this.words.take());
    this.skipMask();
    port.shapes.push(...movedShapes(via.shapes, ...this.words.pair(this.number)));
  }

  polygonOfPort(port) {
    const layer = this.layerOfPort();
    const slabs = this.slabs();
    if (layer.hasMetal) port.shapes.push(...slabs.map((rect) => ({ layer, rect })));
  }

  layerOfPort() {
    const layer = this.layer();
    this.skipMask();
    for (const word of ['SPACING', 'DESIGNRULEWIDTH']) if (this.words.takeIf(word)) this.words.whole();
    return layer;
  }

  slabs() {
    return slabsAt(this.words);
  }

  blockage() {
    const { words, design } = this;
    const layer = words.keyword() === 'LAYER' ? this.layer() : null;
    let isKept = !layer || layer.hasMetal;
    while (words.takeIf('+')) isKept = this.keepsBlockage(words.keyword()) && isKept;
    const rects = [];
    while (!words.isAt(';')) {
      if (words.keyword() === 'RECT') rects.push(words.corners(this.number));
      else rects.push(...this.slabs());
    }
    words.at++;
    if (isKept) design.blockages.push({ layer, rects });
  }

  // Takes the rest of a clause of a blockage, and returns whether the blockage is kept.
  keepsBlockage(word) {
    if (['COMPONENT', 'PARTIAL', 'MASK'].includes(word)) this.words.at++;
    if (word === 'SOFT' || word === 'PARTIAL') return this.soft !== 'drop';
    return word !== 'SLOTS' && word !== 'FILLS';
  }
}

// Takes the points of a polygon of a DEF, where `*` is a coordinate of the point before, and returns its slabs.
function slabsAt(words) {
  const points = [];
  let last = [0, 0];
  const coordinate = (axis) => {
    if (!words.isAt('*')) return words.whole();
    words.at++;
    return last[axis];
  };
  while (words.isAt('(')) {
    words.at++;
    last = [coordinate(0), coordinate(1)];
    words.at++;
    points.push(last);
  }
  return slabsOf(points);
}
