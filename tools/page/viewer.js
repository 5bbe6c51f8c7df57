// The page: a block on a canvas with what is chosen and shown, drawn anew at most once a frame.

// The things that can be shown beside layers, with their words in the list of switches.
const SWITCHES = [
  ['components', 'components'], ['rows', 'rows and sites'], ['pins', 'pins'], ['wires', 'wires'], ['obstructions', 'obstructions'],
  ['blockages', 'layer blockages'], ['placements', 'placement blockages'], ['tracks', 'tracks'], ['names', 'names'], ['added', 'added wires'],
  ['moves', 'moves'],
];
const MOST_TOLD = 7;

class Viewer {
  constructor(block, page) {
    this.block = block;
    this.page = page;
    this.canvas = page.getElementById('canvas');
    this.view = new Viewport(block.box);
    this.drawing = new BlockDrawing(block, this.canvas, this.theme());
    this.kinds = new Set(block.kinds.map((kind) => kind.name));
    this.shown = new Set([...SWITCHES.map(([word]) => word), ...block.layers.map((_, number) => `layer ${number}`)]);
    if (!block.hasTracks) this.shown.delete('tracks');
    this.mark = null;
    this.chosen = null;
    this.listeners = [];
    this.ending = new AbortController();
    this.isAsked = false;
    this.fit();
    this.view.showWhole();
    this.ask();
    this.watch(this.canvas.parentElement, () => this.fit());
    this.listen(matchMedia('(prefers-color-scheme: dark)'), 'change', () => this.takeTheme());
  }

  // Calls a function on each event of a kind, until the page is taken from this block.
  listen(target, kind, act, options = {}) {
    target.addEventListener(kind, act, { ...options, signal: this.ending.signal });
  }

  // Calls a function when an element gets another size, until then.
  watch(element, act) {
    const observer = new ResizeObserver(act);
    observer.observe(element);
    this.ending.signal.addEventListener('abort', () => observer.disconnect());
  }

  // Takes the page from this block, for another one.
  close() {
    this.ending.abort();
  }

  // Calls a function when what is chosen or shown has changed.
  onChange(listener) {
    this.listeners.push(listener);
  }

  changed() {
    this.listeners.forEach((listener) => listener());
    this.ask();
  }

  // Returns the colours of the page's style sheet.
  theme() {
    const style = getComputedStyle(this.page.documentElement);
    const names = ['paper', 'ink', 'die', 'edge', 'row', 'site', 'movable', 'fixed', 'placement', 'mark', 'added', 'move'];
    const colours = Object.fromEntries(names.map((name) => [name, style.getPropertyValue(`--${name}`).trim()]));
    return { ...colours, isDark: style.getPropertyValue('--is-dark').trim() === '1' };
  }

  takeTheme() {
    this.drawing.setTheme(this.theme());
    this.changed();
  }

  // Gives the canvas the size of its place on the page.
  fit() {
    const { clientWidth, clientHeight } = this.canvas.parentElement;
    this.ratio = devicePixelRatio || 1;
    const [width, height] = [clientWidth, clientHeight].map((size) => Math.round(size * this.ratio));
    this.view.resize(clientWidth, clientHeight);
    if (width === this.canvas.width && height === this.canvas.height) return;
    this.canvas.width = width;
    this.canvas.height = height;
    this.draw();
  }

  // Asks for a frame; several changes before it are drawn at once.
  ask() {
    if (this.isAsked) return;
    this.isAsked = true;
    requestAnimationFrame(() => {
      this.isAsked = false;
      if (!this.ending.signal.aborted) this.draw();
    });
  }

  draw() {
    const { drawing, view, block } = this;
    drawing.context.setTransform(this.ratio, 0, 0, this.ratio, 0, 0);
    drawing.draw(view, this.shown, this.chosen);
    drawing.drawMarks((mark) => this.kinds.has(mark.kind), this.mark);
    drawing.drawScale();
    this.canvas.dataset.window = view.sides().map(Math.round).join(' ');
    this.canvas.dataset.mark = this.mark === null ? '' : block.numberOf(this.mark);
    this.canvas.dataset.chosen = this.chosen ? this.chosen.words : '';
    this.canvas.dataset.shapes = block.count;
  }

  // Choosing

  // Chooses a violation by its place in the list, and shows where it is.
  chooseMark(mark) {
    this.mark = mark;
    this.chosen = null;
    const { box, outlines } = this.block.marks[mark];
    if (box) this.view.showAround(box, this.reachAround(outlines));
    else this.view.showWhole();
    this.changed();
  }

  // Returns how much of a block around a place shows what it stands among, in database units.
  reachAround(outlines) {
    const widths = this.block.layers.map((layer) => layer.width).filter(Boolean);
    const smallest = outlines.map((box) => Math.min(box[2] - box[0], box[3] - box[1]));
    return Math.max(5 * (widths[0] || 1), ...smallest.slice(0, 2));
  }

  // Chooses the next violation of a kind that is shown, or with -1 the one before.
  step(by) {
    const { marks } = this.block;
    const count = marks.length;
    let mark = this.mark === null ? (by > 0 ? -1 : count) : this.mark;
    for (let tried = 0; tried < count; tried++) {
      mark = (mark + by + count) % count;
      if (this.kinds.has(marks[mark].kind)) {
        this.chooseMark(mark);
        return;
      }
    }
  }

  // Chooses shapes, or a component, by words, and shows them.
  choose(words, shapes, component = null) {
    this.mark = null;
    this.chosen = { words, shapes, component };
    const box = component === null ? this.block.boxOfShapes(shapes) : this.block.boxOfComponent(component);
    if (box) this.view.showAround(box, Math.max(box[2] - box[0], box[3] - box[1]) / 4);
    else this.view.showWhole();
    this.changed();
  }

  chooseNothing() {
    this.mark = this.chosen = null;
    this.changed();
  }

  // Shows a word of `shown` or not.
  show(word, isShown) {
    if (isShown) this.shown.add(word);
    else this.shown.delete(word);
    this.changed();
  }

  showKind(kind, isShown) {
    if (isShown) this.kinds.add(kind);
    else this.kinds.delete(kind);
    if (this.mark !== null && !this.kinds.has(this.block.marks[this.mark].kind)) this.mark = null;
    this.changed();
  }

  // The pointer

  // Returns what lies at a place of the page, a line each: the place, metal from the top down, the component, and violations.
  wordsAt(across, down) {
    const { block, view } = this;
    const [x, y] = [view.xAt(across), view.yAt(down)];
    const reach = 1.5 / view.scale;
    const window = [x - reach, y - reach, x + reach, y + reach];
    const shapes = block.shapesAt(x, y, reach, (group) => this.drawing.shown && this.drawing.isShown(group));
    const metal = shapes.slice(0, MOST_TOLD).map((shape) => this.shapeWords(shape));
    const lines = [`${Math.round(x)} ${Math.round(y)}`, ...metal];
    if (shapes.length > MOST_TOLD) lines.push(`and ${shapes.length - MOST_TOLD} more shapes`);
    const marks = block.marked.within(window).filter((mark) => this.kinds.has(block.marks[mark].kind)).sort((a, b) => a - b);
    lines.push(...marks.slice(0, 3).map((mark) => `violation ${block.numberOf(mark)}: ${block.marks[mark].text}`));
    if (this.shown.has('components')) lines.push(...block.componentsWithin(window).slice(0, 3).map((component) => block.componentWords(component)));
    if (this.shown.has('placements')) lines.push(...this.placementsAt(window));
    return lines;
  }

  placementsAt(window) {
    return this.block.placements.filter(({ box }) => meets(box, window)).map(({ number, box }) => `placement blockage ${number}: ${box.join(' ')}`);
  }

  // Returns the layer, the owner and the sides of a shape, and what it is.
  shapeWords(shape) {
    const { block } = this;
    return `${block.layers[block.shapes.layer[shape]].name}  ${block.ownerOf(shape)}  ${block.boxOfShape(shape).join(' ')}  (${block.roleOf(shape)})`;
  }
}
