// Draws a block on a canvas. What is shown is told by a Viewport and by `shown`, a set of words: 'rows', 'components', 'placements',
// 'tracks', 'names', 'moves', 'added', 'pins', 'wires', 'obstructions', 'blockages', and 'layer 0', 'layer 1' and so on.

const SHOWN_AS = new Map([[PIN, 'pins'], [OBSTRUCTION, 'obstructions'], [BLOCKAGE, 'blockages'], [WIRE, 'wires']]);
const OPACITIES = new Map([[PIN, 0.6], [OBSTRUCTION, 0.5], [BLOCKAGE, 0.5], [WIRE, 0.45]]);
// With more shapes than this in sight, or more components, those that cover fewer than so many pixels are drawn as dust, and none has a
// line around it.
const MOST_DETAILED = 6000;
const MOST_BOXES = 1500;
const LARGE = 100;
const MOST_NAMED = 1500;

// Returns [red, green, blue] of a colour '#rrggbb'.
function partsOf(colour) {
  return [1, 3, 5].map((at) => parseInt(colour.slice(at, at + 2), 16));
}

// Returns a colour between two, the second by a part from 0 to 1.
function mixed(a, b, part) {
  const other = partsOf(b);
  return `#${partsOf(a).map((value, at) => Math.round(value + (other[at] - value) * part).toString(16).padStart(2, '0')).join('')}`;
}

class BlockDrawing {
  constructor(block, canvas, theme) {
    this.block = block;
    this.canvas = canvas;
    this.context = canvas.getContext('2d');
    this.dust = new Dust();
    this.setTheme(theme);
  }

  // Takes the colours of the page: { paper, ink, die, edge, row, site, movable, fixed, placement, mark, added, move, isDark }.
  setTheme(theme) {
    this.theme = theme;
    this.colours = this.block.layers.map(({ colour, isCut }) => (theme.isDark ? mixed(colour, '#ffffff', isCut ? 0.8 : 0.25) : colour));
    this.hatches = new Map();
  }

  // Returns a pattern of slanted lines in a colour.
  hatch(colour, isRising) {
    const key = `${colour} ${isRising}`;
    if (!this.hatches.has(key)) {
      const tile = document.createElement('canvas');
      tile.width = tile.height = 8;
      const context = tile.getContext('2d');
      context.strokeStyle = colour;
      context.lineWidth = 1.5;
      for (const shift of [-8, 0, 8]) {
        context.moveTo(shift - 1, isRising ? 9 : -1);
        context.lineTo(shift + 9, isRising ? -1 : 9);
      }
      context.stroke();
      this.hatches.set(key, this.context.createPattern(tile, 'repeat'));
    }
    return this.hatches.get(key);
  }

  // Draws all but marks of violations, which come over it.
  draw(view, shown, chosen) {
    this.view = view;
    this.sides = view.sides();
    this.shown = shown;
    const { context } = this;
    const groups = this.block.groups.filter((group) => this.isShown(group));
    const count = groups.reduce((sum, group) => sum + group.grid.count(this.sides), 0);
    this.isDetailed = count <= MOST_DETAILED;
    context.fillStyle = this.theme.paper;
    context.fillRect(0, 0, view.width, view.height);
    this.dust.begin(view.width, view.height);
    this.drawFloor();
    if (!this.isDetailed) groups.forEach((group) => this.addDust(group));
    this.dust.paint(context);
    if (shown.has('placements')) this.drawPlacements();
    if (shown.has('tracks')) this.drawTracks();
    groups.forEach((group) => this.drawGroup(group));
    if (chosen && chosen.shapes.length) this.drawChosen(chosen);
    if (shown.has('names')) this.drawNames(groups);
    if (shown.has('moves')) this.drawMoves();
    if (chosen && chosen.component !== null) this.outlineComponent(chosen.component);
  }

  isShown(group) {
    return this.shown.has(`layer ${group.layer}`) && this.shown.has(group.isAdded ? 'added' : SHOWN_AS.get(group.role));
  }

  colourOf(group) {
    return group.isAdded ? this.theme.added : this.colours[group.layer];
  }

  // Calls `draw(left, upper, width, height, item)` with what is seen, in pixels, of each rectangle of a grid that has at least so many.
  eachSeen(grid, draw, pixels = 0) {
    const { view } = this;
    const least = pixels / view.scale / view.scale;
    const { sides, items } = grid;
    const [left, lower, right, upper] = this.sides;
    grid.visit(this.sides, (from, to) => {
      for (let at = from; at < to; at++) {
        const side = 4 * at;
        if ((sides[side + 2] - sides[side]) * (sides[side + 3] - sides[side + 1]) < least) continue;
        if (sides[side] > right || sides[side + 2] < left || sides[side + 1] > upper || sides[side + 3] < lower) continue;
        const x1 = view.across(Math.max(sides[side], left));
        const y1 = view.down(Math.min(sides[side + 3], upper));
        draw(x1, y1, view.across(Math.min(sides[side + 2], right)) - x1, view.down(Math.max(sides[side + 1], lower)) - y1, items[at]);
      }
    });
  }

  // Draws a rectangle of the block, given by its sides, with the canvas's colours.
  box(box, isFilled, isStroked) {
    if (!meets(box, this.sides)) return;
    // (what reaches far out of sight is cut, so that numbers of pixels stay small)
    const [x1, x2] = [box[0], box[2]].map((x) => Math.min(Math.max(this.view.across(x), -8), this.view.width + 8));
    const [y1, y2] = [box[3], box[1]].map((y) => Math.min(Math.max(this.view.down(y), -8), this.view.height + 8));
    if (isFilled) this.context.fillRect(x1, y1, x2 - x1, y2 - y1);
    if (isStroked) this.context.strokeRect(x1, y1, x2 - x1, y2 - y1);
  }

  drawFloor() {
    const { context, theme, block } = this;
    context.fillStyle = theme.die;
    this.box(block.die, true, false);
    if (this.shown.has('rows')) this.drawRows();
    if (this.shown.has('components')) this.drawComponents();
    context.strokeStyle = theme.edge;
    context.lineWidth = 1.5;
    this.box(block.die, false, true);
  }

  drawRows() {
    const { context, theme, view } = this;
    const seen = this.block.rows.map((row) => ({ row, box: [row.x, row.y, row.x + row.count * row.width, row.y + row.height] }))
      .filter(({ box }) => meets(box, this.sides));
    context.fillStyle = theme.row;
    context.strokeStyle = theme.site;
    context.lineWidth = 1;
    for (const { row, box } of seen) {
      this.box(box, true, row.height * view.scale > 5);
      if (row.width * view.scale < 6) continue;
      const first = Math.max(Math.floor((this.sides[0] - row.x) / row.width), 1);
      const last = Math.min(Math.ceil((this.sides[2] - row.x) / row.width), row.count - 1);
      context.beginPath();
      for (let site = first; site <= last; site++) {
        context.moveTo(view.across(row.x + site * row.width), view.down(row.y));
        context.lineTo(view.across(row.x + site * row.width), view.down(row.y + row.height));
      }
      context.stroke();
    }
  }

  drawComponents() {
    for (const { grid, isFixed } of this.block.places) {
      const fill = isFixed ? this.theme.fixed : this.theme.movable;
      if (grid.count(this.sides) > MOST_BOXES) {
        this.drawManyBoxes(grid, fill);
      } else {
        this.drawBoxes(grid.within(this.sides), fill);
      }
    }
  }

  // Draws the boxes of many components, with a gap between those that abut in place of lines.
  drawManyBoxes(grid, fill) {
    const { context, dust } = this;
    dust.take(partsOf(fill), 0.9);
    grid.visit(this.sides, (from, to) => dust.addRange(grid, from, to, this.view, LARGE, 0.25));
    context.fillStyle = fill;
    this.eachSeen(grid, (x, y, width, height) => context.fillRect(x + 0.25, y + 0.25, width - 0.5, height - 0.5), LARGE);
  }

  // Draws the boxes of components, and in each a corner that shows where its macro's origin lies.
  drawBoxes(components, fill) {
    const { context, theme, block } = this;
    const boxes = components.map((component) => block.boxOfComponent(component));
    context.fillStyle = fill;
    context.globalAlpha = 0.85;
    boxes.forEach((box) => this.box(box, true, false));
    context.strokeStyle = theme.edge;
    context.lineWidth = 1;
    context.globalAlpha = 0.7;
    boxes.forEach((box) => this.box(box, false, true));
    context.globalAlpha = 1;
    context.beginPath();
    components.forEach((component, at) => this.corner(boxes[at], ORIENTATIONS[block.components.orientation[component]]));
    context.stroke();
  }

  corner(box, orientation) {
    const { scale } = this.view;
    const short = Math.min(box[2] - box[0], box[3] - box[1], 60 / scale) / 2.5;
    if (short * scale < 5) return;
    const isRight = ['S', 'FN', 'FE', 'W'].includes(orientation);
    const isUpper = ['S', 'FS', 'E', 'FE'].includes(orientation);
    const [x, y] = [isRight ? box[2] : box[0], isUpper ? box[3] : box[1]];
    this.line(x + (isRight ? -short : short), y, x, y + (isUpper ? -short : short));
  }

  drawPlacements() {
    const { context, theme } = this;
    context.fillStyle = this.hatch(theme.placement, false);
    context.strokeStyle = theme.placement;
    context.lineWidth = 1;
    for (const { box } of this.block.placements) this.box(box, true, true);
  }

  drawTracks() {
    const { context, view } = this;
    const [left, lower, right, upper] = this.block.die;
    context.lineWidth = 0.8;
    context.setLineDash([1.5, 3]);
    for (const { axis, start, step, count, layer } of this.block.tracks) {
      if (step * view.scale < 4 || !this.shown.has(`layer ${layer}`)) continue;
      const [low, high] = axis === 'X' ? [this.sides[0], this.sides[2]] : [this.sides[1], this.sides[3]];
      context.strokeStyle = this.colours[layer];
      context.beginPath();
      const last = Math.min(Math.floor((high - start) / step), count - 1);
      for (let line = Math.max(Math.ceil((low - start) / step), 0); line <= last; line++) {
        const at = start + line * step;
        if (axis === 'X') this.line(at, Math.max(lower, this.sides[1]), at, Math.min(upper, this.sides[3]));
        else this.line(Math.max(left, this.sides[0]), at, Math.min(right, this.sides[2]), at);
      }
      context.stroke();
    }
    context.setLineDash([]);
  }

  line(xa, ya, xb, yb) {
    this.context.moveTo(this.view.across(xa), this.view.down(ya));
    this.context.lineTo(this.view.across(xb), this.view.down(yb));
  }

  // Metal

  addDust(group) {
    this.dust.take(partsOf(this.colourOf(group)), group.isAdded ? 0.9 : OPACITIES.get(group.role));
    group.grid.visit(this.sides, (from, to) => this.dust.addRange(group.grid, from, to, this.view, LARGE));
  }

  drawGroup(group) {
    const { context } = this;
    const colour = this.colourOf(group);
    const isHatched = group.role === OBSTRUCTION || group.role === BLOCKAGE;
    const isCut = this.block.layers[group.layer].isCut;
    const opacity = isHatched ? 1 : group.isAdded ? 0.7 : isCut ? 0.8 : OPACITIES.get(group.role);
    context.fillStyle = isHatched ? this.hatch(colour, group.role === OBSTRUCTION) : colour;
    context.strokeStyle = this.colours[group.layer];
    context.lineWidth = group.isAdded ? 1.5 : 1;
    context.globalAlpha = opacity;
    const least = this.isDetailed ? 0 : LARGE;
    this.eachSeen(group.grid, (x, y, width, height) => context.fillRect(x, y, Math.max(width, 0.5), Math.max(height, 0.5)), least);
    context.globalAlpha = 1;
    if (!this.isDetailed) return;
    this.eachSeen(group.grid, (x, y, width, height) => {
      if (width >= 4 && height >= 4) context.strokeRect(x, y, width, height);
    });
    if (isCut && !isHatched) this.crossAll(group.grid);
  }

  // Draws a cross over each cut.
  crossAll(grid) {
    const { context } = this;
    context.strokeStyle = this.theme.paper;
    context.beginPath();
    this.eachSeen(grid, (x, y, width, height) => {
      if (width < 4) return;
      context.moveTo(x, y);
      context.lineTo(x + width, y + height);
      context.moveTo(x, y + height);
      context.lineTo(x + width, y);
    });
    context.stroke();
  }

  // Draws what was looked for over all else, which fades.
  drawChosen({ shapes }) {
    const { context, theme, view } = this;
    const { sides, layer, isAdded } = this.block.shapes;
    context.globalAlpha = 0.6;
    context.fillStyle = theme.paper;
    context.fillRect(0, 0, view.width, view.height);
    context.globalAlpha = 1;
    context.strokeStyle = theme.ink;
    context.lineWidth = 1.25;
    for (const shape of shapes) {
      const box = sides.slice(4 * shape, 4 * shape + 4);
      if (!meets(box, this.sides)) continue;
      const isLarge = Math.min(box[2] - box[0], box[3] - box[1]) * view.scale > 4;
      const wider = isLarge ? 0 : 1 / view.scale;
      context.fillStyle = isAdded[shape] ? theme.added : this.colours[layer[shape]];
      this.box([box[0] - wider, box[1] - wider, box[2] + wider, box[3] + wider], true, isLarge);
    }
  }

  outlineComponent(component) {
    const box = this.block.boxOfComponent(component);
    if (!box) return;
    this.context.strokeStyle = this.theme.mark;
    this.context.lineWidth = 3;
    this.box(box, false, true);
  }
}
