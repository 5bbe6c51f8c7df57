// Names, arrows and marks, which BlockDrawing draws over a block.

const FONT = 'system-ui, "Helvetica Neue", Helvetica, Arial, sans-serif';
const MOST_ARROWS = 4000;
const MOST_MARKS = 1500;
const MOST_NUMBERED = 60;
const SPOT = 3;

// The width of a letter is at most about this much of the height of a font.
const LETTER = 0.68;

Object.assign(BlockDrawing.prototype, {
  // Writes a name on what is seen of a box, upright where it fits so alone: in its middle, or where that is taken beside it. Returns whether there
  // was room for it.
  label(box, text, largest, colour, weight) {
    const { context, view } = this;
    const left = view.across(Math.max(box[0], this.sides[0]));
    const right = view.across(Math.min(box[2], this.sides[2]));
    const upper = view.down(Math.min(box[3], this.sides[3]));
    const lower = view.down(Math.max(box[1], this.sides[1]));
    const across = Math.min(largest, (right - left) / (LETTER * text.length + 0.4), lower - upper);
    const along = Math.min(largest, (lower - upper) / (LETTER * text.length + 0.4), right - left);
    // (what would fit if all of it were in sight isn't turned)
    const isNarrow = (box[2] - box[0]) * view.scale < 9 * LETTER * text.length;
    const isUpright = isNarrow && along > across && across < 9;
    const size = isUpright ? along : across;
    if (size < 7.5) return false;
    const reach = [size * (LETTER * text.length + 0.4) / 2, size / 2];
    const place = this.room.take([left, upper, right, lower], ...(isUpright ? reach.reverse() : reach), isUpright);
    if (!place) return false;
    context.save();
    context.translate(...place);
    if (isUpright) context.rotate(-Math.PI / 2);
    context.font = `${weight} ${size.toFixed(1)}px ${FONT}`;
    context.textAlign = 'center';
    context.textBaseline = 'middle';
    this.write(text, 0, 0, colour);
    context.restore();
    return true;
  },

  // Writes a text with a rim in the colour of the page, so that it can be read on metal.
  write(text, x, y, colour) {
    const { context, theme } = this;
    context.lineJoin = 'round';
    context.lineWidth = 3;
    context.strokeStyle = theme.paper;
    context.strokeText(text, x, y);
    context.fillStyle = colour;
    context.fillText(text, x, y);
  },

  drawNames(groups) {
    const { block, theme, shown } = this;
    this.room = new NameRoom();
    const count = block.places.reduce((sum, { grid }) => sum + grid.count(this.sides), 0);
    if (shown.has('components') && count <= MOST_NAMED) block.componentsWithin(this.sides).forEach((component) => this.nameComponent(component));
    if (!this.isDetailed) return;
    for (const [text, box] of this.namedShapes(groups).values()) this.label(box, text, 12, theme.ink, '500');
    this.nameRows();
  },

  // Writes the name of a component and of its macro in the upper part of its box, where pins are rare.
  nameComponent(component) {
    const { block, theme } = this;
    const box = block.boxOfComponent(component);
    const height = box[3] - box[1];
    if (height * this.view.scale < 12) return;
    const name = block.names.components[component];
    const upper = [box[0], box[1] + height / 2, box[2], box[3] - height / 8];
    const macro = block.names.macros[block.components.macro[component]];
    if (!this.label(upper, `${name} ${macro}`, 14, theme.ink, '600')) this.label(upper, name, 12, theme.ink, '600');
  },

  // Returns for each pin of a component and each net in sight its name, and the largest of its shapes there.
  namedShapes(groups) {
    const { block } = this;
    const { sides, role, net, component, name } = block.shapes;
    const found = new Map();
    const rooms = new Map();
    for (const group of groups.filter((one) => one.role === PIN || one.role === WIRE)) {
      this.eachSeen(group.grid, (x, y, width, height, shape) => {
        if (Math.max(width, height) < 14 || Math.min(width, height) < 7 || width * height <= (rooms.get(this.keyOf(shape)) || 0)) return;
        const text = role[shape] === PIN ? block.names.pins[name[shape]] : block.names.nets[net[shape]];
        rooms.set(this.keyOf(shape), width * height);
        found.set(this.keyOf(shape), [text, sides.slice(4 * shape, 4 * shape + 4), component[shape]]);
      });
    }
    return found;
  },

  keyOf(shape) {
    const { role, net, component, name } = this.block.shapes;
    return role[shape] === PIN ? `${component[shape]} ${name[shape]}` : `${net[shape]}`;
  },

  nameRows() {
    const { context, theme, view } = this;
    context.font = `italic 11px ${FONT}`;
    context.textAlign = 'right';
    context.textBaseline = 'middle';
    for (const row of this.shown.has('rows') ? this.block.rows : []) {
      const [x, y] = [view.across(row.x) - 6, view.down(row.y + row.height / 2)];
      if (row.height * view.scale >= 12 && x > 0 && x < view.width && y > 0 && y < view.height) this.write(row.name, x, y, theme.edge);
    }
  },

  // Draws an arrow from where each component was to where it is, the longest ones first.
  drawMoves() {
    const { context, theme, block, view } = this;
    context.strokeStyle = context.fillStyle = theme.move;
    context.lineWidth = 1.5;
    context.beginPath();
    const heads = [];
    for (const { line: [xa, ya, xb, yb], length } of this.arrows()) {
      if (length * view.scale < 3 || heads.length === MOST_ARROWS) break;
      if (!meets([Math.min(xa, xb), Math.min(ya, yb), Math.max(xa, xb), Math.max(ya, yb)], this.sides)) continue;
      this.line(xa, ya, xb, yb);
      heads.push([view.across(xb), view.down(yb), Math.atan2(yb - ya, xb - xa), Math.min(9, length * view.scale / 2)]);
    }
    context.stroke();
    context.beginPath();
    for (const [x, y, angle, size] of heads) {
      context.moveTo(x, y);
      for (const turn of [-0.4, 0.4]) context.lineTo(x - size * Math.cos(angle + turn), y + size * Math.sin(angle + turn));
      context.closePath();
    }
    context.fill();
  },

  // Returns the arrows of all moves in database units, the longest first.
  arrows() {
    this.madeArrows = this.madeArrows || (this.block.moves || []).filter((move) => move.box).map((move) => {
      const box = this.block.boxOfComponent(move.component);
      const line = [(move.box[0] + move.box[2]) / 2, (move.box[1] + move.box[3]) / 2, (box[0] + box[2]) / 2, (box[1] + box[3]) / 2];
      return { line, length: Math.hypot(line[2] - line[0], line[3] - line[1]) };
    }).filter(({ length }) => length).sort((a, b) => b.length - a.length);
    return this.madeArrows;
  },

  // Draws the marks of violations of the kinds that a condition takes, the chosen one over the others.
  drawMarks(isTaken, chosen) {
    const { block } = this;
    const isMany = block.marked.count(this.sides) > MOST_MARKS;
    const seen = isMany ? [] : block.marked.within(this.sides).filter((mark) => mark !== chosen && isTaken(block.marks[mark]));
    if (isMany) this.drawSpots(isTaken);
    seen.forEach((mark) => this.drawMark(block.marks[mark], chosen === null, 1.75));
    if (chosen !== null && block.marks[chosen].box) this.drawMark(block.marks[chosen], true, 2.5);
    const numbered = chosen === null ? seen : [chosen, ...seen];
    if (numbered.length <= MOST_NUMBERED) this.numberMarks(numbered.filter((mark) => block.marks[mark].box));
  },

  // Draws a spot for each place on the page at which violations lie.
  drawSpots(isTaken) {
    const { context, theme, view, block } = this;
    const columns = Math.ceil(view.width / SPOT) + 1;
    const taken = new Uint8Array(columns * (Math.ceil(view.height / SPOT) + 1));
    context.fillStyle = theme.mark;
    this.eachSeen(block.marked, (left, upper, width, height, mark) => {
      const [x, y] = [(left + width / 2) / SPOT | 0, (upper + height / 2) / SPOT | 0];
      if (taken[y * columns + x] || !isTaken(block.marks[mark])) return;
      taken[y * columns + x] = 1;
      context.fillRect(SPOT * x - 0.5, SPOT * y - 0.5, SPOT + 1, SPOT + 1);
    });
  },

  // Draws what a violation is between in dashed lines, and where it lies; in a ring where that is too small to be seen.
  drawMark({ box, outlines, gap }, isHatched, width) {
    const { context, theme, view } = this;
    context.strokeStyle = theme.mark;
    context.fillStyle = this.hatch(theme.mark, true);
    context.lineWidth = width;
    this.box(box, isHatched, true);
    context.setLineDash([5, 3]);
    for (const outline of outlines) this.box(outline, false, true);
    context.setLineDash([]);
    context.beginPath();
    if (gap) this.line(...gap);
    context.stroke();
    if (Math.min(box[2] - box[0], box[3] - box[1]) * view.scale < 6) this.ring(box, 4 * width);
  },

  ring(box, reach) {
    const { context, view } = this;
    const [left, right] = [box[0], box[2]].map((x) => Math.min(Math.max(view.across(x), -20), view.width + 20));
    const [upper, lower] = [box[3], box[1]].map((y) => Math.min(Math.max(view.down(y), -20), view.height + 20));
    context.beginPath();
    context.roundRect(left - reach, upper - reach, right - left + 2 * reach, lower - upper + 2 * reach, reach);
    context.stroke();
  },

  // Writes the number of each mark beside it.
  numberMarks(marks) {
    const { context, view, theme, block } = this;
    const taken = [];
    context.font = `600 11px ${FONT}`;
    context.textAlign = 'center';
    context.textBaseline = 'middle';
    for (const mark of marks) {
      const box = block.marks[mark].box;
      const [x, y] = this.freeSpot(view.across(box[2]) + 12, view.down(box[3]) - 12, taken);
      const number = String(block.numberOf(mark));
      const half = 6 + 3.4 * number.length;
      context.fillStyle = theme.mark;
      context.beginPath();
      context.roundRect(x - half, y - 9, 2 * half, 18, 9);
      context.fill();
      context.fillStyle = '#ffffff';
      context.fillText(number, x, y + 0.5);
    }
  },

  // Returns the nearest spot to the right of one, in sight, that is not taken, and takes it; at the edge, one below.
  freeSpot(x, y, taken) {
    const right = this.view.width - 18;
    const first = Math.min(Math.max(x, 18), right);
    let [across, down] = [first, Math.min(Math.max(y, 14), this.view.height - 14)];
    while (taken.some(([otherX, otherY]) => Math.abs(across - otherX) < 20 && Math.abs(down - otherY) < 20)) {
      across += 20;
      if (across > right) [across, down] = [first, down + 20];
    }
    taken.push([across, down]);
    return [across, down];
  },

  // Draws a bar of a round number of database units, which tells the scale.
  drawScale() {
    const { context, theme, view, block } = this;
    let units = 1;
    while (units * view.scale < 60) units *= String(units)[0] === '2' ? 2.5 : 2;
    const [x, y, width] = [16, view.height - 16, units * view.scale];
    context.strokeStyle = theme.ink;
    context.lineWidth = 1.5;
    context.beginPath();
    context.moveTo(x, y - 5);
    context.lineTo(x, y);
    context.lineTo(x + width, y);
    context.lineTo(x + width, y - 5);
    context.stroke();
    context.font = `11px ${FONT}`;
    context.textAlign = 'left';
    context.textBaseline = 'bottom';
    this.write(`${units} units, ${Number((units / block.units).toPrecision(4))} µm`, x, y - 7, theme.ink);
  },
});
