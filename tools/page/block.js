// A block as plain data, and what is asked of it: what lies in a window or under a point, whose it is, and what has a name.
//
// The data, which a page of tools/view has in itself and another page may get from elsewhere. Coordinates are numbers of database units.
// Arrays of numbers may be typed arrays.
//
//   title, name     what the page shows, in words; the name of the design
//   units           database units a micron
//   die             [left, lower, right, upper], as every rectangle
//   layers          from the bottom up: { name, colour, isCut, width }, the colour as '#rrggbb', the width that of a wire, 0 of a cut
//   rows            { name, site, orientation, x, y, count, width, height }, width and height those of a site
//   tracks          { axis, start, step, count, layer }: lines at x ('X') or y ('Y'), layer a number in `layers`
//   names           { components, macros, nets, pins }: lists of names; the numbers below are places in them
//   components      { sides, macro, status, orientation }: for the component k the numbers 4k to 4k + 3 of `sides`; status is a place in
//                   STATUSES, and the sides of an unplaced component mean nothing; orientation is a place in ORIENTATIONS
//   placements      placement blockages: { number, box }
//   shapes          { sides, layer, role, owner, net, component, name, isAdded }: for each rectangle of metal its sides; its layer; its
//                   place in ROLES and in OWNERS; its net and its component, or -1; for a pin the number of the pin's name, and
//                   otherwise that of the wire in its net or of the blockage; and 1 for a wire that the text before did not have
//   violations      { numbers, kind, text, note, box, outlines, gap }: the numbers of the printed lines that are shown here, from 1, and the
//                   first of these lines; a few words; where it lies or null, what it is between, and a line over the gap as [x, y, x, y] or
//                   null; null in place of the list where none was given
//   kinds           { name, meaning } for each kind of violation
//   moves           { component, box, orientation }: components that moved, with their box before, or null where they had no place; null
//                   in place of the list where no text before was given
//   hasTracks       whether the tracks are shown at first

const STATUSES = ['UNPLACED', 'PLACED', 'FIXED', 'COVER'];
const ORIENTATIONS = ['N', 'S', 'W', 'E', 'FN', 'FS', 'FW', 'FE'];
const ROLES = ['PIN', 'OBS', 'BLOCKAGE', 'WIRE'];
const OWNERS = ['NET', 'TERM', 'POWER', 'GROUND', 'OBS', 'BLOCKAGE'];
const [UNPLACED, PLACED] = [0, 1];
const [PIN, OBSTRUCTION, BLOCKAGE, WIRE] = [0, 1, 2, 3];
// The order in which what lies on a layer is drawn; wires that were added come last.
const DRAWN = [OBSTRUCTION, BLOCKAGE, PIN, WIRE];

function meets(a, b) {
  return a[0] <= b[2] && b[0] <= a[2] && a[1] <= b[3] && b[1] <= a[3];
}

function isWithin(sides, first, x, y, reach) {
  return sides[first] - reach <= x && x <= sides[first + 2] + reach && sides[first + 1] - reach <= y && y <= sides[first + 3] + reach;
}

// Returns the numbers from 0 for which a condition holds.
function numbersOf(count, condition) {
  const found = [];
  for (let number = 0; number < count; number++) if (condition(number)) found.push(number);
  return found;
}

class Block {
  constructor(data) {
    Object.assign(this, data);
    this.count = this.shapes.layer.length;
    this.groups = this.groupsOf();
    this.places = this.placesOf();
    this.marks = this.violations || [];
    this.markSides = Float64Array.from(this.marks.flatMap((mark) => mark.box || [0, 0, 0, 0]));
    this.marked = new LooseGrid(this.markSides, numbersOf(this.marks.length, (mark) => this.marks[mark].box));
    this.moveOf = new Map((this.moves || []).map((move) => [move.component, move]));
    this.box = this.wholeBox();
  }

  // Returns the metal in groups, in the order in which it is drawn: from the lowest layer up, and on each by role.
  groupsOf() {
    const { layer, role, isAdded } = this.shapes;
    const lists = this.layers.map(() => DRAWN.concat(WIRE).map(() => []));
    for (let shape = 0; shape < this.count; shape++) {
      lists[layer[shape]][isAdded[shape] ? DRAWN.length : DRAWN.indexOf(role[shape])].push(shape);
    }
    return lists.flatMap((roles, number) => roles.map((items, at) => ({
      layer: number, role: at < DRAWN.length ? DRAWN[at] : WIRE, isAdded: at === DRAWN.length, items,
    }))).filter(({ items }) => items.length).map(({ items, ...group }) => ({ ...group, grid: new LooseGrid(this.shapes.sides, items) }));
  }

  // Returns the components that are placed, in two groups: those that may move, and those that are fixed.
  placesOf() {
    const { sides, status } = this.components;
    const isOf = { false: (component) => status[component] === PLACED, true: (component) => status[component] > PLACED };
    return [false, true].map((isFixed) => ({ isFixed, grid: new LooseGrid(sides, numbersOf(status.length, isOf[isFixed])) }));
  }

  // Returns the placed components that share a point with a window.
  componentsWithin(window) {
    return this.places.flatMap(({ grid }) => grid.within(window));
  }

  // Returns the least box around the die and all that stands outside it.
  wholeBox() {
    const boxes = [this.die, ...this.groups.map((group) => group.grid.box), ...this.placements.map((placement) => placement.box)];
    boxes.push(...this.places.filter(({ grid }) => grid.items.length).map(({ grid }) => grid.box));
    return boxes.reduce((a, b) => [Math.min(a[0], b[0]), Math.min(a[1], b[1]), Math.max(a[2], b[2]), Math.max(a[3], b[3])]);
  }

  // Returns the number of a mark: that of its first line.
  numberOf(mark) {
    return this.marks[mark].numbers[0];
  }

  boxOfComponent(component) {
    return this.components.status[component] === UNPLACED ? null : Array.from(this.components.sides.slice(4 * component, 4 * component + 4));
  }

  boxOfShape(shape) {
    return Array.from(this.shapes.sides.slice(4 * shape, 4 * shape + 4));
  }

  // Returns the least box around some shapes, or null around none.
  boxOfShapes(shapes) {
    return shapes.length ? LooseGrid.boxOf(this.shapes.sides, shapes) : null;
  }

  shapesOfNet(net) {
    return numbersOf(this.count, (shape) => this.shapes.net[shape] === net);
  }

  // Returns the metal of a pin of a component, or of the design where that is -1.
  shapesOfPin(component, pin) {
    const { role, component: of, name } = this.shapes;
    return numbersOf(this.count, (shape) => role[shape] === PIN && of[shape] === component && name[shape] === pin);
  }

  // Returns the names of the pins with metal of a component, or of the design, by their numbers.
  pinsOf(component) {
    const { role, component: of, name } = this.shapes;
    return [...new Set(numbersOf(this.count, (shape) => role[shape] === PIN && of[shape] === component).map((shape) => name[shape]))];
  }

  // Returns the shapes of the groups that a condition takes which are within a reach of a point, from the top down.
  shapesAt(x, y, reach, isTaken) {
    const { sides } = this.shapes;
    const window = [x - reach, y - reach, x + reach, y + reach];
    return this.groups.filter(isTaken).reverse().flatMap((group) => group.grid.within(window).filter((shape) => isWithin(sides, 4 * shape, x, y, reach)));
  }

  // Whose metal a shape is, as lefdef prints it.
  ownerOf(shape) {
    const { owner, net, component, name } = this.shapes;
    const of = component[shape] < 0 ? 'PIN' : this.names.components[component[shape]];
    switch (OWNERS[owner[shape]]) {
      case 'NET': return `NET ${this.names.nets[net[shape]]}`;
      case 'TERM': return `TERM ${of} ${this.names.pins[name[shape]]}`;
      case 'OBS': return `OBS ${of}`;
      case 'BLOCKAGE': return `BLOCKAGE ${name[shape]}`;
      default: return OWNERS[owner[shape]];
    }
  }

  // What a shape is, in words: a pin, a wire, an obstruction or a blockage.
  roleOf(shape) {
    const { role, component, name, isAdded } = this.shapes;
    const of = component[shape] < 0 ? 'PIN' : this.names.components[component[shape]];
    switch (role[shape]) {
      case PIN: return `pin ${of} ${this.names.pins[name[shape]]}`;
      case OBSTRUCTION: return `obstruction of ${of}`;
      case BLOCKAGE: return `blockage ${name[shape]}`;
      default: return `wire ${name[shape]}${isAdded[shape] ? ', added' : ''}`;
    }
  }

  // Returns a component with its macro, status and place, and how it moved.
  componentWords(component) {
    const { sides, macro, status, orientation } = this.components;
    const words = `${this.names.components[component]} ${this.names.macros[macro[component]]} ${STATUSES[status[component]]}`;
    if (status[component] === UNPLACED) return words;
    const place = `${words} ( ${sides[4 * component]} ${sides[4 * component + 1]} ) ${ORIENTATIONS[orientation[component]]}`;
    const move = this.moveOf.get(component);
    return move ? `${place}, ${this.moveWords(move)}` : place;
  }

  moveWords(move) {
    if (!move.box) return 'unplaced before';
    const [x, y] = this.boxOfComponent(move.component);
    const distance = Math.abs(x - move.box[0]) + Math.abs(y - move.box[1]);
    const before = `from ( ${move.box[0]} ${move.box[1]} ) ${move.orientation}`;
    return distance ? `moved ${distance} ${before}` : `turned ${before}`;
  }
}
