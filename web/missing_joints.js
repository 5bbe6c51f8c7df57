// Which pieces of a net are joined to one another, and where the joints are that the net still needs: as tools/missing_joints.py finds them.

const MOST_IN_LEAF = 8;

function compareRects(a, b) {
  return a[0] - b[0] || a[1] - b[1] || a[2] - b[2] || a[3] - b[3];
}

function compareMetal(a, b) {
  return compareRects(a.rect, b.rect) || a.layer - b.layer || a.piece - b.piece;
}

// (squares may be numbers beside BigInts, which `<` compares exactly)
function compareJoints(a, b) {
  if (a.squared < b.squared || b.squared < a.squared) return a.squared < b.squared ? -1 : 1;
  return a.steps - b.steps || compareMetal(a.near, b.near) || compareMetal(a.far, b.far);
}

// Things that are joined, by their numbers; the number of a group is the least one in it.
class Groups {
  constructor(count) {
    this.above = Array.from({ length: count }, (_, at) => at);
  }

  of(at) {
    const { above } = this;
    while (above[at] !== at) at = above[at] = above[above[at]];
    return at;
  }

  // Joins the groups of two things, and returns whether they were two.
  join(a, b) {
    const [low, high] = [this.of(a), this.of(b)].sort((one, two) => one - two);
    this.above[high] = low;
    return low !== high;
  }
}

// Metal, as { rect, layer, piece }, in a tree of boxes, halved across their longer side. `group` is that of all metal in a box, or null where
// there are several.
class Boxes {
  constructor(metal) {
    this.box = leastBox(metal.map(({ rect }) => rect));
    this.layers = new Set(metal.map(({ layer }) => layer));
    this.halves = [];
    this.metal = metal;
    if (metal.length > MOST_IN_LEAF) {
      const low = this.box[2] - this.box[0] >= this.box[3] - this.box[1] ? 0 : 1;
      const sorted = metal.slice().sort((a, b) => a.rect[low] + a.rect[low + 2] - b.rect[low] - b.rect[low + 2]);
      const half = Math.floor(metal.length / 2);
      this.halves = [new Boxes(sorted.slice(0, half)), new Boxes(sorted.slice(half))];
      this.metal = [];
    }
  }

  // Returns the metal on the layer of one rectangle that shares a point with it.
  meeting(one) {
    const found = [];
    const left = [this];
    while (left.length) {
      const node = left.pop();
      if (!node.layers.has(one.layer) || !doMeet(node.box, one.rect)) continue;
      left.push(...node.halves);
      found.push(...node.metal.filter((other) => other.layer === one.layer && doMeet(other.rect, one.rect)));
    }
    return found;
  }

  // Notes the group of each box, after groups have been joined.
  markGroups(groups) {
    for (const half of this.halves) half.markGroups(groups);
    const of = this.halves.length ? this.halves.map((half) => half.group) : this.metal.map(({ piece }) => groups.of(piece));
    this.group = of.every((group) => group === of[0]) ? of[0] : null;
  }

  // Returns the joint from a rectangle of this group to the nearest one of another, where it is less than the best one so far.
  nearest(one, groups, group, best) {
    let [found, squared, steps] = [null, best ? best.squared : Infinity, best ? best.steps : 0];
    const left = [{ far: 0, node: this }];
    while (left.length) {
      const { far, node } = left.pop();
      if (far > squared || node.group === group || !(far < squared) && (steps === 0 || steps === 1 && !node.layers.has(one.layer))) continue;
      const halves = node.halves.map((half) => ({ far: squaredDistance(half.box, one.rect), node: half }));
      if (halves.length) left.push(...(halves[0].far <= halves[1].far ? halves.reverse() : halves));
      for (const other of node.metal) {
        const square = squaredDistance(one.rect, other.rect);
        const up = Math.abs(one.layer - other.layer);
        if (square <= squared && (square < squared || up < steps) && groups.of(other.piece) !== group) [squared, steps, found] = [square, up, other];
      }
    }
    return found ? { squared, steps, near: one, far: found } : best;
  }
}

// The pieces of a net in groups, with their metal, and the joints that are missing between these.
class NetGroups {
  // Takes for each piece its rectangles as { layer, rect }, the layer as its number from the bottom.
  constructor(pieces) {
    this.count = pieces.length;
    this.metal = pieces.flatMap((shapes, piece) => shapes.map(({ layer, rect }) => ({ rect, layer, piece })));
    this.boxes = this.metal.length ? new Boxes(this.metal) : null;
    this.groups = new Groups(this.count);
    this.joinPieces();
    this.group = pieces.map((_, piece) => this.groups.of(piece));
    this.sizes = new Map();
    for (const group of this.group) this.sizes.set(group, (this.sizes.get(group) || 0) + 1);
    this.ofMetal = new Set(this.metal.map(({ piece }) => this.group[piece]));
  }

  // Joins pieces that share two points on one layer.
  joinPieces() {
    const points = new Map();
    for (const a of this.metal) {
      for (const b of this.boxes.meeting(a)) {
        if (a.piece >= b.piece || this.groups.of(a.piece) === this.groups.of(b.piece)) continue;
        const box = between(a.rect, b.rect);
        const key = `${a.piece} ${b.piece} ${a.layer}`;
        const shared = points.get(key) || new Set();
        points.set(key, shared.add(`${box[0]} ${box[1]}`).add(`${box[2]} ${box[3]}`));
        if (shared.size > 1) this.groups.join(a.piece, b.piece);
      }
    }
  }

  size(piece) {
    return this.sizes.get(this.group[piece]);
  }

  // Returns the joints that are missing, each by the group from which it leads towards the first piece that has metal.
  joints() {
    const metal = this.group.map(() => []);
    for (const one of this.metal) metal[this.group[one.piece]].push(one);
    const groups = new Groups(this.count);
    this.group.forEach((group, piece) => groups.join(piece, group));
    const found = [];
    for (let joints = this.nearestOfAll(groups, metal); joints.length; joints = this.nearestOfAll(groups, metal)) {
      for (const joint of joints.sort(compareJoints)) if (groups.join(joint.near.piece, joint.far.piece)) found.push(joint);
      for (let group = 0; group < this.count; group++) {
        if (!metal[group].length || groups.of(group) === group) continue;
        for (const one of metal[group]) metal[groups.of(group)].push(one);
        metal[group] = [];
      }
    }
    return this.towardsFirst(found);
  }

  // Returns the least joint of each group but the largest one, or none where there is one group.
  nearestOfAll(groups, metal) {
    const present = this.group.map((_, group) => group).filter((group) => metal[group].length);
    if (present.length < 2) return [];
    const largest = present.reduce((one, group) => (metal[group].length > metal[one].length ? group : one));
    this.boxes.markGroups(groups);
    return present.filter((group) => group !== largest).map((group) => metal[group].reduce((best, one) => this.boxes.nearest(one, groups, group, best), null));
  }

  // Returns joints by the group at their far end from the first one.
  towardsFirst(joints) {
    const ends = new Map();
    const add = (joint) => ends.set(this.group[joint.far.piece], [...(ends.get(this.group[joint.far.piece]) || []), joint]);
    for (const joint of joints) {
      add({ ...joint, near: joint.far, far: joint.near });
      add(joint);
    }
    const first = this.metal.length ? this.group[this.metal[0].piece] : 0;
    const found = new Map();
    const left = [first];
    while (left.length) {
      for (const joint of ends.get(left.pop()) || []) {
        const group = this.group[joint.near.piece];
        if (group === first || found.has(group)) continue;
        found.set(group, joint);
        left.push(group);
      }
    }
    return found;
  }
}
