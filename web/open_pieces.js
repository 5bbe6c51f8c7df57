// Where the open pieces of a net are to be joined to it: those that are joined to one another have one mark.

class OpenPieces {
  constructor(design, data) {
    this.design = design;
    this.data = data;
    this.metal = new Map();
  }

  // Takes the metal of the nets of these names from the shapes of the block.
  take(names) {
    const { shapes } = this.data;
    for (const name of names) this.metal.set(this.design.nets.get(name).number, []);
    if (!this.metal.size) return;
    for (let shape = 0; shape < shapes.layer.length; shape++) {
      const list = this.metal.get(shapes.net[shape]);
      if (list) list.push(shape);
    }
  }

  // Returns the name of the piece of a net that a shape is of.
  pieceOf(shape) {
    const { shapes, names } = this.data;
    if (shapes.role[shape] === DATA_ROLES.WIRE) return `WIRE ${shapes.name[shape]}`;
    const component = shapes.component[shape];
    return `${component < 0 ? 'PIN' : names.components[component]} ${names.pins[shapes.name[shape]]}`;
  }

  // Returns the names of the pieces of a net in order, and the metal of each as { layer, rect }.
  pieces(name) {
    const net = this.design.nets.get(name);
    const entries = [net.regular, net.special].filter(Boolean);
    const metal = new Map(entries.flatMap((entry) => entry.terminals.map((terminal) => [terminal.join(' '), []])));
    const wires = entries.reduce((sum, entry) => sum + entry.wires, 0);
    // (a component may be named WIRE, so a wire is not looked for among the terminals)
    const ofWires = Array.from({ length: wires }, () => []);
    const { shapes } = this.data;
    for (const shape of this.metal.get(net.number)) {
      const isWire = shapes.role[shape] === DATA_ROLES.WIRE;
      const list = isWire ? ofWires[shapes.name[shape] - 1] : metal.get(this.pieceOf(shape));
      list.push({ layer: shapes.layer[shape], rect: Array.from(shapes.sides.subarray(4 * shape, 4 * shape + 4)) });
    }
    return { names: [...metal.keys(), ...ofWires.map((_, at) => `WIRE ${at + 1}`)], metal: [...metal.values(), ...ofWires] };
  }

  // Returns the marks of the open pieces of a net, given as { number, text }.
  marks(net, lines) {
    const { names, metal } = this.pieces(net);
    const places = new Map(names.map((name, at) => [name, at]));
    const groups = new NetGroups(metal);
    const marks = new Map();
    for (const line of lines) {
      const group = groups.group[places.get(line.text.split(' ').slice(2).join(' '))];
      marks.set(group, [...(marks.get(group) || []), line]);
    }
    const joints = groups.joints();
    const whole = leastBox(metal.flat().map(({ rect }) => rect));
    const alone = (group) => ({ note: `${names[groups.ofMetal.has(group) ? 0 : group]} has no metal`, box: whole, outlines: [], gap: null });
    return [...marks].map(([group, found]) => ({
      numbers: found.map(({ number }) => number), kind: 'OPEN', text: found[0].text,
      ...(joints.has(group) ? jointParts(joints.get(group), names, groups) : alone(group)),
    }));
  }
}

// Returns what a mark has of a joint: where it lies, what it is between, the gap, and how wide that is in words.
function jointParts({ squared, steps, near, far }, names, groups) {
  const [a, b] = [near.rect, far.rect];
  const [ours, theirs] = [names[near.piece], names[far.piece]];
  const where = steps ? ' on another layer' : '';
  const count = groups.size(near.piece);
  const sides = `${count} piece${count === 1 ? '' : 's'} here, ${groups.size(far.piece)} there`;
  const parts = { box: between(a, b), outlines: [a, b] };
  if (squared) return { note: `${distanceWords(squared)} from ${ours} to ${theirs}${where}; ${sides}`, ...parts, gap: shortestLine(a, b) };
  return { note: `${steps ? `${ours} over ${theirs}${where}` : `${ours} shares one point alone with ${theirs}`}; ${sides}`, ...parts, gap: null };
}
