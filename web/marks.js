// Where the violations that lefdef listed lie in a block. A violation of placement lies at the component's box, or at what it shares with
// another one or with placement blockages; a short or two shapes too near where the two meet, which is what they share or the gap between
// them; the open pieces of a net that are joined to one another have one mark, at the gap over which they are to be joined to the rest of it.

const MARK_KINDS = {
  UNPLACED: 'a component has no place',
  OUTSIDE: 'a part of a component is outside the die',
  OFFSITE: 'a component is not on consecutive sites of one row that its orientation fits',
  OVERLAP: 'two components overlap',
  BLOCKED: 'a component that may be moved stands in a placement blockage',
  SHORT: 'metal of two owners on one layer shares a point',
  TOONEAR: 'metal of two owners on one layer is nearer than the spacing of the layer',
  OPEN: 'a piece of a net is not joined to its first piece',
};
// How many words an owner has, by the first one.
const OWNER_WORDS = { NET: 2, TERM: 3, POWER: 1, GROUND: 1, OBS: 2, BLOCKAGE: 2 };
// The last line of a list of violations.
const LIST_END = /^(?:legal|(?:violations|FIXEDILLEGAL|NOTCLEAN) [0-9]+)$/;

// Returns the lines of violations in what lefdef printed, or null if it is no list of them.
function violationLines(answer) {
  const lines = answer.split('\n');
  if (lines.pop() !== '' || !LIST_END.test(lines.pop() ?? '')) return null;
  return lines;
}

// Returns the kinds of violations that are there, with what they mean.
function kindsOf(marks) {
  const present = new Set(marks.map(({ kind }) => kind));
  return Object.entries(MARK_KINDS).filter(([name]) => present.has(name)).map(([name, meaning]) => ({ name, meaning }));
}

class MarkFinder {
  constructor(design, data) {
    this.design = design;
    this.placements = data.placements;
    this.open = new OpenPieces(design, data);
  }

  // Returns a mark for each line, and one for open pieces that are joined to one another: { numbers, kind, text, note, box, outlines, gap }.
  marks(lines) {
    const find = {
      UNPLACED: ([name]) => ({ box: null, note: `${name} has no place` }),
      OUTSIDE: ([name]) => ({ box: this.boxOf(name), note: `${name} is partly outside the die` }),
      OFFSITE: ([name]) => ({ box: this.boxOf(name), note: offSiteWords(this.design, this.design.components.get(name)) }),
      OVERLAP: (names) => this.overlap(names), BLOCKED: ([name]) => this.blocked(name), SHORT: (words) => this.short(words), TOONEAR: (words) => this.near(words),
    };
    const marks = [];
    const nets = new Map();
    lines.forEach((text, at) => {
      const [kind, ...words] = text.split(' ');
      if (kind !== 'OPEN') marks.push({ numbers: [at + 1], kind, text, outlines: [], gap: null, ...find[kind](words) });
      else nets.set(words[0], [...(nets.get(words[0]) || []), { number: at + 1, text }]);
    });
    this.open.take(nets.keys());
    for (const [net, found] of nets) marks.push(...this.open.marks(net, found));
    return marks.sort((a, b) => a.numbers[0] - b.numbers[0]);
  }

  boxOf(name) {
    return boxOf(this.design.components.get(name));
  }

  overlap(names) {
    const [a, b] = names.map((name) => this.boxOf(name));
    const box = between(a, b);
    return { box, outlines: [a, b], note: `they share ${box[2] - box[0]} by ${box[3] - box[1]}` };
  }

  blocked(name) {
    const box = this.boxOf(name);
    const found = this.placements.filter((placement) => doOverlap(box, placement.box));
    const numbers = [...new Set(found.map(({ number }) => number))].join(', ');
    const shared = leastBox(found.map((placement) => between(box, placement.box)));
    return { box: shared, outlines: [box, ...found.map((placement) => placement.box)], note: `${name} stands in placement blockage ${numbers}` };
  }

  // Returns the two rectangles of a short or of shapes too near, from its words after the layer.
  pairOf(words) {
    const count = OWNER_WORDS[words[1]];
    const second = 1 + count + 4;
    return [words.slice(1 + count, second), words.slice(second + OWNER_WORDS[words[second]])].map((sides) => sides.map(Number));
  }

  short(words) {
    const [a, b] = this.pairOf(words);
    const box = between(a, b);
    const isPoint = box[0] === box[2] && box[1] === box[3];
    return { box, outlines: [a, b], note: `they share ${isPoint ? 'one point' : `${box[2] - box[0]} by ${box[3] - box[1]}`}` };
  }

  near(words) {
    const [a, b] = this.pairOf(words);
    const { spacing } = this.design.library.layers.get(words[0]);
    const note = `${distanceWords(squaredDistance(a, b))} apart, ${spacing} wanted`;
    return { box: between(a, b), outlines: [a, b], gap: shortestLine(a, b), note };
  }
}
