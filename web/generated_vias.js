// Generated vias (docs/FORMATS.md, "Vias"): numbers in place of rectangles.

// How many numbers clauses, or statements, have.
const NUMBERS_OF_VIA = { CUTSIZE: 2, CUTSPACING: 2, ENCLOSURE: 4, ROWCOL: 2, ORIGIN: 2, OFFSET: 4 };
const MOST_ROWS = 10000;

// Takes what stands behind a word of a generated via, and keeps it in `found`, by the word; layers are taken by `layer`, and numbers by `number`.
function takeOfVia(words, found, word, layer, number) {
  if (word === 'LAYERS') found.LAYERS = [layer(), layer(), layer()];
  else if (word === 'PATTERN') found.PATTERN = rowsOfPattern(words.take());
  else if (word === 'ROWCOL') found.ROWCOL = [words.whole(), words.whole()];
  else if (Object.hasOwn(NUMBERS_OF_VIA, word)) found[word] = Array.from({ length: NUMBERS_OF_VIA[word] }, () => number());
  else return false;
  return true;
}

// Returns the shapes of a generated via by what was found: its lower metal, its cuts, and its upper metal.
function generatedShapes({ LAYERS, CUTSIZE, CUTSPACING, ENCLOSURE, ROWCOL = [1, 1], ORIGIN = [0, 0], OFFSET = [0, 0, 0, 0], PATTERN = null }) {
  const [[width, height], [across, up], [rows, columns]] = [CUTSIZE, CUTSPACING, ROWCOL];
  const half = [(columns * (width + across) - across) / 2, (rows * (height + up) - up) / 2];
  const [left, lower, right, upper] = [ORIGIN[0] - half[0], ORIGIN[1] - half[1], ORIGIN[0] + half[0], ORIGIN[1] + half[1]];
  const plate = (layer, [x, y], [dx, dy]) => ({ layer, rect: moved([left - x, lower - y, right + x, upper + y], dx, dy).map(Math.round) });
  const shapes = [plate(LAYERS[0], ENCLOSURE.slice(0, 2), OFFSET.slice(0, 2))];
  for (let row = 0; row < rows; row++) {
    const bits = PATTERN && (PATTERN[row] || '');
    for (let column = 0; column < columns; column++) {
      const [x, y] = [left + column * (width + across), lower + row * (height + up)];
      if (bits === null || bits[column] === '1') shapes.push({ layer: LAYERS[1], rect: [x, y, x + width, y + height].map(Math.round) });
    }
  }
  return [...shapes, plate(LAYERS[2], ENCLOSURE.slice(2), OFFSET.slice(2))];
}

// Returns the rows of a pattern from the bottom up, each with a bit for each column from the left. As many rows as any via has are enough.
function rowsOfPattern(word) {
  const parts = word.split('_');
  const rows = [];
  for (let at = 0; at + 1 < parts.length; at += 2) {
    const digits = parts[at + 1].replace(/R(.)(.)/g, (_, times, digit) => digit.repeat(parseInt(times, 16)));
    const bits = [...digits].map((digit) => parseInt(digit, 16).toString(2).padStart(4, '0')).join('');
    for (let count = Math.min(parseInt(parts[at], 16), MOST_ROWS - rows.length); count > 0; count--) rows.push(bits);
  }
  return rows;
}
