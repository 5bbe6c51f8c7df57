// Distances of rectangles, exactly: a square that is too great for a number is a BigInt, and JavaScript compares the two exactly.

const MOST_EXACT = 6e7;

// Returns where two rectangles meet: what they share, or the rectangle between their nearest points, which may be flat.
function between(a, b) {
  return ordered(Math.max(a[0], b[0]), Math.max(a[1], b[1]), Math.min(a[2], b[2]), Math.min(a[3], b[3]));
}

// Whether two rectangles share a unit square.
function doOverlap(a, b) {
  return a[0] < b[2] && b[0] < a[2] && a[1] < b[3] && b[1] < a[3];
}

// Whether two rectangles share a point.
function doMeet(a, b) {
  return a[0] <= b[2] && b[0] <= a[2] && a[1] <= b[3] && b[1] <= a[3];
}

function squaredDistance(a, b) {
  const [dx, dy] = [0, 1].map((side) => Math.max(b[side] - a[side + 2], a[side] - b[side + 2], 0));
  return dx <= MOST_EXACT && dy <= MOST_EXACT ? dx * dx + dy * dy : BigInt(dx) * BigInt(dx) + BigInt(dy) * BigInt(dy);
}

// Returns the whole part of a square root.
function wholeRoot(square) {
  let root = BigInt(Math.floor(Math.sqrt(Number(square))));
  while (root * root > square) root -= (root * root - square) / (2n * root) + 1n;
  while ((root + 1n) * (root + 1n) <= square) root += ((square - root * root) / (2n * root + 2n)) || 1n;
  return root;
}

// Returns a distance in words, rounded down to a tenth, so that one below the spacing stays below it.
function distanceWords(squared) {
  const square = 100n * BigInt(squared);
  const tenths = wholeRoot(square);
  return tenths % 10n === 0n && tenths * tenths === square ? `${tenths / 10n}` : `${tenths / 10n}.${tenths % 10n}`;
}

// Returns the ends of a shortest line from one rectangle to another, as [x, y, x, y].
function shortestLine(a, b) {
  const ends = [[], []];
  for (const low of [0, 1]) {
    const start = Math.max(a[low], b[low]);
    const end = Math.min(a[low + 2], b[low + 2]);
    const middle = Math.floor((start + end) / 2);
    const isFirst = a[low + 2] === end;
    ends[0].push(start <= end ? middle : isFirst ? end : start);
    ends[1].push(start <= end ? middle : isFirst ? start : end);
  }
  return ends.flat();
}
