// Rectangles, each [left, lower, right, upper], and where they lie in a turned or mirrored macro.

const TURNS = {
  N: (x, y) => [x, y],
  S: (x, y, width, height) => [width - x, height - y],
  W: (x, y, width, height) => [height - y, x],
  E: (x, y, width) => [y, width - x],
  FN: (x, y, width) => [width - x, y],
  FS: (x, y, width, height) => [x, height - y],
  FW: (x, y) => [y, x],
  FE: (x, y, width, height) => [height - y, width - x],
};
const TURNED_ORIENTATIONS = Object.keys(TURNS);

// Returns the rectangle of two corners.
function ordered(xa, ya, xb, yb) {
  return [Math.min(xa, xb), Math.min(ya, yb), Math.max(xa, xb), Math.max(ya, yb)];
}

function moved(rect, x, y) {
  return [rect[0] + x, rect[1] + y, rect[2] + x, rect[3] + y];
}

// Returns where a rectangle of a macro of this size lies in the oriented box, whose lower left corner is at 0 0.
function turned(rect, width, height, orientation) {
  const turn = TURNS[orientation];
  return ordered(...turn(rect[0], rect[1], width, height), ...turn(rect[2], rect[3], width, height));
}

// Returns the least rectangle around some, or null around none.
function leastBox(rects) {
  if (!rects.length) return null;
  const box = rects[0].slice();
  for (const rect of rects) {
    box[0] = Math.min(box[0], rect[0]);
    box[1] = Math.min(box[1], rect[1]);
    box[2] = Math.max(box[2], rect[2]);
    box[3] = Math.max(box[3], rect[3]);
  }
  return box;
}
