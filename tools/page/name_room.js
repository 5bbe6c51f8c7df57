// What is taken of the page by names, so that none is written over another one.

const ROOM_SQUARE = 64;
// Where a name may stand on what is seen of its box, the best place first.
const PLACES = [0.5, 0.25, 0.75, 0.125, 0.875];

class NameRoom {
  constructor() {
    this.squares = new Map();
  }

  // Takes the first place along a box, given in pixels, where a name of half these sizes is free, and returns its middle; or null.
  take([left, upper, right, lower], across, along, isUpright) {
    const within = (low, high, reach, place) => Math.min(Math.max(low + place * (high - low), low + reach), high - reach);
    for (const place of PLACES) {
      const x = isUpright ? (left + right) / 2 : within(left, right, across, place);
      const y = isUpright ? within(upper, lower, along, place) : (upper + lower) / 2;
      // (names may touch)
      const box = [x - across + 0.5, y - along + 0.5, x + across - 0.5, y + along - 0.5];
      const squares = this.squaresOf(box);
      if (squares.some((square) => (this.squares.get(square) || []).some((other) => meets(box, other)))) continue;
      for (const square of squares) this.squares.set(square, [...(this.squares.get(square) || []), box]);
      return [x, y];
    }
    return null;
  }

  squaresOf(box) {
    const [left, upper, right, lower] = box.map((side) => Math.floor(side / ROOM_SQUARE));
    const found = [];
    for (let column = left; column <= right; column++) for (let line = upper; line <= lower; line++) found.push(`${column} ${line}`);
    return found;
  }
}
