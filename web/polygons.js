// The slabs of a rectilinear polygon (docs/FORMATS.md, "Sites and macros").

// Returns the points of a closed walk that are not repeated, and not in the middle of a side.
function cornersOf(points) {
  const around = (walk) => walk.map((point, at) => [walk[(at || walk.length) - 1], point, walk[(at + 1) % walk.length]]);
  const isBetween = (a, b, c) => (a < b && b < c) || (a > b && b > c);
  const isPassed = ([xa, ya], [x, y], [xc, yc]) => (xa === x && x === xc && isBetween(ya, y, yc)) || (ya === y && y === yc && isBetween(xa, x, xc));
  const once = around(points).filter(([before, point]) => point[0] !== before[0] || point[1] !== before[1]).map(([, point]) => point);
  return around(once).filter((three) => !isPassed(...three)).map(([, point]) => point);
}

// Returns the slabs: the rectangles of what is inside, in bands between the heights of corners from below, and from the left in each.
function slabsOf(points) {
  const corners = cornersOf(points);
  const upright = [];
  corners.forEach(([x, y], at) => {
    const [xb, yb] = corners[(at + 1) % corners.length];
    if (x === xb && y !== yb) upright.push({ x, lower: Math.min(y, yb), upper: Math.max(y, yb) });
  });
  upright.sort((a, b) => b.lower - a.lower);
  const heights = [...new Set(corners.map(([, y]) => y))].sort((a, b) => a - b);
  const slabs = [];
  let crossing = [];
  for (let band = 0; band + 1 < heights.length; band++) {
    const [low, high] = [heights[band], heights[band + 1]];
    crossing = crossing.filter(({ upper }) => upper > low);
    while (upright.length && upright[upright.length - 1].lower === low) crossing.push(upright.pop());
    crossing.sort((a, b) => a.x - b.x);
    for (const [left, right] of runsOf(crossing)) slabs.push([left, low, right, high]);
  }
  return slabs;
}

// Returns the runs in a band that sides cross, which rise: inside is what an odd number of them are to the west of.
function runsOf(crossing) {
  const borders = [];
  for (const { x } of crossing) {
    if (borders.length && borders[borders.length - 1] === x) borders.pop();
    else borders.push(x);
  }
  return Array.from({ length: Math.floor(borders.length / 2) }, (_, at) => [borders[2 * at], borders[2 * at + 1]]);
}
