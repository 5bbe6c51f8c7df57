// How far a component is from the sites of the rows that there are for it: in the words of tools/off_sites.py.

const MIRRORED = { N: 'FN', FN: 'N', S: 'FS', FS: 'S' };

// Returns how far a component that is off its sites is from the nearest sites for it, or why there are none.
function offSiteWords(design, component) {
  const { macro } = component;
  const rows = design.rows.filter((row) => row.site === macro.site);
  if (!rows.length) return `no row has the site ${macro.site}`;
  const site = design.library.sites.get(macro.site);
  const box = boxOf(component);
  const [width, height] = [box[2] - box[0], box[3] - box[1]];
  if (height !== site.height) return `it is ${height} high, and the site ${macro.site} is ${site.height}`;
  if (width % site.width) return `it is ${width} wide, which is no whole number of sites of ${site.width}`;
  const long = rows.filter((row) => row.count * site.width >= width);
  if (!long.length) return `it is ${width} wide, and no row of its site is as long`;
  const found = long.map((row) => distanceFromRow(row, component, width / site.width, site.width));
  return found.reduce((best, one) => (isNearerRow(one, best) ? one : best)).words;
}

// Of two rows the nearer one is taken, then one that the orientation fits, then the lower one, then the one to the left.
function isNearerRow(one, best) {
  return (one.away - best.away || one.isOff - best.isOff || one.y - best.y || one.x - best.x || (one.words < best.words ? -1 : 0)) < 0;
}

// Returns how far a component of so many sites is from the nearest sites of a row, and that in words.
function distanceFromRow(row, { macro, place }, count, step) {
  const at = Math.max(Math.min(Math.floor((2 * (place.x - row.x) + step) / (2 * step)), row.count - count), 0);
  const [dx, dy] = [place.x - (row.x + at * step), place.y - row.y];
  const isOff = place.orientation !== row.orientation && !(macro.hasYSymmetry && MIRRORED[place.orientation] === row.orientation);
  const of = Math.abs(dx) * 2 > step ? 'the end of' : 'a site of';
  const across = dx ? `${Math.abs(dx)} ${dx > 0 ? 'right' : 'left'} of ${of} ${row.name}` : '';
  const along = dy ? `${Math.abs(dy)} ${dy > 0 ? 'above' : 'below'} ${dx ? 'it' : row.name}` : '';
  const where = [across, along].filter(Boolean).join(', ');
  const why = isOff ? `${row.name} is ${row.orientation}, which ${place.orientation} does not fit` : '';
  return { away: Math.abs(dx) + Math.abs(dy), isOff: Number(isOff), y: row.y, x: row.x, words: [where, why].filter(Boolean).join('; ') };
}
