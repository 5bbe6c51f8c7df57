// Starts the page with the block that stands in it. An array of numbers is written as { type, data }: 'u8', 'i32' or 'f64', and its
// bytes in base 64, the lowest byte of a number first.

const ARRAYS = { u8: Uint8Array, i32: Int32Array, f64: Float64Array };

function decoded({ type, data }) {
  const text = atob(data);
  const bytes = new Uint8Array(text.length);
  for (let at = 0; at < text.length; at++) bytes[at] = text.charCodeAt(at);
  return new ARRAYS[type](bytes.buffer);
}

function decodedAll(arrays) {
  return Object.fromEntries(Object.entries(arrays).map(([name, array]) => [name, decoded(array)]));
}

// Shows the violation that the address names, as in `#violation=3`.
function showFromAddress(viewer) {
  const found = /^#violation=([0-9]+)$/.exec(location.hash);
  const mark = found ? viewer.block.marks.findIndex(({ numbers }) => numbers.includes(Number(found[1]))) : -1;
  if (mark >= 0) viewer.chooseMark(mark);
}

function start() {
  const data = JSON.parse(document.getElementById('data').textContent);
  data.shapes = decodedAll(data.shapes);
  data.components = decodedAll(data.components);
  const viewer = showBlock(data, document);
  showFromAddress(viewer);
  addEventListener('hashchange', () => showFromAddress(viewer));
  document.documentElement.dataset.loaded = Math.round(performance.now());
  return viewer;
}
