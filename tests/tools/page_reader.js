// Runs the readers of the page in node, for tests/tools/reader_tests.py: each line of standard input is { profile, lefs, def, before, lines } in JSON,
// where texts are paths, and each line of the answer the data of the picture that the page would draw, or { failure }.
'use strict';

const fs = require('fs');
const readline = require('readline');
const vm = require('vm');

const [worker] = process.argv.slice(2);
// (the page's worker waits for messages, and here there are none)
const context = vm.createContext({ addEventListener: () => {}, TextDecoder, console });
vm.runInContext(`${fs.readFileSync(worker, 'utf8')}\nthis.pictureOf = pictureOf;`, context);

function arrays(group) {
  return Object.fromEntries(Object.entries(group).map(([name, array]) => [name, { type: array.constructor.name, data: Array.from(array) }]));
}

function picture({ profile, lefs, def, before, lines }) {
  const read = (path) => (path === null ? null : new Uint8Array(fs.readFileSync(path)));
  try {
    const data = context.pictureOf(profile, lefs.map(read), { def: read(def), before: read(before), lines });
    return { ...data, shapes: arrays(data.shapes), components: arrays(data.components) };
  } catch (error) {
    return { failure: String(error.stack || error) };
  }
}

readline.createInterface({ input: process.stdin }).on('line', (line) => console.log(JSON.stringify(picture(JSON.parse(line)))));
