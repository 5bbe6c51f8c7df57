// What runs beside the page: it asks the module, and makes the data of the picture. A message to it is { module }, the module's text, or
// { id, command, profile, lefs, def }, each text { name, file }; it answers { id, answer } and then { id, picture }.

// Commands that change a design: their picture is compared with what was given.
const CHANGING_COMMANDS = new Set(['legalise', 'route', 'flow', 'finish']);
// Longer texts are not drawn.
const MOST_DRAWN = 2 ** 27;
const UNREADABLE = 5;

let loading = null;

// Returns the bytes of a text, as many as the program would read.
async function bytesOf({ name, file }) {
  try {
    return new Uint8Array(await file.slice(0, FILE_LIMIT).arrayBuffer());
  } catch (error) {
    throw new Unreadable(`cannot read ${name}\n${error.message}\n`);
  }
}

class Unreadable extends Error {}

// Returns the answer to a command on texts, by its number: its status, its bytes and the message on it.
function asked(module, number, names, lefs, def) {
  const { status, text, message } = module.run(number, names, lefs, def);
  return { status, text, message: textOf(message) };
}

// Returns what is to be drawn after an answer, or null: the design that was printed and the one before, or the one that was read, with its
// violations where they were listed.
function drawnOf(module, { command, profile }, names, lefs, def, { status, text }) {
  if (status === REFUSED || status === NO_MEMORY || def.length > MOST_DRAWN) return null;
  if (status === 0 && CHANGING_COMMANDS.has(command)) return { def: text, before: def, lines: null };
  if (status === 0 && command === 'print') return { def: text, before: null, lines: null };
  const lines = violationLines(textOf(text));
  // (what `flow` lists is of the legalised block, where it could be legalised)
  const legalised = lines && command === 'flow' ? module.run(numberOf('legalise', profile), names, lefs, def) : null;
  return legalised && legalised.status === 0 ? { def: legalised.text, before: def, lines } : { def, before: null, lines };
}

// Returns the data of a picture.
function pictureOf({ isWide, soft }, lefs, { def, before, lines }) {
  const words = new Words(textOf(def));
  const library = new Library(unitsOf(words));
  const readLef = (text) => (isWide ? new WideLefReader(text, library) : new LefReader(text, library)).read();
  const readDef = (text) => (isWide ? new WideDefReader(text, library, soft) : new DefReader(text, library)).read();
  for (const lef of lefs) readLef(new Words(textOf(lef)));
  const design = readDef(words);
  return blockData(design, lines, before ? readDef(new Words(textOf(before))) : null);
}

// Returns the arrays of numbers in the data of a picture, which are handed over and not copied.
function buffersOf({ shapes, components }) {
  return [...Object.values(shapes), ...Object.values(components)].map((array) => array.buffer);
}

async function answer({ id, command, profile, lefs, def }) {
  const texts = await Promise.all([...lefs, def].map(bytesOf));
  const names = [def, ...lefs].map(({ name }) => name);
  const read = texts.pop();
  const module = await loading;
  const began = performance.now();
  const answered = asked(module, numberOf(command, profile), names, texts, read);
  postMessage({ id, answer: { ...answered, seconds: (performance.now() - began) / 1000 } });
  const drawn = drawnOf(module, { command, profile }, names, texts, read, answered);
  const picture = drawn ? pictureOf(profile, texts, drawn) : null;
  postMessage({ id, picture }, picture ? buffersOf(picture) : []);
}

async function take(message) {
  if (message.module) {
    loading = Module.from(message.module);
    await loading;
    return;
  }
  try {
    await answer(message);
  } catch (error) {
    if (!(error instanceof Unreadable)) throw Object.assign(error, { id: message.id });
    postMessage({ id: message.id, answer: { status: UNREADABLE, text: new Uint8Array(), message: error.message, seconds: 0 } });
    postMessage({ id: message.id, picture: null });
  }
}

addEventListener('message', ({ data }) => take(data).catch((error) => postMessage({ id: error.id ?? null, failure: String(error) })));
