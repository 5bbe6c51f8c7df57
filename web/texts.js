// The texts that are open: a DEF, and LEFs in the order in which they are read. Each is { name, file, kind, isTechnology }.

const GUESSED_FROM = 65536;
const FIRST_FORM = /^[\t-\r ]*(DESIGN|DIEAREA|LAYER|MACRO)[\t-\r ]/im;

// Returns what a file seems to be: a DEF or a LEF by its name or else by its first form, and if it is a LEF whether it begins with layers,
// which those with macros need.
async function guessed(file) {
  let found = null;
  try {
    found = FIRST_FORM.exec(await file.slice(0, GUESSED_FROM).text());
  } catch {
    // (what cannot be read is reported when it is asked about)
  }
  const form = found ? found[1].toUpperCase() : '';
  const ending = /\.(def|lef)$/i.exec(file.name);
  const isDef = ending ? ending[1].toLowerCase() === 'def' : form === 'DESIGN' || form === 'DIEAREA';
  return { name: file.name, file, kind: isDef ? 'DEF' : 'LEF', isTechnology: form === 'LAYER' };
}

class Texts {
  constructor() {
    this.all = [];
  }

  get def() {
    return this.all.find(({ kind }) => kind === 'DEF') || null;
  }

  get lefs() {
    return this.all.filter(({ kind }) => kind === 'LEF');
  }

  isComplete() {
    return Boolean(this.def) && this.lefs.length > 0;
  }

  // Adds texts: a DEF takes the place of the one before, and a LEF that of one of the same name. Others with layers come before those without.
  async add(files) {
    for (const text of await Promise.all([...files].map(guessed))) this.put(text);
  }

  put(text) {
    const isSame = (other) => other.kind === text.kind && (text.kind === 'DEF' || other.name === text.name);
    const place = this.all.findIndex(isSame);
    const first = this.all.findIndex((other) => other.kind === 'LEF' && !other.isTechnology);
    if (place >= 0) this.all[place] = text;
    else if (text.isTechnology && first >= 0) this.all.splice(first, 0, text);
    else if (text.kind === 'DEF') this.all.unshift(text);
    else this.all.push(text);
  }

  replace(texts) {
    this.all = texts;
  }

  remove(text) {
    this.all = this.all.filter((other) => other !== text);
  }

  // Makes a text a DEF, in place of the one that was, or a LEF.
  setKind(text, kind) {
    this.all = this.all.filter((other) => kind !== 'DEF' || other === text || other.kind !== 'DEF');
    text.kind = kind;
  }

  // Moves a LEF before the one that comes before it.
  raise(text) {
    const lefs = this.lefs;
    const place = lefs.indexOf(text);
    if (place < 1) return;
    const [one, other] = [this.all.indexOf(lefs[place - 1]), this.all.indexOf(text)];
    [this.all[one], this.all[other]] = [this.all[other], this.all[one]];
  }
}
