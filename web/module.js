// lefdef as a module of WebAssembly, built from the proved sources (tools/web). This file alone knows how the module is called.
//
// The module is for 64-bit memory: addresses and sizes are BigInts. A slice is passed as its address and its length, a slice of slices as the
// address of such pairs and their number, and the memory that a call may use as the address of a pair of its own.

const COMMAND_NAMES = ['check', 'place-check', 'measure', 'legalise', 'route', 'flow', 'finish', 'print'];
// What is added to a command's number for the wide profile, and for what is then to be done with masks and with soft and partial blockages.
const WIDE = 256;
const MASKS_FLAGS = { refused: 0, drop: 512 };
const SOFT_FLAGS = { refused: 0, drop: 1024, hard: 2048 };
const [REFUSED, NO_MEMORY] = [2, 4];
const PAGE = 65536;
const UNIT = 16;
// How much memory is lent at first: for each byte of the texts so many, and the least. It is doubled as long as the answer is that it is
// too little, up to the most.
const LENT_A_BYTE = 20;
const LEAST_LENT = 2 ** 20;
const MOST_LENT = 2 ** 33;
const FIRST_OUT = 2 ** 20;
const FIRST_MESSAGE = 2 ** 12;
// The program reads no more of a file.
const FILE_LIMIT = 2 ** 28 + 1;

// Returns the number by which a command is asked in a profile, { isWide, masks, soft }.
function numberOf(command, { isWide, masks, soft }) {
  return COMMAND_NAMES.indexOf(command) + (isWide ? WIDE + MASKS_FLAGS[masks] + SOFT_FLAGS[soft] : 0);
}

// Returns the bytes of a text in base 64 that was compressed by gzip.
async function unpacked(text) {
  const packed = Uint8Array.from(atob(text), (character) => character.charCodeAt(0));
  return new Response(new Blob([packed]).stream().pipeThrough(new DecompressionStream('gzip'))).arrayBuffer();
}

// Memory of an instance in which arguments are laid out one after the other, each at a multiple of UNIT.
class Layout {
  constructor({ memory, __heap_base: start }) {
    this.memory = memory;
    this.end = 0;
    this.take(Number(start.value));
    this.writes = [];
  }

  // Returns the address of so many bytes.
  take(size) {
    const at = this.end;
    this.end += Math.ceil(size / UNIT) * UNIT;
    return at;
  }

  // Returns the two words by which bytes are passed.
  bytes(bytes) {
    const at = this.take(bytes.length);
    this.writes.push((buffer) => new Uint8Array(buffer, at, bytes.length).set(bytes));
    return [at, bytes.length];
  }

  // Returns the two words by which a list of bytes is passed.
  slices(list) {
    const words = list.flatMap((bytes) => this.bytes(bytes));
    return [this.words(words), list.length];
  }

  // Returns the address of words.
  words(words) {
    const at = this.take(8 * words.length);
    this.writes.push((buffer) => new BigUint64Array(buffer, at, words.length).set(words.map(BigInt)));
    return at;
  }

  // Grows the memory so that all that was taken is in it, which throws where there is no more, and writes what was laid out.
  fill() {
    const lack = this.end - this.memory.buffer.byteLength;
    if (lack > 0) this.memory.grow(BigInt(Math.ceil(lack / PAGE)));
    for (const write of this.writes) write(this.memory.buffer);
  }

  // Returns a copy of bytes.
  read(at, size) {
    return new Uint8Array(this.memory.buffer, at, size).slice();
  }
}

class Module {
  static async from(text) {
    const bytes = await unpacked(text);
    try {
      return new Module(await WebAssembly.compile(bytes));
    } catch (error) {
      throw new Error(`this browser does not run WebAssembly with 64-bit memory, which lefdef needs (${error.message})`);
    }
  }

  constructor(module) {
    this.module = module;
  }

  // Returns the status and the text with which lefdef answers a command, by its number, to texts of files with these names, the DEF's first,
  // and the message that the program writes on standard error. It is called with more memory and more room until both are enough. Where the browser does not
  // grant so much memory, half of it may do.
  run(number, names, lefs, def) {
    const [defName, ...lefNames] = names.map((name) => new TextEncoder().encode(name));
    const words = (layout) => [
      number, ...layout.slices(lefNames), ...layout.bytes(defName), ...layout.slices(lefs), ...layout.bytes(def)];
    const size = [...lefs, def].reduce((sum, text) => sum + text.length, 0);
    let [lent, most, room, messageRoom] = [LEAST_LENT + LENT_A_BYTE * size, MOST_LENT, FIRST_OUT + size, FIRST_MESSAGE];
    while (lent <= most && lent >= LEAST_LENT) {
      const answer = this.call(words, lent, room, messageRoom);
      if (!answer) {
        lent /= 2;
        most = lent;
      } else if (answer.status === NO_MEMORY) {
        lent *= 2;
      } else if (answer.length > room || answer.messageLength > messageRoom) {
        room = Math.max(room, answer.length);
        messageRoom = Math.max(messageRoom, answer.messageLength);
      } else {
        return answer;
      }
    }
    return { status: NO_MEMORY, text: new TextEncoder().encode('MEMORY\n'), message: new Uint8Array() };
  }

  // Calls the export once, with a memory of its own. Returns null where the memory does not grow so far.
  call(wordsOf, lent, room, messageRoom) {
    const { exports } = new WebAssembly.Instance(this.module);
    const layout = new Layout(exports);
    const words = wordsOf(layout);
    const [out, length, message, messageLength] = [layout.take(room), layout.take(8), layout.take(messageRoom), layout.take(8)];
    const memory = layout.words([layout.take(lent), Math.floor(lent / UNIT) * UNIT]);
    try {
      layout.fill();
    } catch (error) {
      if (error instanceof RangeError) return null;
      throw error;
    }
    const [number, ...rest] = words;
    const addresses = [...rest, out, room, length, message, messageRoom, messageLength].map(BigInt);
    const status = exports.lefdef_run_explained(BigInt(memory), number, ...addresses);
    const count = (at) => Number(new BigUint64Array(exports.memory.buffer, at, 1)[0]);
    return {
      status,
      length: count(length),
      messageLength: count(messageLength),
      text: layout.read(out, Math.min(count(length), room)),
      message: layout.read(message, Math.min(count(messageLength), messageRoom)),
    };
  }
}
