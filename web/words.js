// The words of LEF and DEF texts, and their numbers, points and statements (docs/FORMATS.md, "Words"). Only texts that lefdef has read
// come here, so nothing is refused: what no such text has is not looked for.

const [FEED, BLANK, QUOTE, HASH, PLUS, MINUS, POINT, SEMICOLON, BACKSLASH] = ['\n', ' ', '"', '#', '+', '-', '.', ';', '\\'].map((mark) => mark.charCodeAt(0));
const [DIGIT, TAB, RETURN] = ['0', '\t', '\r'].map((mark) => mark.charCodeAt(0));
const MILLION = 1e6;

// Returns the text of bytes: UTF-8, with a surrogate (0xdc00 and the byte) in place of each byte that is not of it.
function textOf(bytes) {
  try {
    return new TextDecoder('utf-8', { fatal: true, ignoreBOM: true }).decode(bytes);
  } catch {
    return textOfAnyBytes(bytes);
  }
}

function textOfAnyBytes(bytes) {
  const decoder = new TextDecoder('utf-8', { fatal: true, ignoreBOM: true });
  const parts = [];
  let plain = 0;
  for (let at = 0; at < bytes.length;) {
    const length = lengthOfCharacter(bytes, at, decoder);
    if (length === 0) {
      parts.push(decoder.decode(bytes.subarray(plain, at)), String.fromCharCode(0xdc00 + bytes[at]));
      plain = at + 1;
    }
    at += length || 1;
  }
  parts.push(decoder.decode(bytes.subarray(plain)));
  return parts.join('');
}

// Returns how many bytes the character has that begins at a place, or 0 where none does.
function lengthOfCharacter(bytes, at, decoder) {
  const first = bytes[at];
  if (first < 0x80) return 1;
  const length = first >= 0xf0 ? 4 : first >= 0xe0 ? 3 : 2;
  try {
    decoder.decode(bytes.subarray(at, at + length));
    return length;
  } catch {
    return 0;
  }
}

function isWhite(code) {
  return code === BLANK || code >= TAB && code <= RETURN;
}

class Words {
  constructor(text) {
    this.text = text;
    this.at = 0;
    this.starts = new Column(Int32Array, text.length / 8 | 1024);
    this.ends = new Column(Int32Array, text.length / 8 | 1024);
    for (let at = 0; at < text.length;) at = this.after(at);
    this.count = this.starts.length;
    [this.starts, this.ends] = [this.starts.numbers, this.ends.numbers];
  }

  // Takes what begins at a place: white space, a comment or a word. Returns the place after it.
  after(at) {
    const { text } = this;
    const code = text.charCodeAt(at);
    if (isWhite(code)) return at + 1;
    if (code === HASH) {
      const end = text.indexOf('\n', at);
      return end < 0 ? text.length : end;
    }
    const end = code === QUOTE ? this.endOfQuoted(at) : this.endOfPlain(at);
    if (code !== QUOTE && end > at + 1 && text.charCodeAt(end - 1) === SEMICOLON) {
      this.add(at, end - 1);
      this.add(end - 1, end);
    } else {
      this.add(at, end);
    }
    return end;
  }

  add(start, end) {
    this.starts.push(start);
    this.ends.push(end);
  }

  endOfPlain(at) {
    const { text } = this;
    while (at < text.length && !isWhite(text.charCodeAt(at))) at++;
    return at;
  }

  endOfQuoted(at) {
    const { text } = this;
    for (let end = text.indexOf('"', at + 1); end >= 0; end = text.indexOf('"', end + 1)) {
      if (text.charCodeAt(end - 1) !== BACKSLASH) return end + 1;
    }
    return text.length;
  }

  // The word at a number of words.
  word(at) {
    return at < this.count ? this.text.slice(this.starts[at], this.ends[at]) : '';
  }

  more() {
    return this.at < this.count;
  }

  take() {
    if (this.at >= this.count) throw new Error('the text ends too early');
    return this.word(this.at++);
  }

  // Takes a word, and returns it in capitals.
  keyword() {
    return this.take().toUpperCase();
  }

  // Returns the next word in capitals, or '' at the end.
  peek() {
    return this.word(this.at).toUpperCase();
  }

  // Whether the next word is this mark, of one character.
  isAt(mark, at = this.at) {
    return at < this.count && this.ends[at] === this.starts[at] + 1 && this.text.charCodeAt(this.starts[at]) === mark.charCodeAt(0);
  }

  // Takes the next word if it is this one, in any case of letters, and returns whether it was.
  takeIf(keyword) {
    if (this.peek() !== keyword) return false;
    this.at++;
    return true;
  }

  // Takes a whole number.
  whole() {
    const { text } = this;
    const [start, end] = [this.starts[this.at], this.ends[this.at++]];
    const sign = text.charCodeAt(start);
    let value = 0;
    for (let at = sign === PLUS || sign === MINUS ? start + 1 : start; at < end; at++) value = 10 * value + text.charCodeAt(at) - DIGIT;
    return sign === MINUS ? 0 - value : value;
  }

  // Takes a length in microns, and returns it in units of which there are so many to the micron.
  length(units) {
    const { text } = this;
    const [start, end] = [this.starts[this.at], this.ends[this.at++]];
    const sign = text.charCodeAt(start);
    let [microns, millionths, part] = [0, 0, 0];
    for (let at = sign === PLUS || sign === MINUS ? start + 1 : start; at < end; at++) {
      const code = text.charCodeAt(at);
      if (code === POINT) {
        part = MILLION;
      } else if (part) {
        part /= 10;
        millionths += part >= 1 ? (code - DIGIT) * part : 0;
      } else {
        microns = 10 * microns + code - DIGIT;
      }
    }
    // (in this order no product is too great to be exact)
    const value = microns * units + millionths * units / MILLION;
    return sign === MINUS ? 0 - value : value;
  }

  // Takes two corners of a rectangle, in any order, each a pair of numbers by `number`, in parentheses or without.
  corners(number) {
    const [xa, ya] = this.pair(number);
    const [xb, yb] = this.pair(number);
    return ordered(xa, ya, xb, yb);
  }

  pair(number) {
    const isClosed = this.isAt('(');
    if (isClosed) this.at++;
    const pair = [number(), number()];
    if (isClosed) this.at++;
    return pair;
  }

  // Takes the words up to the next semicolon, and that.
  skipStatement() {
    while (!this.isAt(';')) this.take();
    this.at++;
  }

  // Takes the words up to the first `END` and this keyword.
  skipBlock(end) {
    while (this.keyword() !== 'END' || this.peek() !== end);
    this.at++;
  }

  // Takes the words up to this keyword.
  skipTo(keyword) {
    while (this.keyword() !== keyword);
  }
}
