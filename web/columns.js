// A list of numbers that grows, and that is a typed array in the end.

class Column {
  constructor(Type, room = 1024) {
    this.numbers = new Type(room);
    this.length = 0;
  }

  push(number) {
    if (this.length === this.numbers.length) {
      const grown = new this.numbers.constructor(2 * this.length);
      grown.set(this.numbers);
      this.numbers = grown;
    }
    this.numbers[this.length++] = number;
  }

  // Returns the numbers, in as much room as they need.
  array() {
    return this.numbers.slice(0, this.length);
  }
}

// Returns whole numbers as 32 bits each, or as Float64Array where one is too great for that.
function packed(numbers) {
  for (const number of numbers) if (Math.abs(number) > 2 ** 31 - 1) return Float64Array.from(numbers);
  return Int32Array.from(numbers);
}
