// Draws many things that are smaller than a few pixels, by how much of each pixel they cover: what a canvas would draw rectangle by
// rectangle, some ten times as fast. Pixels are those of the page, and colours are [red, green, blue] from 0 to 255.

class Dust {
  constructor() {
    this.canvas = document.createElement('canvas');
    this.context = this.canvas.getContext('2d', { willReadFrequently: true });
    this.width = this.height = 0;
    this.isEmpty = true;
  }

  // Makes room for a page of this size, without anything on it.
  begin(width, height) {
    if (width !== this.width || height !== this.height) {
      this.width = this.canvas.width = width;
      this.height = this.canvas.height = height;
      this.image = this.context.createImageData(width, height);
      this.colours = new Float32Array(4 * width * height);
    } else if (!this.isEmpty) {
      this.colours.fill(0);
    }
    this.isEmpty = true;
  }

  // Takes the colour of what is added from now on, and how opaque it is, from 0 to 1.
  take(colour, opacity) {
    [this.red, this.green, this.blue] = colour;
    this.opacity = opacity;
  }

  // Adds the rectangles of a range of a grid that are seen through a Viewport and cover fewer than `large` pixels, each less a gap in
  // pixels on all sides, but no more than an eighth of its width.
  addRange({ sides }, from, to, view, large, gap = 0) {
    const { scale } = view;
    const least = large / scale / scale;
    const left = view.across(0);
    const bottom = view.down(0);
    for (let at = 4 * from; at < 4 * to; at += 4) {
      if ((sides[at + 2] - sides[at]) * (sides[at + 3] - sides[at + 1]) >= least) continue;
      const x1 = left + sides[at] * scale;
      const x2 = left + sides[at + 2] * scale;
      const y1 = bottom - sides[at + 3] * scale;
      const y2 = bottom - sides[at + 1] * scale;
      const less = Math.min(gap, (x2 - x1) / 8);
      this.add(x1 + less, y1 + less, x2 - less, y2 - less);
    }
  }

  // Lays a rectangle over what is there.
  add(x1, y1, x2, y2) {
    const left = Math.max(x1, 0);
    const right = Math.min(x2, this.width);
    const upper = Math.max(y1, 0);
    const lower = Math.min(y2, this.height);
    if (left >= right || upper >= lower) return;
    this.isEmpty = false;
    const [column, row] = [left | 0, upper | 0];
    if (right <= column + 1 && lower <= row + 1) {
      this.cover(4 * (row * this.width + column), (right - left) * (lower - upper) * this.opacity);
      return;
    }
    for (let y = row; y < lower; y++) this.addLine(y, left, right, (Math.min(lower, y + 1) - Math.max(upper, y)) * this.opacity);
  }

  // Covers a line of pixels, each by `high` times how much of its width lies between two places.
  addLine(y, left, right, high) {
    for (let x = left | 0; x < right; x++) this.cover(4 * (y * this.width + x), (Math.min(right, x + 1) - Math.max(left, x)) * high);
  }

  // Covers a part of a pixel. Colours are kept multiplied by how opaque the pixel is.
  cover(at, part) {
    const { colours } = this;
    const kept = 1 - part;
    colours[at] = colours[at] * kept + this.red * part;
    colours[at + 1] = colours[at + 1] * kept + this.green * part;
    colours[at + 2] = colours[at + 2] * kept + this.blue * part;
    colours[at + 3] = colours[at + 3] * kept + part;
  }

  // Draws what was added.
  paint(context) {
    if (this.isEmpty) return;
    const { colours } = this;
    const pixels = this.image.data;
    for (let at = 0; at < colours.length; at += 4) {
      const cover = colours[at + 3];
      pixels[at + 3] = 255 * cover;
      if (cover > 0) {
        pixels[at] = colours[at] / cover;
        pixels[at + 1] = colours[at + 1] / cover;
        pixels[at + 2] = colours[at + 2] / cover;
      }
    }
    this.context.putImageData(this.image, 0, 0);
    context.drawImage(this.canvas, 0, 0);
  }
}
