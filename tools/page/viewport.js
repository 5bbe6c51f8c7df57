// What is seen of a block: the point in the middle, and how many pixels of the page a database unit takes.

const MOST_PIXELS_A_UNIT = 64;

class Viewport {
  constructor(box) {
    this.box = box;
    this.x = this.y = 0;
    this.scale = 1;
    this.width = this.height = 1;
    this.isWhole = false;
  }

  // Takes the size of the page's place for the block, in pixels. Where the whole block is shown, it still is.
  resize(width, height) {
    this.width = Math.max(width, 1);
    this.height = Math.max(height, 1);
    if (this.isWhole) this.showWhole();
  }

  // The place on the page of a coordinate.
  across(x) {
    return (x - this.x) * this.scale + this.width / 2;
  }

  down(y) {
    return (this.y - y) * this.scale + this.height / 2;
  }

  // The coordinate at a place on the page.
  xAt(across) {
    return this.x + (across - this.width / 2) / this.scale;
  }

  yAt(down) {
    return this.y - (down - this.height / 2) / this.scale;
  }

  // Returns the sides of what is seen, in database units.
  sides() {
    return [this.xAt(0), this.yAt(this.height), this.xAt(this.width), this.yAt(0)];
  }

  // Shows a box with a margin in pixels.
  show(box, margin) {
    const across = Math.max(this.width - 2 * margin, this.width / 4);
    const along = Math.max(this.height - 2 * margin, this.height / 4);
    this.scale = Math.min(across / Math.max(box[2] - box[0], 1e-9), along / Math.max(box[3] - box[1], 1e-9));
    this.x = (box[0] + box[2]) / 2;
    this.y = (box[1] + box[3]) / 2;
    this.limit();
  }

  showWhole() {
    this.show(this.box, 24);
    this.isWhole = true;
  }

  // Shows the surroundings of a place: `reach` units around it, and no less than what it stands among.
  showAround(box, reach) {
    const margin = Math.max(reach, Math.max(box[2] - box[0], box[3] - box[1]) / 2);
    this.show([box[0] - margin, box[1] - margin, box[2] + margin, box[3] + margin], 24);
  }

  move(across, down) {
    this.x -= across / this.scale;
    this.y += down / this.scale;
    this.limit();
  }

  // Zooms by a factor, and leaves what is at a place of the page there.
  zoom(factor, across, down) {
    const [x, y] = [this.xAt(across), this.yAt(down)];
    this.scale *= factor;
    this.limit();
    this.x = x - (across - this.width / 2) / this.scale;
    this.y = y + (down - this.height / 2) / this.scale;
    this.limit();
  }

  // Keeps the block from being lost: it is never smaller than a part of the page, nor wholly out of sight.
  limit() {
    this.isWhole = false;
    const whole = Math.min(this.width / Math.max(this.box[2] - this.box[0], 1), this.height / Math.max(this.box[3] - this.box[1], 1));
    this.scale = Math.min(Math.max(this.scale, whole / 4), Math.max(MOST_PIXELS_A_UNIT, whole));
    this.x = Math.min(Math.max(this.x, this.box[0]), this.box[2]);
    this.y = Math.min(Math.max(this.y, this.box[1]), this.box[3]);
  }
}
