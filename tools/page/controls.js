// How a page is moved: by mouse, touch pad, fingers, keys and buttons.

const STEP = 1.4;

class Controls {
  constructor(viewer, page) {
    this.viewer = viewer;
    this.page = page;
    this.pointers = new Map();
    this.wheeled = -Infinity;
    this.told = page.getElementById('told');
    this.told.replaceChildren();
    const { canvas } = viewer;
    viewer.listen(canvas, 'wheel', (event) => this.wheel(event), { passive: false });
    viewer.listen(canvas, 'pointerdown', (event) => this.down(event));
    viewer.listen(canvas, 'pointermove', (event) => this.moved(event));
    viewer.listen(canvas, 'pointerleave', () => this.tell(null));
    for (const kind of ['pointerup', 'pointercancel']) viewer.listen(canvas, kind, (event) => this.pointers.delete(event.pointerId));
    viewer.listen(canvas, 'dblclick', (event) => this.zoom(2, ...this.placeOf(event)));
    viewer.listen(page, 'keydown', (event) => this.key(event));
    const buttons = {
      closer: () => this.zoom(STEP), farther: () => this.zoom(1 / STEP), whole: () => this.whole(), next: () => viewer.step(1), previous: () => viewer.step(-1),
    };
    for (const [name, act] of Object.entries(buttons)) viewer.listen(page.getElementById(name), 'click', act);
  }

  // Returns the place of an event on the canvas, in pixels of the page.
  placeOf(event) {
    const { left, top } = this.viewer.canvas.getBoundingClientRect();
    return [event.clientX - left, event.clientY - top];
  }

  zoom(factor, across = this.viewer.view.width / 2, down = this.viewer.view.height / 2) {
    this.viewer.view.zoom(factor, across, down);
    this.viewer.ask();
  }

  move(across, down) {
    this.viewer.view.move(across, down);
    this.viewer.ask();
  }

  whole() {
    this.viewer.view.showWhole();
    this.viewer.ask();
  }

  // A mouse wheel and two fingers that pinch zoom; two fingers that move on a touch pad move the block.
  wheel(event) {
    event.preventDefault();
    // (a movement is what its first event is)
    if (event.timeStamp - this.wheeled > 250) this.isByWheel = this.isMouseWheel(event);
    this.wheeled = event.timeStamp;
    if (event.ctrlKey) {
      this.zoom(Math.exp(-event.deltaY / 100), ...this.placeOf(event));
    } else if (this.isByWheel) {
      this.zoom(event.deltaY < 0 ? STEP : 1 / STEP, ...this.placeOf(event));
    } else {
      this.move(-event.deltaX, -event.deltaY);
    }
  }

  // A wheel goes by lines, or by whole notches of one height and in one direction.
  isMouseWheel(event) {
    return event.deltaMode !== WheelEvent.DOM_DELTA_PIXEL || event.deltaX === 0 && Math.abs(event.deltaY) >= 40 && (event.wheelDeltaY || 0) % 120 === 0;
  }

  down(event) {
    if (event.button !== 0) return;
    this.pointers.set(event.pointerId, this.placeOf(event));
    this.viewer.canvas.setPointerCapture(event.pointerId);
  }

  moved(event) {
    const place = this.placeOf(event);
    const before = this.pointers.get(event.pointerId);
    if (!before) {
      this.tell(place);
      return;
    }
    const other = [...this.pointers].find(([id]) => id !== event.pointerId);
    this.pointers.set(event.pointerId, place);
    if (other) this.pinch(before, place, other[1]);
    else this.move(place[0] - before[0], place[1] - before[1]);
  }

  // Two fingers zoom by how far they are apart, and move the block by their middle.
  pinch(before, place, other) {
    const apart = (a) => Math.max(Math.hypot(a[0] - other[0], a[1] - other[1]), 1);
    this.move((place[0] - before[0]) / 2, (place[1] - before[1]) / 2);
    this.zoom(apart(place) / apart(before), (place[0] + other[0]) / 2, (place[1] + other[1]) / 2);
  }

  // Tells what lies under the pointer, at most once a frame.
  tell(place) {
    const isAsked = this.toTell !== undefined;
    this.toTell = place;
    if (isAsked) return;
    requestAnimationFrame(() => {
      const lines = this.toTell ? this.viewer.wordsAt(...this.toTell) : [];
      this.toTell = undefined;
      this.told.replaceChildren(...lines.map((line) => Object.assign(this.page.createElement('div'), { textContent: line })));
    });
  }

  key(event) {
    // (where a text is written, chosen or read, keys are that element's own)
    const isWritten = event.target.closest && event.target.closest('input[type=search], select, pre');
    if (isWritten || event.ctrlKey || event.metaKey || event.altKey) return;
    const { viewer } = this;
    const across = viewer.view.width / 8;
    const down = viewer.view.height / 8;
    const acts = {
      '+': () => this.zoom(STEP), '=': () => this.zoom(STEP), '-': () => this.zoom(1 / STEP), Home: () => this.whole(),
      ArrowLeft: () => this.move(across, 0), ArrowRight: () => this.move(-across, 0), ArrowUp: () => this.move(0, down), ArrowDown: () => this.move(0, -down),
      n: () => viewer.step(1), p: () => viewer.step(-1), Escape: () => viewer.chooseNothing(), '/': () => this.page.getElementById('search').focus(),
    };
    // (in the list of violations, up and down go through it)
    if (event.target.closest && event.target.closest('#violations')) Object.assign(acts, { ArrowUp: acts.p, ArrowDown: acts.n });
    if (!Object.hasOwn(acts, event.key)) return;
    event.preventDefault();
    acts[event.key]();
  }
}
