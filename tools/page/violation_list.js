// The list of violations, by kind. Of a long list only what is in sight stands in the page.

const HEADING_HEIGHT = 34;
const ITEM_HEIGHT = 46;
const BEYOND = 4000;

class ViolationList {
  constructor(viewer, page) {
    this.viewer = viewer;
    this.page = page;
    this.list = page.getElementById('violations');
    this.room = page.createElement('div');
    this.room.className = 'room';
    this.list.replaceChildren(this.room);
    viewer.listen(this.list, 'scroll', () => this.fill());
    this.list.dataset.count = viewer.block.marks.length;
    this.made = new Map();
    viewer.onChange(() => this.update());
    viewer.watch(this.list, () => this.fill());
    this.update();
  }

  // Lists anew what is shown: for each kind its heading, and where it is switched on its violations.
  update() {
    const { block, kinds, mark } = this.viewer;
    const key = [...kinds].join(' ');
    if (key !== this.key) {
      this.key = key;
      this.rows = block.kinds.flatMap((kind) => [{ kind }, ...(kinds.has(kind.name) ? this.marksOf(kind.name) : [])]);
      this.tops = [0];
      this.rows.forEach((row, at) => this.tops.push(this.tops[at] + (row.kind ? HEADING_HEIGHT : ITEM_HEIGHT)));
      this.room.style.height = `${this.tops[this.rows.length]}px`;
      this.made.clear();
      this.room.replaceChildren();
    }
    if (mark !== null && mark !== this.mark) this.bringInSight(mark);
    this.mark = mark;
    this.fill();
  }

  marksOf(kind) {
    this.byKind = this.byKind || this.sortedMarks();
    return this.byKind.get(kind);
  }

  sortedMarks() {
    const byKind = new Map(this.viewer.block.kinds.map((kind) => [kind.name, []]));
    this.viewer.block.marks.forEach((mark, at) => byKind.get(mark.kind).push({ mark: at }));
    return byKind;
  }

  bringInSight(mark) {
    const at = this.rows.findIndex((row) => row.mark === mark);
    const [top, bottom] = [this.tops[at], this.tops[at + 1]];
    const { scrollTop, clientHeight } = this.list;
    if (top < scrollTop || bottom > scrollTop + clientHeight) this.list.scrollTop = top - clientHeight / 3;
  }

  // Makes the rows in sight and some beyond, and takes the others out of the page.
  fill() {
    const from = this.list.scrollTop - BEYOND;
    const to = this.list.scrollTop + this.list.clientHeight + BEYOND;
    for (const [at, element] of this.made) {
      if (this.tops[at + 1] < from || this.tops[at] > to) {
        element.remove();
        this.made.delete(at);
      }
    }
    for (let at = this.firstFrom(from); at < this.rows.length && this.tops[at] <= to; at++) {
      if (!this.made.has(at)) this.insert(at);
      const row = this.rows[at];
      if (!row.kind) this.made.get(at).setAttribute('aria-current', String(row.mark === this.viewer.mark));
    }
  }

  firstFrom(top) {
    let [low, high] = [0, this.rows.length];
    while (low < high) {
      const middle = (low + high) >> 1;
      if (this.tops[middle + 1] < top) low = middle + 1;
      else high = middle;
    }
    return low;
  }

  insert(at) {
    const row = this.rows[at];
    const element = row.kind ? this.heading(row.kind) : this.item(row.mark);
    element.style.top = `${this.tops[at]}px`;
    this.made.set(at, element);
    this.room.append(element);
  }

  heading({ name, meaning }) {
    const { page, viewer } = this;
    const element = page.createElement('label');
    element.className = 'kind';
    element.title = meaning;
    const box = Object.assign(page.createElement('input'), { type: 'checkbox', checked: viewer.kinds.has(name) });
    box.addEventListener('change', () => viewer.showKind(name, box.checked));
    const count = Object.assign(page.createElement('span'), { className: 'count', textContent: this.marksOf(name).length });
    element.append(box, name, count);
    return element;
  }

  item(place) {
    const { page, viewer } = this;
    const mark = viewer.block.marks[place];
    const number = viewer.block.numberOf(place);
    const element = Object.assign(page.createElement('button'), { type: 'button', className: 'violation', title: `${mark.text}\n${mark.note}` });
    element.dataset.number = number;
    const make = (name, text) => Object.assign(page.createElement('span'), { className: name, textContent: text });
    element.append(make('number', number), make('text', mark.text.slice(mark.kind.length + 1)), make('note', mark.note));
    element.addEventListener('click', () => viewer.chooseMark(place));
    return element;
  }
}
