// The switches for layers and for what else is drawn, which are the key to the colours too; and the words at the top of the page.

class Switches {
  constructor(viewer, page) {
    this.viewer = viewer;
    this.page = page;
    this.list = page.getElementById('switches');
    const { block } = viewer;
    const layers = block.layers.map((layer, number) => [`layer ${number}`, layer.name]);
    const present = SWITCHES.filter(([word]) => this.isPresent(word));
    this.list.replaceChildren(...[...layers.reverse(), ...present].map(([word, text]) => this.line(word, text)));
    viewer.onChange(() => this.colour());
    this.colour();
    page.getElementById('title').textContent = block.title;
    page.getElementById('summary').textContent = this.summary();
    this.chosen = page.getElementById('chosen');
    viewer.onChange(() => this.tellChosen());
    this.tellChosen();
  }

  // Returns whether the block has what a word names.
  isPresent(word) {
    const { block } = this.viewer;
    const roles = new Map([...SHOWN_AS].map(([role, name]) => [name, role]));
    if (roles.has(word)) return block.groups.some((group) => group.role === roles.get(word) && !group.isAdded);
    if (word === 'added') return block.groups.some((group) => group.isAdded);
    const lists = { components: block.names.components, rows: block.rows, placements: block.placements, tracks: block.tracks, moves: block.moves || [] };
    return word === 'names' || lists[word].length > 0;
  }

  line(word, text) {
    const { page, viewer } = this;
    const element = page.createElement('label');
    const box = Object.assign(page.createElement('input'), { type: 'checkbox', checked: viewer.shown.has(word) });
    box.dataset.word = word;
    box.addEventListener('change', () => viewer.show(word, box.checked));
    const swatch = Object.assign(page.createElement('span'), { className: `swatch ${word.split(' ')[0]}` });
    element.append(box, swatch, text);
    return element;
  }

  // Gives the swatches of layers their colours, which change with the page's.
  colour() {
    for (const box of this.list.querySelectorAll('[data-word^="layer "]')) {
      const colour = this.viewer.drawing.colours[Number(box.dataset.word.slice('layer '.length))];
      box.nextSibling.style.setProperty('--colour', colour);
    }
  }

  summary() {
    const { block } = this.viewer;
    const many = (count, one) => `${count.toLocaleString('en')} ${one}${count === 1 ? '' : 's'}`;
    const words = [many(block.names.components.length, 'component'), many(block.names.nets.length, 'net'), many(block.count, 'shape')];
    if (!block.moves) return words.join(', ');
    const added = block.groups.filter((group) => group.isAdded).reduce((sum, group) => sum + group.grid.items.length, 0);
    return `${words.join(', ')}; ${many(block.moves.length, 'component')} moved or turned, ${many(added, 'shape')} of wires added`;
  }

  tellChosen() {
    const { chosen, mark, block } = this.viewer;
    const isNowhere = chosen && chosen.component !== null ? !block.boxOfComponent(chosen.component) : chosen && !chosen.shapes.length;
    const words = chosen ? chosen.words + (isNowhere ? ': no metal and no place' : '') : '';
    this.chosen.textContent = mark === null ? words : `violation ${block.numberOf(mark)}: ${block.marks[mark].text} (${block.marks[mark].note})`;
  }
}
