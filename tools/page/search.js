// Search for components, nets and pins by their names.

const MOST_FOUND = 60;

class Search {
  constructor(viewer, page) {
    this.viewer = viewer;
    this.page = page;
    this.field = page.getElementById('search');
    this.found = page.getElementById('found');
    viewer.listen(this.field, 'input', () => this.update());
    viewer.listen(this.field, 'keydown', (event) => this.key(event));
    this.field.value = '';
    this.update();
  }

  key(event) {
    const first = this.found.querySelector('button');
    if (event.key === 'Enter' && first) first.click();
    if (event.key !== 'Escape') return;
    this.field.value = '';
    this.update();
    this.viewer.chooseNothing();
    this.viewer.canvas.focus();
  }

  update() {
    const text = this.field.value.trim();
    const found = text ? this.matches(text) : [];
    const lines = found.slice(0, MOST_FOUND).map((one) => this.line(one));
    const more = found.length - lines.length;
    const word = text && !found.length ? 'no component, net or pin has this in its name' : more > 0 ? `and ${more} more` : '';
    if (word) lines.push(Object.assign(this.page.createElement('p'), { textContent: word }));
    this.found.replaceChildren(...lines);
    this.found.dataset.count = found.length;
  }

  line({ what, name, choose }) {
    const element = Object.assign(this.page.createElement('button'), { type: 'button' });
    const kind = Object.assign(this.page.createElement('span'), { className: 'what', textContent: what });
    element.append(kind, name);
    element.addEventListener('click', choose);
    return element;
  }

  // Returns what has a text in its name, those first whose whole name it is and then those whose name begins with it. A text of two words
  // is a component and its pin, or PIN and a pin of the design.
  matches(text) {
    const { block } = this.viewer;
    const [of, pin] = text.split(/[ /]+(?=[^ /]*$)/);
    const found = [
      ...this.named(block.names.components, text).map((component) => this.component(component)),
      ...this.named(block.names.nets, text).map((net) => this.net(net)),
      ...this.designPins().filter((number) => this.rankOf(block.names.pins[number], text) < 3).map((number) => this.pin(-1, number)),
    ];
    const component = block.names.components.indexOf(text);
    if (component >= 0) found.push(...block.pinsOf(component).map((number) => this.pin(component, number)));
    if (pin !== undefined) found.push(...this.pinsOf(of, pin));
    return found.map((one) => [this.rankOf(one.name, text), one]).sort((a, b) => a[0] - b[0]).map(([, one]) => one);
  }

  // How well a name fits a text: 0 if it is the text, 1 if it begins so, 2 if it has it, without regard to capitals, and else 3.
  rankOf(name, text) {
    if (name === text) return 0;
    const place = name.toLowerCase().indexOf(text.toLowerCase());
    return place < 0 ? 3 : Math.min(place, 1) + 1;
  }

  named(names, text) {
    return numbersOf(names.length, (number) => this.rankOf(names[number], text) < 3);
  }

  designPins() {
    this.pinsOfDesign = this.pinsOfDesign || this.viewer.block.pinsOf(-1);
    return this.pinsOfDesign;
  }

  pinsOf(of, pin) {
    const { block } = this.viewer;
    const component = of === 'PIN' ? -1 : block.names.components.indexOf(of);
    if (component < 0 && of !== 'PIN') return [];
    return block.pinsOf(component).filter((number) => this.rankOf(block.names.pins[number], pin) < 2).map((number) => this.pin(component, number));
  }

  component(component) {
    const { viewer } = this;
    const words = viewer.block.componentWords(component);
    return { what: 'component', name: viewer.block.names.components[component], choose: () => viewer.choose(`component ${words}`, [], component) };
  }

  net(net) {
    const { viewer } = this;
    const name = viewer.block.names.nets[net];
    return { what: 'net', name, choose: () => viewer.choose(`net ${name}`, viewer.block.shapesOfNet(net)) };
  }

  pin(component, number) {
    const { viewer } = this;
    const { names } = viewer.block;
    const name = `${component < 0 ? 'PIN' : names.components[component]} ${names.pins[number]}`;
    return { what: 'pin', name, choose: () => viewer.choose(`pin ${name}`, viewer.block.shapesOfPin(component, number)) };
  }
}
