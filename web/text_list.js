// The list of texts on the page.

class TextList {
  // `changed` is called when a text was moved, removed or made another kind.
  constructor(texts, page, changed) {
    this.texts = texts;
    this.page = page;
    this.changed = changed;
    this.list = page.getElementById('texts');
    this.update();
  }

  update() {
    this.list.replaceChildren(...this.texts.all.map((text) => this.line(text)));
    this.page.getElementById('missing').textContent = this.missing();
  }

  missing() {
    const { texts } = this;
    if (!texts.all.length) return 'Drop a DEF and its LEFs on this page, or open them.';
    if (!texts.def) return 'A DEF is missing.';
    return texts.lefs.length ? '' : 'The LEFs are missing, with the layers, sites and macros that the DEF names.';
  }

  make(tag, properties, ...inside) {
    const element = Object.assign(this.page.createElement(tag), properties);
    element.append(...inside);
    return element;
  }

  line(text) {
    const size = this.make('span', { className: 'size', textContent: sizeWords(text.file.size) });
    const name = this.make('span', { className: 'name', textContent: text.name, title: text.name });
    return this.make('li', {}, this.kind(text), name, size, ...this.buttons(text));
  }

  kind(text) {
    const options = ['DEF', 'LEF'].map((kind) => this.make('option', { value: kind, textContent: kind, selected: text.kind === kind }));
    const choice = this.make('select', { ariaLabel: `What ${text.name} is` }, ...options);
    choice.addEventListener('change', () => this.act(() => this.texts.setKind(text, choice.value)));
    return choice;
  }

  buttons(text) {
    const button = (sign, label, act) => {
      const element = this.make('button', { type: 'button', textContent: sign, title: label, ariaLabel: `${label}: ${text.name}` });
      element.addEventListener('click', () => this.act(act));
      return element;
    };
    const remove = button('×', 'Close this text', () => this.texts.remove(text));
    const isFirst = text.kind === 'DEF' || this.texts.lefs[0] === text;
    return isFirst ? [remove] : [button('↑', 'Read this LEF before the one above', () => this.texts.raise(text)), remove];
  }

  act(act) {
    act();
    this.update();
    this.changed();
  }
}

function sizeWords(bytes) {
  if (bytes < 1000) return `${bytes} B`;
  return bytes < 1e6 ? `${(bytes / 1e3).toFixed(1)} kB` : `${(bytes / 1e6).toFixed(1)} MB`;
}
