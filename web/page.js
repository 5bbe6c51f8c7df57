// The page: texts are opened or dropped, a command is asked in a profile, and the answer and the picture are shown.

class Page {
  constructor(page) {
    this.page = page;
    this.get = (name) => page.getElementById(name);
    this.texts = new Texts();
    this.asker = new Asker(page);
    this.profile = new ProfileChoice(page);
    this.list = new TextList(this.texts, page, () => this.changed());
    this.answer = new AnswerView(page, (answer, name) => this.takeDesign(answer, name));
    this.isRunning = this.isExample = false;
    this.showExamples();
    this.listen();
    this.changed();
  }

  listen() {
    const { page } = this;
    this.get('open').addEventListener('click', () => this.get('files').click());
    this.get('files').addEventListener('change', () => this.add(this.get('files').files));
    this.get('asking').addEventListener('submit', (event) => {
      event.preventDefault();
      if (this.isRunning) this.stop();
      else this.run();
    });
    for (const kind of ['dragover', 'drop']) page.addEventListener(kind, (event) => event.preventDefault());
    for (const kind of ['dragenter', 'dragover']) page.addEventListener(kind, () => page.body.classList.add('dropping'));
    for (const kind of ['dragleave', 'drop']) page.addEventListener(kind, () => page.body.classList.remove('dropping'));
    page.addEventListener('drop', (event) => this.add(event.dataTransfer.files));
  }

  // The examples are those of the tutorial: { files: { name: text }, commands: [[command, DEF, LEF..]] }.
  showExamples() {
    const { files, commands } = JSON.parse(this.get('examples-data').textContent);
    const buttons = commands.map(([command, ...names]) => {
      const text = `${command} ${names[0].replace(/^.*\//, '')}`;
      const button = Object.assign(this.page.createElement('button'), { type: 'button', textContent: text });
      button.addEventListener('click', () => this.runExample(command, names.map((name) => ({ name, file: new Blob([files[name]]) }))));
      return button;
    });
    this.get('examples').replaceChildren(...buttons);
  }

  runExample(command, [def, ...lefs]) {
    this.texts.replace([{ ...def, kind: 'DEF', isTechnology: false }, ...lefs.map((lef) => ({ ...lef, kind: 'LEF', isTechnology: true }))]);
    this.isExample = true;
    this.get('command').value = command;
    this.profile.chooseNarrow();
    this.list.update();
    this.run();
  }

  // Adds files, to none of an example, and asks the command if there are a DEF and a LEF.
  async add(files) {
    if (this.isExample) this.texts.replace([]);
    this.isExample = false;
    await this.texts.add(files);
    this.get('files').value = '';
    this.get('starting').open = false;
    this.list.update();
    this.changed();
    if (this.texts.isComplete()) this.run();
  }

  // Takes a design that was printed as the DEF, and checks it.
  takeDesign(answer, name) {
    this.texts.put({ name, file: new Blob([answer.text]), kind: 'DEF', isTechnology: false });
    this.get('command').value = 'check';
    this.list.update();
    this.run();
  }

  changed() {
    this.get('run').disabled = !this.isRunning && !this.texts.isComplete();
    this.get('run').textContent = this.isRunning ? 'Stop' : 'Run';
  }

  setRunning(isRunning) {
    this.isRunning = isRunning;
    this.page.body.dataset.running = isRunning;
    this.changed();
  }

  run() {
    if (this.isRunning) this.asker.stop();
    const { lefs, def } = this.texts;
    const command = this.get('command').value;
    this.setRunning(true);
    this.answer.clear('running ..');
    const plain = ({ name, file }) => ({ name, file });
    this.asker.ask(command, this.profile.chosen(), lefs.map(plain), plain(def), (said) => this.take(said, command, def.name));
  }

  stop() {
    this.asker.stop();
    this.answer.clear('stopped');
    this.setRunning(false);
  }

  // Takes what the worker says of the command that was asked.
  take({ answer, picture, failure }, command, def) {
    if (answer) {
      this.answer.show(answer, command, def);
      this.answer.tell('drawing ..');
      return;
    }
    if (failure && !this.answer.answer) this.answer.clear(`no answer: ${failure}`);
    if (picture) {
      this.page.body.dataset.block = 'some';
      this.answer.tell('');
      chooseNamed(showBlock(picture, this.page), this.answer.lastLine());
    } else {
      this.page.body.dataset.block = 'none';
      this.answer.tell(failure ? `The picture could not be made: ${failure}` : 'There is no picture of texts that were refused or are too large.');
    }
    this.setRunning(false);
  }
}

// Shows at what a command has stopped: a net without a way, also if only a piece of it has none, or a component without a place.
function chooseNamed(viewer, line) {
  const [word, name] = line.split(' ');
  const { names } = viewer.block;
  if (word === 'UNROUTABLE' || word === 'UNREACHABLE') {
    const net = names.nets.indexOf(name);
    viewer.choose(`net ${name}`, viewer.block.shapesOfNet(net));
  } else if (word === 'NOROOM' || word === 'NOSITE') {
    const component = names.components.indexOf(name);
    viewer.choose(`component ${viewer.block.componentWords(component)}`, [], component);
  }
}

const shownPage = new Page(document);
document.documentElement.dataset.loaded = Math.round(performance.now());
