// Asks the worker. It is made of a text in the page: a page of a file may start no worker from another file.

class Asker {
  constructor(page) {
    this.script = page.getElementById('worker').textContent;
    this.module = page.getElementById('module').textContent;
    this.id = 0;
    this.open = new Map();
    this.start();
  }

  start() {
    const address = URL.createObjectURL(new Blob([this.script], { type: 'text/javascript' }));
    this.worker = new Worker(address);
    this.worker.addEventListener('message', ({ data }) => this.take(data));
    this.worker.addEventListener('error', (event) => this.take({ id: null, failure: event.message }));
    this.worker.postMessage({ module: this.module });
  }

  // Takes what the worker has to say: on one question, or that it cannot answer any.
  take({ id, ...said }) {
    const listeners = id === null || id === undefined ? [...this.open.values()] : [this.open.get(id)].filter(Boolean);
    for (const listener of listeners) listener(said);
    if (!said.answer) this.open.delete(id);
    if (said.failure) this.failure = said.failure;
  }

  // Asks a command on texts, each { name, file }, that are read in a profile, { isWide, masks, soft }. `listener` is given { answer } and then
  // { picture }, or { failure }.
  ask(command, profile, lefs, def, listener) {
    this.id++;
    this.open.set(this.id, listener);
    this.worker.postMessage({ id: this.id, command, profile, lefs, def });
  }

  // Stops what is being answered.
  stop() {
    this.worker.terminate();
    this.open.clear();
    this.start();
  }
}
