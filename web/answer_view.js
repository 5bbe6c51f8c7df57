// What lefdef answered, on the page: its status, its message and what it printed.

const STATUS_WORDS = { 0: 'done', 1: 'violations', 2: 'refused', 3: 'not solved', 4: 'out of memory', 5: 'not read' };
// Of a longer answer the page shows the beginning; the whole can be saved.
const MOST_SHOWN = 100000;

class AnswerView {
  // `take` is called with a design that was printed, to take it as the DEF.
  constructor(page, take) {
    this.page = page;
    this.get = (name) => page.getElementById(name);
    this.get('save').addEventListener('click', () => this.save());
    this.get('take').addEventListener('click', () => take(this.answer, this.name()));
    this.clear('');
  }

  // Shows a few words in place of an answer.
  clear(words) {
    this.answer = null;
    this.get('status').textContent = words;
    this.get('message').textContent = this.get('printed').textContent = '';
    this.get('answering').dataset.status = '';
    this.get('seconds').textContent = '';
    this.switch();
  }

  // Shows an answer to a command on the DEF of a name.
  show(answer, command, def) {
    this.answer = answer;
    this.command = command;
    this.def = def;
    this.get('answering').dataset.status = answer.status;
    const words = command.endsWith('check') && answer.status === 0 ? 'legal' : STATUS_WORDS[answer.status];
    this.get('status').textContent = `${words} (status ${answer.status})`;
    this.get('seconds').textContent = `${answer.seconds.toFixed(answer.seconds < 1 ? 3 : 1)} s`;
    this.get('message').textContent = answer.message.trimEnd();
    const shown = new TextDecoder().decode(answer.text.subarray(0, MOST_SHOWN));
    const left = answer.text.length - MOST_SHOWN;
    this.get('printed').textContent = left > 0 ? `${shown}\n.. and ${left.toLocaleString('en')} more bytes` : shown;
    this.switch();
  }

  // Tells that no picture was made, and why.
  tell(words) {
    this.get('blank').textContent = words;
  }

  // The last line that was printed.
  lastLine() {
    const { text } = this.answer;
    return new TextDecoder().decode(text.subarray(text.lastIndexOf(10, text.length - 2) + 1)).trimEnd();
  }

  isDesign() {
    return Boolean(this.answer) && this.answer.status === 0 && ['legalise', 'route', 'flow', 'finish', 'print'].includes(this.command);
  }

  switch() {
    this.get('save').disabled = !this.answer || !this.answer.text.length;
    this.get('take').hidden = !this.isDesign();
  }

  // A name for what was printed.
  name() {
    const base = this.def.replace(/^.*[/\\]/, '').replace(/\.def$/i, '');
    return `${base}-${this.command}.${this.isDesign() ? 'def' : 'txt'}`;
  }

  save() {
    const address = URL.createObjectURL(new Blob([this.answer.text]));
    Object.assign(this.page.createElement('a'), { href: address, download: this.name() }).click();
    setTimeout(() => URL.revokeObjectURL(address), 10000);
  }
}
