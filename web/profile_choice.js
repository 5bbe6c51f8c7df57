// The profile in which texts are read, as it is chosen on the page: the narrow one, or the wide one with its options.

class ProfileChoice {
  constructor(page) {
    this.get = (name) => page.getElementById(name);
    this.get('wide').addEventListener('change', () => this.changed());
    this.changed();
  }

  // (the options go with the wide profile alone)
  changed() {
    this.get('options').disabled = !this.get('wide').checked;
  }

  chooseNarrow() {
    this.get('wide').checked = false;
    this.changed();
  }

  // Returns the profile: whether it is the wide one, and what is then to be done with masks and with soft and partial blockages.
  chosen() {
    return { isWide: this.get('wide').checked, masks: this.get('masks').value, soft: this.get('soft').value };
  }
}
