'use strict';
// A list that is walked by keys: one row is active, and the box that has the focus names it.

class Walk {
  constructor(store, box, choose) {
    Object.assign(this, { store, choose, rows: [], active: 0, chosen: -1 });
    this.attach(box);
  }

  attach(box) {
    this.box = box;
    this.list = new Rows(box, (at) => this.row(at));
    this.list.onShown = () => this.activate(this.active);
    box.onkeydown = (event) => this.key(event);
    box.onclick = (event) => this.click(event);
  }

  setRows(rows, active) {
    this.rows = rows;
    this.list.set(rows.length);
    this.activate(active);
  }

  activate(at) {
    this.active = Math.max(0, Math.min(at, this.rows.length - 1));
    this.list.reveal(this.active);
    this.list.paint(true);
    this.tellActive();
  }

  // Makes a row the chosen one, and brings it in sight.
  reveal(row) {
    this.chosen = row;
    const at = this.rows.indexOf(row);
    if (at >= 0) this.activate(at);
    else this.list.paint(true);
  }

  tellActive() {
    if (this.rows.length > 0) this.box.setAttribute('aria-activedescendant', this.idOf(this.rows[this.active]));
    else this.box.removeAttribute('aria-activedescendant');
  }

  move(at) {
    this.activate(at);
    this.choose(this.rows[this.active], true);
  }

  click(event) {
    const row = event.target.closest('[data-at]');
    if (!row) return;
    this.active = Number(row.dataset.at);
    this.press(this.rows[this.active], event);
  }

  press(row) {
    this.choose(row, false);
  }

  moves() {
    return {
      ArrowDown: () => this.move(this.active + 1), ArrowUp: () => this.move(this.active - 1),
      Home: () => this.move(0), End: () => this.move(this.rows.length - 1),
      PageDown: () => this.move(this.active + this.list.page), PageUp: () => this.move(this.active - this.list.page),
      Enter: () => this.choose(this.rows[this.active], false), ' ': () => this.choose(this.rows[this.active], false),
    };
  }

  key(event) {
    if (event.ctrlKey || event.metaKey || event.altKey || this.rows.length === 0) return;
    const move = this.moves()[event.key];
    if (!move) return;
    event.preventDefault();
    move();
  }
}
