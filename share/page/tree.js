'use strict';
// The tree of T and of the sources: folded and unfolded, searched, walked by keys.

// As many rows as a tree that is opened may show at once.
const ROWS_AT_FIRST = 40;
const MATCH = 1;
const ABOVE = 2;

class TreeView extends Walk {
  // `choose` is told a place that is chosen, and whether as a step of a walk.
  constructor(store, box, choose) {
    super(store, box, choose);
    this.search = new Search(store);
    this.open = new Uint8Array(store.count);
    this.openFirst();
    this.wanted = '';
    this.update(0);
  }

  idOf(place) {
    return `place-${place}`;
  }

  // Goes on in another box, as it was but for a search.
  moveTo(box) {
    this.attach(box);
    this.filter('');
  }

  // Opens T, and what is below it, level by level as long as that takes few rows.
  openFirst() {
    let level = [0];
    let shown = this.store.roots.length;
    while (level.length > 0) {
      const next = level.flatMap((it) => this.store.children(it));
      shown += next.length;
      if (level[0] !== 0 && shown > ROWS_AT_FIRST) return;
      level.forEach((it) => { this.open[it] = 1; });
      level = next.filter((it) => this.store.childCount[it] > 0);
    }
  }

  // What is shown

  isOpen(place) {
    if (!this.wanted) return this.open[place] === 1;
    return this.toggled.has(place) ? this.toggled.get(place) : (this.marks[place] & ABOVE) !== 0;
  }

  isShown(place) {
    return !this.wanted || this.marks[place] !== 0 || (this.toggled.size > 0 && this.toggled.get(this.store.parents[place]) === true);
  }

  // Makes the rows anew, and that of a place the active one where it has one.
  update(place) {
    const { count: total, sizes } = this.store;
    const room = new Int32Array(total);
    let size = 0;
    for (let at = 0; at < total;) {
      if (!this.isShown(at)) at += sizes[at];
      else {
        room[size++] = at;
        at += this.isOpen(at) ? 1 : sizes[at];
      }
    }
    const rows = room.subarray(0, size);
    const active = firstAtLeast(rows, place);
    this.setRows(rows, rows[active] === place ? active : this.active);
  }

  // Shows the places that have a text, with those above them; all places where it is empty. Answers how many have it.
  filter(text) {
    const before = this.chosen >= 0 ? this.chosen : this.rows[this.active];
    this.wanted = text;
    this.active = 0;
    if (!text) {
      this.show(before === undefined ? 0 : before);
      return this.store.count;
    }
    const found = this.search.find(text);
    this.mark(found);
    this.update(found.length > 0 ? found[0] : 0);
    return found.length;
  }

  mark(found) {
    const { parents } = this.store;
    this.toggled = new Map();
    this.marks = new Uint8Array(this.store.count);
    for (const place of found) {
      this.marks[place] |= MATCH;
      for (let at = parents[place]; at >= 0 && !(this.marks[at] & ABOVE); at = parents[at]) this.marks[at] |= ABOVE;
    }
  }

  // Makes a place the chosen one, and brings it in sight.
  reveal(place) {
    this.chosen = place;
    if (place >= 0) this.show(place);
    this.list.paint(true);
  }

  // Opens the way to a place, and makes its row the active one.
  show(place) {
    if (!this.wanted) this.store.ancestors(place).forEach((it) => { this.open[it] = 1; });
    this.update(place);
  }

  // Rows

  row(at) {
    const { store } = this;
    const place = this.rows[at];
    const isNode = store.childCount[place] > 0;
    const above = store.parents[place];
    const kinds = ['row', at === this.active && 'active', place === this.chosen && 'chosen', store.depths[place] === 0 && 'root'];
    const made = element('div', {
      class: kinds.filter(Boolean).join(' '), id: `place-${place}`, role: 'treeitem', 'data-at': at,
      'aria-level': store.depths[place] + 1, 'aria-selected': String(place === this.chosen),
      'aria-expanded': isNode ? String(this.isOpen(place)) : null,
      'aria-setsize': above < 0 ? store.roots.length : store.childCount[above],
      'aria-posinset': above < 0 ? store.rootOf(place) + 1 : store.ordinals[place] + 1,
    }, element('span', { class: 'twisty', 'aria-hidden': 'true' }), this.rowText(place), this.rowOrigin(place));
    made.style.paddingInlineStart = `${8 + 16 * Math.min(store.depths[place], 24)}px`;
    return made;
  }

  rowText(place) {
    const { store } = this;
    const label = element('bdi', { class: 'label' }, this.marked(labelText(store.label(place))));
    if (!store.isNode(place)) return element('span', { class: 'text' }, label, element('span', { class: 'colon' }, ': '), this.rowValue(place));
    const below = store.sizes[place] - 1;
    const count_ = below === 0 ? '{}' : this.isOpen(place) ? '' : NUMBERS.format(below);
    return element('span', { class: 'text' }, label, count_ && element('span', { class: 'below' }, count_));
  }

  rowValue(place) {
    const { store } = this;
    if (store.kinds[place] !== 's') return element('span', { class: 'value word' }, this.marked(store.valueText(place)));
    return element('bdi', { class: 'value' }, this.marked(seen(store.values[place].slice(0, 300))));
  }

  marked(text) {
    const plain = this.wanted ? folded(text) : '';
    const at = this.wanted && plain.length === text.length ? plain.indexOf(folded(this.wanted)) : -1;
    if (at < 0) return text;
    const end = at + folded(this.wanted).length;
    return [text.slice(0, at), element('mark', {}, text.slice(at, end)), text.slice(end)];
  }

  rowOrigin(place) {
    return this.store.isInT(place) ? originMark(this.store, place) : takenMark(this.store, place);
  }

  // What one does

  press(place, event) {
    if (event.target.closest('.twisty') && this.store.childCount[place] > 0) this.toggle(place, !this.isOpen(place));
    else this.choose(place, false);
  }

  toggle(place, isOpen) {
    if (this.wanted) this.toggled.set(place, isOpen);
    else this.open[place] = isOpen ? 1 : 0;
    this.update(place);
  }

  // Folds all below the roots, or unfolds everything.
  setAll(isOpen) {
    this.open.fill(isOpen ? 1 : 0);
    if (!isOpen) this.open[0] = 1;
    this.update(isOpen ? this.chosen : 0);
  }

  moves() {
    return { ...super.moves(), ArrowRight: () => this.goIn(), ArrowLeft: () => this.goOut(), '*': () => this.openSiblings() };
  }

  goIn() {
    const place = this.rows[this.active];
    if (this.store.childCount[place] === 0) return;
    if (this.isOpen(place)) this.move(this.active + 1);
    else this.toggle(place, true);
  }

  goOut() {
    const place = this.rows[this.active];
    if (this.store.childCount[place] > 0 && this.isOpen(place)) this.toggle(place, false);
    else if (this.store.parents[place] >= 0) this.move(firstAtLeast(this.rows, this.store.parents[place]));
  }

  openSiblings() {
    const place = this.rows[this.active];
    const above = this.store.parents[place];
    const siblings = above < 0 ? this.store.roots.map((it) => it.first) : this.store.children(above);
    siblings.forEach((it) => (this.wanted ? this.toggled.set(it, true) : this.open.fill(1, it, it + 1)));
    this.update(place);
  }
}

// Where the data of a place came from, in a word and a colour.
function originMark(store, place) {
  const origin = store.origins[place];
  if (origin === NEW) return element('span', { class: 'origin new', title: 'Inserted by hand' }, 'new');
  if (origin === START) return element('span', { class: 'origin start', title: 'There from the start' }, 'start');
  const { name } = store.roots[origin];
  return element('span', { class: `origin ${colour(origin)}`, title: `From the source ${name}` }, name);
}

// Whether data of T comes from a source's place.
function takenMark(store, place) {
  const taken = store.taken();
  const root = store.rootOf(place);
  if (store.depths[place] === 0) return element('span', { class: `origin ${colour(root)}` }, `${share(taken[root].places, store.roots[root].places)} taken`);
  return store.isTaken[place] ? element('span', { class: `origin ${colour(root)}` }, 'taken') : null;
}

function colour(root) {
  return `source source-${(root - 1) % 8}`;
}
