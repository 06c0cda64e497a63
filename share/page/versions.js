'use strict';
// The versions of T: from the tree of now the page goes back by what stood where a step changed something, and forth again.

// What stands at a place: a node with its children by their labels, or a value with its letter and, of a text or a number,
// its text. One that is shared is held elsewhere too, and stays as it is.
class Content {
  constructor(kind, text, children) {
    Object.assign(this, { kind, text, children, isShared: false });
  }

  get isNode() {
    return this.kind === 'n';
  }

  // The labels of the children, in the order of places.
  labels() {
    return [...this.children.keys()].sort(inOrder);
  }

  // How many places stand here and below.
  size() {
    let size = 1;
    if (this.isNode) this.children.forEach((it) => { size += it.size(); });
    return size;
  }

  isSameValue(other) {
    return this.kind === other.kind && this.text === other.text && !this.isNode;
  }

  shared() {
    this.isShared = true;
    return this;
  }

  // A node that may change, with the same children.
  own() {
    if (!this.isShared) return this;
    this.children.forEach((it) => it.shared());
    return new Content('n', null, new Map(this.children));
  }
}

// Labels in the order of their bytes.
function inOrder(one, other) {
  const last = Math.min(one.length, other.length);
  for (let at = 0; at < last; at += 1) {
    if (one[at] !== other[at]) return one.codePointAt(at) - other.codePointAt(at);
  }
  return one.length - other.length;
}

class Versions {
  constructor(store, { oldest, counts, places, before, kinds, texts, below }) {
    Object.assign(this, { store, oldest, places, before, kinds, texts, below, last: store.tid });
    this.made = new Array(kinds.length);
    this.starts = new Float64Array(counts.length + 1);
    counts.forEach((it, at) => { this.starts[at + 1] = this.starts[at] + it; });
    this.readContents();
  }

  // Where the text and the numbers of each content stand.
  readContents() {
    let text = 0;
    let below = 0;
    this.textAt = new Int32Array(this.kinds.length);
    this.belowAt = new Int32Array(this.kinds.length);
    for (let at = 0; at < this.kinds.length; at += 1) {
      this.textAt[at] = text;
      this.belowAt[at] = below;
      if ('si'.includes(this.kinds[at])) text += 1;
      if (this.kinds[at] === 'n') below += 1 + 2 * this.below[below];
      if (this.kinds[at] === 'p') below += 1;
    }
  }

  has(version) {
    return version >= this.oldest && version <= this.last;
  }

  // A content by its number; whoever holds it leaves it as it is.
  content(at) {
    this.made[at] = this.made[at] || this.contentOf(at).shared();
    return this.made[at];
  }

  contentOf(at) {
    const kind = this.kinds[at];
    if (kind === 'p') return this.standing(this.below[this.belowAt[at]]);
    if (kind !== 'n') return new Content(kind, 'si'.includes(kind) ? this.texts[this.textAt[at]] : null, null);
    const children = new Map();
    const first = this.belowAt[at] + 1;
    for (let child = 0; child < this.below[first - 1]; child += 1) {
      children.set(this.store.labels[this.below[first + 2 * child]], this.content(this.below[first + 2 * child + 1]));
    }
    return new Content('n', null, children);
  }

  // What stands at a place of the page now.
  standing(place) {
    const { store } = this;
    if (!store.isNode(place)) return new Content(store.kinds[place], store.values[place], null);
    return new Content('n', null, new Map(store.children(place).map((it) => [store.label(it), this.standing(it)])));
  }

  // The places that a step changed, each with what stood there before, or null.
  changes(version) {
    const found = [];
    for (let at = this.starts[version - this.oldest - 1]; at < this.starts[version - this.oldest]; at += 1) {
      found.push({ place: this.places[at], before: this.before[at] === 0 ? null : this.content(this.before[at] - 1) });
    }
    return found;
  }

  // How many places a step changed, and the first of them.
  count(version) {
    return this.starts[version - this.oldest] - this.starts[version - this.oldest - 1];
  }

  first(version) {
    return this.places[this.starts[version - this.oldest - 1]];
  }

  // The topmost of the places that the steps after one version changed, up to another one.
  touched(from, to) {
    const { parents } = this.store;
    const all = new Set();
    for (let at = this.starts[from - this.oldest]; at < this.starts[to - this.oldest]; at += 1) all.add(this.places[at]);
    return [...all].filter((place) => {
      for (let above = parents[place]; above >= 0; above = parents[above]) if (all.has(above)) return false;
      return true;
    });
  }
}

// A tree that goes from version to version.
class Cursor {
  constructor(versions) {
    Object.assign(this, { versions, version: versions.last, root: versions.standing(0), undone: [] });
  }

  // Goes to a version; what it costs is what changed on the way.
  go(version) {
    while (this.version > version) this.back();
    while (this.version < version) this.forth();
    return this;
  }

  back() {
    const done = this.versions.changes(this.version).map(({ place, before }) => ({ place, content: this.put(place, before) }));
    this.undone.push(done);
    this.version -= 1;
  }

  forth() {
    this.undone.pop().reverse().forEach(({ place, content }) => this.put(place, content));
    this.version += 1;
  }

  // What stands at a path, or null.
  at(path) {
    let here = this.root;
    for (const label of path.slice(1)) {
      here = here && here.isNode ? here.children.get(label) : null;
    }
    return here || null;
  }

  // Puts a content at a place, or nothing; answers what stood there.
  put(place, content) {
    const labels = this.versions.store.path(place).slice(1);
    if (labels.length === 0) {
      const old = this.root;
      this.root = content;
      return old;
    }
    this.root = this.root.own();
    let above = this.root;
    for (const label of labels.slice(0, -1)) {
      const next = above.children.get(label).own();
      above.children.set(label, next);
      above = next;
    }
    const last = labels[labels.length - 1];
    const old = above.children.get(last) || null;
    if (content) above.children.set(last, content);
    else above.children.delete(last);
    return old;
  }
}

// How two contents at a path differ, in the order of places; null stands for nothing.
function* differences(path, before, after) {
  if (before && after && before.isNode && after.isNode) {
    for (const label of [...new Set([...before.children.keys(), ...after.children.keys()])].sort(inOrder)) {
      yield* differences([...path, label], before.children.get(label) || null, after.children.get(label) || null);
    }
  } else if (before !== after && !(before && after && before.isSameValue(after))) yield { path, before, after };
}

// The order of paths that is the order of places.
function pathsInOrder(one, other) {
  for (let at = 0; at < Math.min(one.length, other.length); at += 1) {
    if (one[at] !== other[at]) return inOrder(one[at], other[at]);
  }
  return one.length - other.length;
}
