'use strict';
// The search: which places have a text in their label or value, whatever its case and accents; with a slash in it, in their address too.

function folded(text) {
  const lower = text.toLowerCase();
  return /^[\u0000-\u007f]*$/.test(lower) ? lower : lower.normalize('NFD').replace(/\p{M}/gu, '');
}

class Search {
  // Each text of the store stands once in `all`, behind a sign that no text has; `starts` tells where. A place has two of
  // them: its label or root's name, and its value.
  constructor(store) {
    this.store = store;
    const numbers = new Map([['', 0]]);
    const number = (text) => numbers.get(text) ?? numbers.set(text, numbers.size).size - 1;
    const words = { 0: 'null', t: 'true', f: 'false' };
    this.labelTexts = new Int32Array(store.count);
    this.valueTexts = new Int32Array(store.count);
    for (let place = 0; place < store.count; place += 1) {
      this.labelTexts[place] = number(store.label(place));
      this.valueTexts[place] = number(store.values[place] ?? words[store.kinds[place]] ?? '');
    }
    this.texts = [...numbers.keys()].map(folded);
    this.starts = new Int32Array(this.texts.length + 1);
    this.texts.forEach((it, at) => { this.starts[at + 1] = this.starts[at] + it.length + 1; });
    this.all = `${this.texts.join('\u0000')}\u0000`;
  }

  label(place) {
    return this.texts[this.labelTexts[place]];
  }

  // The places that match, in order.
  find(text) {
    const wanted = folded(text);
    return wanted.includes('/') ? this.findWay(wanted) : this.findText(wanted);
  }

  // Which of the texts have another one in them.
  textsWith(wanted) {
    const { all, starts } = this;
    const found = new Uint8Array(this.texts.length);
    for (let at = all.indexOf(wanted), text = 0; at >= 0; at = all.indexOf(wanted, starts[text + 1])) {
      while (starts[text + 1] <= at) text += 1;
      found[text] = 1;
    }
    return found;
  }

  findText(wanted) {
    const { labelTexts, valueTexts } = this;
    const isFound = this.textsWith(wanted);
    const found = new Int32Array(this.store.count);
    let size = 0;
    for (let place = 0; place < found.length; place += 1) {
      if (isFound[labelTexts[place]] || isFound[valueTexts[place]]) found[size++] = place;
    }
    return found.subarray(0, size);
  }

  // With a slash: the text stands in the address, or still in a label or a value.
  findWay(wanted) {
    const parts = wanted.split('/');
    const last = parts.length - 1;
    const plain = new Set(this.findText(wanted));
    const found = [];
    for (let place = 0; place < this.store.count; place += 1) {
      if (plain.has(place) || this.endsWay(place, parts, last)) found.push(place);
    }
    return found;
  }

  endsWay(place, parts, last) {
    if (!this.label(place).startsWith(parts[last])) return false;
    let at = this.store.parents[place];
    for (let part = last - 1; part >= 0; part -= 1, at = this.store.parents[at]) {
      if (at < 0) return part === 0 && parts[0] === '';
      const label = this.label(at);
      if (part > 0 ? label !== parts[part] : !label.endsWith(parts[0])) return false;
    }
    return true;
  }
}
