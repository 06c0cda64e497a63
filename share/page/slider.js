'use strict';
// The view of the versions: their list; of one, on a slider, what its step changed and the tree as it was; beside it another one.

class VersionList extends Walk {
  constructor(store, box, choose) {
    super(store, box, choose);
    this.filter('');
  }

  idOf(version) {
    return `version-${version}`;
  }

  // What is sought in: the number, the curator, the time, and the places that the step changed.
  texts() {
    if (!this.folded) this.folded = this.versions().map((it) => folded(this.textOf(it)));
    return this.folded;
  }

  textOf(version) {
    const { store } = this;
    const commit = version > 0 ? store.commit(store.commitOf(version)) : null;
    const places = version > store.versions.oldest ? store.versions.changes(version).map((it) => rawPlace(store.path(it.place))) : [];
    return [`version ${version}`, ...(commit ? [curatorText(commit.curator), momentText(commit.moment)] : []), ...places].join('\n');
  }

  // The newest first.
  versions() {
    const { oldest, last } = this.store.versions;
    return Array.from({ length: last - oldest + 1 }, (_, at) => last - at);
  }

  filter(text) {
    const wanted = folded(text);
    this.setRows(text ? this.versions().filter((_, at) => this.texts()[at].includes(wanted)) : this.versions(), 0);
    return this.rows.length;
  }

  row(at) {
    const { store } = this;
    const version = this.rows[at];
    const kinds = ['row', 'version', at === this.active && 'active', version === this.chosen && 'chosen'];
    return element('div', {
      class: kinds.filter(Boolean).join(' '), id: this.idOf(version), role: 'option', 'data-at': at,
      'aria-selected': String(version === this.chosen), 'aria-setsize': this.rows.length, 'aria-posinset': at + 1,
    }, element('span', { class: 'number' }, NUMBERS.format(version)), element('span', { class: 'text' }, this.changed(version)),
    version > 0 ? curatorNode(store.commit(store.commitOf(version)).curator) : element('span', {}, 'the start'));
  }

  // The first place that a step changed, and how many others.
  changed(version) {
    const { versions } = this.store;
    if (version === versions.oldest) return version === 0 ? '' : 'older versions are left out';
    const others = versions.count(version) - 1;
    if (others < 0) return 'nothing';
    return [placeNodes(this.store.path(versions.first(version))), others > 0 && element('span', { class: 'rest' }, ` and ${NUMBERS.format(others)} more`)];
  }
}

// Says why the page hasn't a version.
function noVersionView(store, version) {
  const { oldest, last } = store.versions;
  const why = version > last ? `No step has this number: the last one is ${last}.` : `The page has the versions from ${NUMBERS.format(oldest)} on. Of an older one \u201ccpdb at\u201d tells.`;
  return [element('h2', {}, `No version ${version}`), element('p', { class: 'summary' }, why)];
}

// What stood somewhere, in a word or two.
function toldNode(content) {
  if (content === null) return element('span', { class: 'void' }, 'nothing');
  if (content.isNode) return element('span', { class: 'kind' }, content.children.size === 0 ? 'an empty node' : `a node with ${count(content.size() - 1, 'place')}`);
  if (content.kind === 's') return element('bdi', { class: 'value' }, content.text === '' ? element('span', { class: 'void' }, 'an empty text') : seen(content.text.slice(0, 300)));
  return element('span', { class: 'value word' }, { 0: 'null', t: 'true', f: 'false', i: content.text }[content.kind]);
}

const CHANGES = { added: '+', removed: '\u2212', changed: '\u2260' };

function changeOf({ before, after }) {
  return before === null ? 'added' : after === null ? 'removed' : 'changed';
}

// The right side, made once: it stays as it is while the slider is drawn.
class VersionPane {
  constructor(store, turn) {
    Object.assign(this, { store, versions: store.versions, cursor: new Cursor(store.versions), open: new Set() });
    const { oldest, last } = this.versions;
    const range = (label, oninput) => element('input', { type: 'range', min: oldest, max: last, step: 1, 'aria-label': label, oninput });
    this.slider = range('Version', () => this.soon(() => turn(Number(this.slider.value), this.beside)));
    this.other = range('The version beside it', () => this.soon(() => turn(this.version, Number(this.other.value))));
    this.both = element('input', { type: 'checkbox', onchange: () => turn(this.version, this.both.checked ? Math.max(oldest, this.version - 1) : null) });
    this.head = element('div');
    this.mark = element('output', { class: 'figure' });
    this.otherMark = element('output', { class: 'figure' });
    this.body = element('div');
    this.box = element('div', { class: 'versions' }, this.head, element('div', { class: 'slider' }, this.slider, this.mark),
      element('div', { class: 'slider beside' }, element('label', {}, this.both, ' another one beside it'), this.other, this.otherMark), this.body);
  }

  // Opens T, and what is right below it where that is little, in the version that is shown first.
  openFirst() {
    const root = this.cursor.root;
    this.open.add('T');
    if (root.isNode && root.size() <= ROWS_AT_FIRST) root.children.forEach((_, label) => this.open.add(rawPlace(['T', label])));
  }

  // Does the last of what is asked before the next frame.
  soon(what) {
    if (!this.waiting) requestAnimationFrame(() => { const last = this.waiting; this.waiting = null; last(); });
    this.waiting = what;
  }

  // Turns to a version, and to one beside it, or null.
  turn(version, beside) {
    Object.assign(this, { version, beside });
    this.cursor.go(version);
    if (this.open.size === 0) this.openFirst();
    this.slider.value = version;
    this.slider.setAttribute('aria-valuetext', versionText(version));
    this.mark.textContent = `${NUMBERS.format(version)} of ${NUMBERS.format(this.versions.last)}`;
    this.both.checked = beside !== null;
    this.other.hidden = beside === null;
    this.otherMark.hidden = beside === null;
    if (beside !== null) this.turnBeside(beside);
    this.head.replaceChildren(...this.headNodes().flat(Infinity).filter(Boolean));
    this.body.replaceChildren(...(beside === null ? this.single() : this.pair()).flat(Infinity).filter(Boolean));
  }

  turnBeside(beside) {
    this.besideCursor = this.besideCursor || new Cursor(this.versions);
    this.besideCursor.go(beside);
    this.other.value = beside;
    this.other.setAttribute('aria-valuetext', versionText(beside));
    this.otherMark.textContent = NUMBERS.format(beside);
  }

  headNodes() {
    const { version, versions } = this;
    const link = (to, text) => versions.has(to) && element('a', { href: versionAddress(to, this.beside) }, text);
    return [element('nav', { class: 'crumbs', 'aria-label': 'Versions beside this one' }, element('a', { href: '#@versions' }, 'Versions'),
      link(version - 1, 'the one before'), link(version + 1, 'the one after'), copyButton()),
    element('h2', {}, versionText(version)), element('p', { class: 'summary' }, this.summary())];
  }

  summary() {
    const { store, version } = this;
    if (version === 0) return 'The tree from which the store starts.';
    const commit = store.commit(store.commitOf(version));
    return ['The tree after ', stepLink(version), ' by ', stamp(store, version), commit.first < commit.last && `, in ${commitText(commit).replace('C', 'c')}`, '.'];
  }

  // One version: what its step changed, and the tree.
  single() {
    const found = this.version > this.versions.oldest ? this.ownChanges() : [];
    const title = `What changed (${NUMBERS.format(found.length)})`;
    const none = this.version > this.versions.oldest ? 'Nothing: what is copied over its equal stays as it is.' : this.version === 0 ? 'This is the start.'
      : `The page has the newest ${count(this.versions.last - this.versions.oldest + 1, 'version')} of ${NUMBERS.format(this.versions.last + 1)}. The others are left out; \u201ccpdb at\u201d tells of them.`;
    const list = found.length > 0 ? someRows(element('ol', { class: 'steps' }), found, (it) => this.changeRow(it)) : element('p', { class: 'none' }, none);
    return [section(found.length > 0 ? title : 'What changed', list), section('The tree as it was', this.tree(this.cursor, found, 'after'))];
  }

  ownChanges() {
    const found = [];
    for (const { place, before } of this.versions.changes(this.version)) {
      const path = this.store.path(place);
      found.push(...differences(path, before, this.cursor.at(path)));
    }
    return found.sort((one, other) => pathsInOrder(one.path, other.path));
  }

  changeRow({ path, before, after }) {
    const what = changeOf({ before, after });
    const words = { added: [': ', toldNode(after)], removed: [' removed, was ', toldNode(before)], changed: [': ', toldNode(after), ', was ', toldNode(before)] }[what];
    return element('li', {}, element('div', { class: `record change-${what}` }, element('span', { class: 'sign', title: what }, CHANGES[what]), element('span', {}, placeLink(path), words)));
  }

  // Two versions beside one another: the older one to the left.
  pair() {
    const isLater = this.beside <= this.version;
    const [old, now] = isLater ? [this.besideCursor, this.cursor] : [this.cursor, this.besideCursor];
    const found = this.versions.touched(old.version, now.version).map((it) => this.store.path(it)).sort(pathsInOrder)
      .flatMap((path) => [...differences(path, old.at(path), now.at(path))]);
    const body = element('tbody');
    const [, button] = someRows(body, found, ({ path, before, after }) => element('tr', {}, [placeLink(path), toldNode(before), toldNode(after)].map((it) => element('td', {}, it))));
    const table = found.length === 0 ? element('p', { class: 'none' }, 'Nothing: the two are equal.') : [tableOf(['Place', versionText(old.version), versionText(now.version)], body), button];
    return [section(`What differs (${NUMBERS.format(found.length)})`, table), element('div', { class: 'pair' },
      section(versionText(old.version), this.tree(old, found, 'before')), section(versionText(now.version), this.tree(now, found, 'after')))];
  }

  // The tree of a version, folded; the places that differ are marked, and those above them.
  tree(cursor, found, side) {
    const marks = new Map();
    const leads = new Set();
    for (const it of found) {
      if (it[side] !== null) marks.set(rawPlace(it.path), changeOf(it));
      for (let size = it.path.length - 1; size > 0; size -= 1) leads.add(rawPlace(it.path.slice(0, size)));
    }
    return element('ul', { class: 'was' }, this.branch(['T'], cursor.root, marks, leads));
  }

  branch(path, content, marks, leads) {
    const raw = rawPlace(path);
    const mark = marks.get(raw);
    const kinds = [mark && `change-${mark}`, leads.has(raw) && 'leads'].filter(Boolean).join(' ');
    const head = [mark && element('span', { class: 'sign', title: mark }, CHANGES[mark]), labelNode(path[path.length - 1])];
    const link = element('a', { class: 'now', href: addressOf(path), title: 'This address as it is now', 'aria-label': `${seen(spelledPlace(path))} as it is now` }, '\u2197');
    if (!content.isNode) return element('li', { class: kinds }, head, element('span', { class: 'colon' }, ': '), toldNode(content), link);
    if (content.children.size === 0) return element('li', { class: kinds }, head, element('span', { class: 'below' }, '{}'), link);
    return element('li', { class: kinds }, this.folded(path, raw, content, [head, element('span', { class: 'below' }, NUMBERS.format(content.children.size)), link], marks, leads));
  }

  // A node that is unfolded where its place is among the open ones; in both trees, where there are two.
  folded(path, raw, content, head, marks, leads) {
    const made = element('details', { 'data-place': raw, open: this.open.has(raw) }, element('summary', {}, head));
    const fill = () => {
      if (made.children.length > 1) return;
      const list = element('ul');
      const [, button] = someRows(list, content.labels(), (label) => this.branch([...path, label], content.children.get(label), marks, leads));
      made.append(list, button);
    };
    if (made.open) fill();
    made.ontoggle = () => {
      if (made.open) this.open.add(raw);
      else this.open.delete(raw);
      if (made.open) fill();
      this.body.querySelectorAll('details[data-place]').forEach((it) => { if (it.dataset.place === raw && it.open !== made.open) it.open = made.open; });
    };
    return made;
  }
}

function versionAddress(version, beside) {
  return `#@version/${version}${beside === null ? '' : `/${beside}`}`;
}

function versionText(version) {
  return version === 0 ? 'Version 0, the start' : `Version ${version}`;
}
