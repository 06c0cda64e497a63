'use strict';
// The list of commits, the newest first, or the oldest.

class CommitList extends Walk {
  constructor(store, box, choose) {
    super(store, box, choose);
    this.isNewestFirst = true;
    this.wanted = '';
    this.filter('');
    setTimeout(() => this.texts(), 100);
  }

  idOf(at) {
    return `commit-${at}`;
  }

  // What is sought in: the curator, the time, the numbers, and the places that have a record.
  texts() {
    if (!this.folded) {
      this.folded = this.store.commits.first.map((first, at) => {
        const commit = this.store.commit(at);
        const places = this.store.records(first, commit.last).flatMap((it) => (it.source < 0 ? [it.place] : [it.place, it.source]));
        return folded([curatorText(commit.curator), momentText(commit.moment), commitText(commit), ...places.map((it) => rawPlace(this.store.path(it)))].join('\n'));
      });
    }
    return this.folded;
  }

  filter(text) {
    this.wanted = text;
    const wanted = folded(text);
    const all = this.store.commits.first.map((it, at) => at);
    this.found = text ? all.filter((it) => this.texts()[it].includes(wanted)) : all;
    this.setRows(this.isNewestFirst ? [...this.found].reverse() : this.found, 0);
    return this.found.length;
  }

  turn() {
    this.isNewestFirst = !this.isNewestFirst;
    this.filter(this.wanted);
    this.reveal(this.chosen);
  }

  row(at) {
    const commit = this.store.commit(this.rows[at]);
    const kinds = ['row', 'commit', at === this.active && 'active', commit.at === this.chosen && 'chosen'];
    return element('div', {
      class: kinds.filter(Boolean).join(' '), id: this.idOf(commit.at), role: 'option', 'data-at': at,
      'aria-selected': String(commit.at === this.chosen), 'aria-setsize': this.rows.length, 'aria-posinset': at + 1,
    }, element('span', { class: 'number' }, commitText(commit).slice(7)), curatorNode(commit.curator), this.counts(commit), momentNode(commit.moment));
  }

  // How many records of each form a commit has, those that were left out for one above them too.
  counts(commit) {
    const counts = { I: 0, C: 0, D: 0, K: 0 };
    this.store.records(commit.first, commit.last).forEach((it) => { counts[it.op] += 1 + it.below; });
    return element('span', { class: 'counts' }, Object.keys(counts).filter((it) => counts[it] > 0).map((it) => element('span', { class: `record-${it}`, title: `${count(counts[it], 'record')}: ${WORDS[it]}` },
      element('span', { class: 'sign' }, SIGNS[it]), NUMBERS.format(counts[it]))));
  }
}

// The list of sources.
class SourceList extends Walk {
  constructor(store, box, choose) {
    super(store, box, choose);
    this.filter('');
  }

  idOf(root) {
    return `source-${root}`;
  }

  filter(text) {
    this.setRows(this.store.roots.map((it, at) => at).filter((at) => at > 0 && folded(this.store.roots[at].name).includes(folded(text))), 0);
    return this.rows.length;
  }

  row(at) {
    const number = this.rows[at];
    const root = this.store.roots[number];
    const taken = this.store.taken()[number];
    const kinds = ['row', 'source-row', at === this.active && 'active', number === this.chosen && 'chosen'];
    return element('div', { class: kinds.filter(Boolean).join(' '), id: this.idOf(number), role: 'option', 'data-at': at, 'aria-selected': String(number === this.chosen) },
      element('span', { class: `dot ${colour(number)}` }), element('span', { class: 'label' }, root.name), meter(taken.places, root.places, number), element('span', { class: 'share' }, share(taken.places, root.places)));
  }
}
