'use strict';
// The view of the curators: what each of them did, over time and by places, and two of them beside one another.

// The work of a curator: his commits; his records by form; the places that have one, each with his newest there; and how many
// places of T hold what a step of his brought.
class Work {
  constructor(name, at) {
    Object.assign(this, { name, at, commits: [], steps: 0, counts: { I: 0, C: 0, D: 0, K: 0 }, records: new Map(), standing: 0 });
  }

  take(store, commit) {
    this.commits.push(commit.at);
    this.steps += commit.last - commit.first + 1;
    store.records(commit.first, commit.last).forEach((it) => {
      this.counts[it.op] += 1 + it.below;
      this.records.set(it.place, it);
    });
  }

  // The newest record at a place or above it, or null: what is done to a place is done to all below it.
  newestOn(store, place) {
    let newest = null;
    for (let at = place; at >= 0; at = store.parents[at]) {
      const record = this.records.get(at);
      if (record && (!newest || record.tid > newest.tid)) newest = record;
    }
    return newest;
  }
}

// The works of all curators, in the order of their first commits.
function worksOf(store) {
  if (store.worksAt) return store.worksAt;
  const { curators, names } = store.commits;
  const works = names.map((name, at) => new Work(name, at));
  curators.forEach((curator, at) => works[curator].take(store, store.commit(at)));
  store.arrivals.forEach((tid) => { if (tid > 0) works[curators[store.commitOf(tid)]].standing += 1; });
  store.worksAt = works;
  return works;
}

// The places at which both of two curators have done something, by a record there or above, with the newest record of each; the
// last one first.
function meetings(store, one, other) {
  const places = new Set([...one.records.keys(), ...other.records.keys()]);
  return [...places].map((place) => ({ place, one: one.newestOn(store, place), other: other.newestOn(store, place) }))
    .filter((it) => it.one && it.other)
    .sort((a, b) => Math.max(b.one.tid, b.other.tid) - Math.max(a.one.tid, a.other.tid) || a.place - b.place);
}

// Addresses

function curatorAddress(name, beside) {
  return `#@curator/${encodeURIComponent(name)}${beside === null ? '' : `/${encodeURIComponent(beside)}`}`;
}

// The names of an address behind `#@curator/`; null where a name can't be read.
function curatorsIn(text) {
  try {
    return text.split('/').map(decodeURIComponent);
  } catch (error) {
    return null;
  }
}

function curatorLink(name) {
  return element('a', { href: curatorAddress(name, null) }, curatorNode(name));
}

class CuratorList extends Walk {
  constructor(store, box, choose) {
    super(store, box, choose);
    this.works = worksOf(store);
    this.filter('');
  }

  idOf(at) {
    return `curator-${at}`;
  }

  filter(text) {
    const wanted = folded(text);
    this.setRows(this.works.map((it) => it.at).filter((at) => folded(curatorText(this.works[at].name)).includes(wanted)), 0);
    return this.rows.length;
  }

  row(at) {
    const work = this.works[this.rows[at]];
    const kinds = ['row', 'curator-row', at === this.active && 'active', work.at === this.chosen && 'chosen'];
    return element('div', {
      class: kinds.filter(Boolean).join(' '), id: this.idOf(work.at), role: 'option', 'data-at': at,
      'aria-selected': String(work.at === this.chosen), 'aria-setsize': this.rows.length, 'aria-posinset': at + 1,
    }, element('span', { class: `dot ${colour(work.at + 1)}` }), element('span', { class: 'text' }, curatorNode(work.name)), element('span', { class: 'rest' }, count(work.commits.length, 'commit')));
  }
}

// All of them

function curatorsView(store) {
  const works = worksOf(store);
  if (works.length === 0) return [element('h2', {}, 'Curators'), element('p', { class: 'summary' }, 'Nothing has been committed yet.')];
  return [element('h2', {}, 'Curators'), element('p', { class: 'summary' }, `${count(works.length, 'curator')} of ${count(store.commits.first.length, 'commit')}. The bar tells whose step brought what stands in T now.`),
    standingBar(store, works), section('Over time', lanes(store, works)), section('Side by side', worksTable(store, works))];
}

// How much of T was brought by a step of whom.
function standingBar(store, works) {
  const total = store.roots[0].rows;
  const parts = works.map((it) => ({ kind: colour(it.at + 1), name: curatorText(it.name), size: it.standing }));
  parts.push({ kind: 'start', name: 'from the start', size: total - works.reduce((sum, it) => sum + it.standing, 0) });
  const shown = parts.filter((it) => it.size > 0).sort((one, other) => other.size - one.size);
  const bar = element('div', { class: 'origins', 'aria-hidden': 'true' }, shown.map((it) => {
    const made = element('span', { class: `fill ${it.kind}`, title: it.name });
    made.style.flexGrow = it.size;
    return made;
  }));
  return [bar, element('ul', { class: 'legend' }, shown.map((it) => element('li', {}, element('span', { class: `dot ${it.kind}` }), `${NUMBERS.format(it.size)} ${it.name} (${share(it.size, total)})`)))];
}

function worksTable(store, works) {
  const rows = [...works].sort((one, other) => other.commits.length - one.commits.length).map((it) => {
    const [first, last] = [it.commits[0], it.commits[it.commits.length - 1]].map((at) => momentNode(store.commits.moments[at]));
    const figures = [it.commits.length, it.steps, it.records.size, it.standing].map((number) => element('td', { class: 'figure' }, NUMBERS.format(number)));
    return element('tr', {}, element('td', {}, curatorLink(it.name)), figures, element('td', {}, formsNode(it)), element('td', {}, first), element('td', {}, last));
  });
  return tableOf(['Curator', 'Commits', 'Steps', 'Places touched', 'Stand in T', 'Records', 'First commit', 'Last commit'], element('tbody', {}, rows));
}

// How many records of each form.
function formsNode({ counts }) {
  return element('span', { class: 'counts' }, Object.keys(counts).filter((it) => counts[it] > 0)
    .map((it) => element('span', { class: `record-${it}`, title: `${count(counts[it], 'record')}: ${WORDS[it]}` }, element('span', { class: 'sign' }, SIGNS[it]), NUMBERS.format(counts[it]))));
}

// The commits of each over the time, a lane for each, in bars of equal spans.
function lanes(store, works) {
  const moments = (work) => work.commits.map((at) => Number(store.commits.moments[at])).filter((it) => it > 0 && it < 253402300800);
  const all = works.flatMap(moments);
  if (all.length === 0) return element('p', { class: 'none' }, 'The times of the commits aren\u2019t kept.');
  const [start, end] = [Math.min, Math.max].map((least) => all.reduce((one, other) => least(one, other)));
  const bars = works.map((work) => {
    const found = new Array(60).fill(0);
    moments(work).forEach((it) => { found[Math.min(59, Math.floor(((it - start) / Math.max(1, end - start)) * 60))] += 1; });
    return found;
  });
  const most = Math.max(...bars.flat());
  return element('figure', { class: 'lanes' }, works.map((work, at) => element('div', { class: `lane ${colour(work.at + 1)}` }, element('span', { class: 'text' }, curatorLink(work.name)), lane(work, bars[at], most))),
    element('figcaption', {}, [start, end].map((it) => element('span', {}, momentText(String(it)).slice(0, 10)))));
}

function lane(work, bars, most) {
  const shapes = bars.map((it, at) => it > 0 && drawn('rect', { x: at * 10 + 1, y: 38 - (36 * it) / most, width: 8, height: (36 * it) / most, rx: 2 }, drawn('title', {}, count(it, 'commit'))));
  return drawn('svg', { viewBox: '0 0 600 40', preserveAspectRatio: 'none', role: 'img', 'aria-label': `${count(work.commits.length, 'commit')} of ${curatorText(work.name)}` }, drawn('path', { class: 'axis', d: 'M0 39H600' }), shapes);
}

// One of them, and perhaps another one beside

function curatorView(store, name, beside, turn) {
  const works = worksOf(store);
  const [one, other] = [name, beside].map((it) => works.find((work) => work.name === it));
  if (!one || (beside !== null && !other)) return [element('h2', {}, 'No such curator'), element('p', { class: 'summary' }, 'No commit has a curator of this name.')];
  const head = [element('nav', { class: 'crumbs', 'aria-label': 'All curators' }, element('a', { href: '#@curators' }, 'Curators'), copyButton()),
    element('h2', {}, curatorText(name)), besideNode(works, one, beside, turn)];
  if (!other) return [...head, ...workParts(store, one)];
  return [...head, section('Over time', lanes(store, [one, other])), meetingsSection(store, one, other),
    element('div', { class: 'pair' }, [one, other].map((it) => element('section', { class: 'part' }, element('h3', {}, curatorLink(it.name)), workParts(store, it))))];
}

function besideNode(works, one, beside, turn) {
  const others = works.filter((it) => it !== one);
  if (others.length === 0) return null;
  const choice = element('select', { onchange: () => turn(choice.value === '' ? null : others[Number(choice.value)].name) }, element('option', { value: '' }, 'nobody'),
    others.map((it, at) => element('option', { value: at, selected: it.name === beside }, curatorText(it.name))));
  return element('p', { class: 'beside-whom' }, element('label', {}, 'Beside ', choice));
}

function workParts(store, work) {
  const total = store.roots[0].rows;
  const records = [...work.records.values()].sort((one, other) => one.place - other.place);
  const commits = [...work.commits].reverse().map((at) => store.commit(at));
  return [element('p', { class: 'summary' }, `${count(work.commits.length, 'commit')} of ${count(work.steps, 'step')}. What they brought stands at ${count(work.standing, 'place')} of T now (${share(work.standing, total)}). `, formsNode(work)),
    section(`Places touched (${NUMBERS.format(records.length)})`, someRows(element('ol', { class: 'steps' }), records, (it) => element('li', {}, element('div', { class: 'who' }, stepLink(it.tid)), element('div', {}, recordNode(store, it))))),
    section(`Commits (${NUMBERS.format(commits.length)})`, someRows(element('ol', { class: 'steps' }), commits, (it) => commitRow(it)))];
}

function commitRow(commit) {
  return element('li', {}, element('div', { class: 'who' }, momentNode(commit.moment)), element('div', {}, element('a', { href: `#@step/${commit.first}` }, commitText(commit)), element('span', { class: 'rest' }, `, ${count(commit.operations, 'operation')}`)));
}

function meetingsSection(store, one, other) {
  const found = meetings(store, one, other);
  const title = `Where the two met (${NUMBERS.format(found.length)})`;
  if (found.length === 0) return section(title, element('p', { class: 'none' }, 'Nowhere: neither has touched what the other has.'));
  const body = element('tbody');
  const cell = (place, record) => element('td', {}, stepLink(record.tid), ` ${WORDS[record.op]}`, record.place !== place && [' ', placeLink(store.path(record.place))]);
  const [, button] = someRows(body, found, (it) => element('tr', {}, element('td', {}, placeLink(store.path(it.place))), cell(it.place, it.one), cell(it.place, it.other)));
  return section(title, element('p', { class: 'note' }, 'Places that both have touched, by a record there or above, with the newest of each. The last is first.'),
    tableOf(['Place', curatorText(one.name), curatorText(other.name)], body), button);
}
