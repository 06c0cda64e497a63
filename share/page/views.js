'use strict';
// What the right side shows: a place, an address at which nothing stands, a commit, a source, and the two surveys.

const ROWS_SHOWN = 100;

function section(title, ...content) {
  return element('section', { class: 'part' }, element('h3', {}, title), content);
}

// Rows of a list or table, the first of them at once and the rest as one asks for them.
function someRows(box, rows, render) {
  let next = 0;
  const button = element('button', { type: 'button', class: 'more', onclick: () => add() });
  const add = () => {
    box.append(...rows.slice(next, next + ROWS_SHOWN).map(render));
    next += ROWS_SHOWN;
    button.textContent = `Show more (${NUMBERS.format(Math.max(0, rows.length - next))} left)`;
    button.hidden = next >= rows.length;
  };
  add();
  return [box, button];
}

// Who made a step, and when.
function stamp(store, tid) {
  const at = store.commitOf(tid);
  if (at < 0) return element('span', { class: 'stamp' }, 'in no commit');
  const commit = store.commit(at);
  return element('span', { class: 'stamp' }, curatorNode(commit.curator), ', ', momentNode(commit.moment));
}

function stepLink(tid) {
  return element('a', { class: 'step-link', href: `#@step/${tid}` }, `step ${tid}`);
}

function commitText({ first, last }) {
  return first === last ? `Commit ${first}` : `Commit ${first}..${last}`;
}

// Records

const WORDS = { I: 'inserted', C: 'copied', D: 'deleted', K: 'kept' };
const SIGNS = { I: '+', C: '\u2192', D: '\u2212', K: '=' };

function recordNode(store, { op, place, source, below }) {
  const isReduced = store.stats.kind.includes('h');
  const rest = below > 0 ? `, with ${count(below, 'place')} below` : isReduced && op !== 'K' && mayHaveBelow(store, place) ? ', with what was below' : '';
  const target = placeLink(store.path(place));
  const words = op === 'C' ? [placeLink(store.path(source)), ' to ', target] : [target];
  return element('span', { class: `record record-${op}` }, element('span', { class: 'sign', 'aria-hidden': 'true' }, SIGNS[op]),
    element('span', {}, `${WORDS[op]} `, words, element('span', { class: 'rest' }, rest)));
}

// Whether something may have stood below a place: not where a value stands there now.
function mayHaveBelow(store, place) {
  return place >= store.count || store.isNode(place);
}

// A place

function placeView(store, place) {
  const path = store.path(place);
  const head = [crumbs(path), placeHeading(store, place)];
  return store.isInT(place) ? [...head, ...curatedParts(store, place, path)] : [...head, ...sourceParts(store, place)];
}

function crumbs(path) {
  const links = path.slice(0, -1).map((label, at) => [element('a', { href: addressOf(path.slice(0, at + 1)) }, labelNode(label)), element('span', { class: 'slash' }, '/')]);
  return element('nav', { class: 'crumbs', 'aria-label': 'The places above' }, links, element('span', { 'aria-current': 'page' }, labelNode(path[path.length - 1])), copyButton());
}

function copyButton() {
  const button = element('button', { type: 'button', class: 'copy', title: 'Copies the address of this place' }, 'Copy link');
  button.onclick = async () => {
    try {
      await navigator.clipboard.writeText(location.href);
      button.textContent = 'Copied';
    } catch (error) {
      button.replaceWith(element('input', { class: 'address', readonly: true, value: location.href, 'aria-label': 'The address of this place' }));
    }
  };
  return button;
}

function placeHeading(store, place) {
  const label = store.label(place);
  const below = store.sizes[place] - 1;
  const what = store.isNode(place) ? element('p', { class: 'kind' }, below === 0 ? 'An empty node' : `A node with ${count(store.childCount[place], 'child', 'children')}${below > store.childCount[place] ? `, ${count(below, 'place')} below it` : ''}`) : valueNode(store, place);
  return [element('h2', {}, labelNode(label)), what];
}

function valueNode(store, place) {
  const names = { s: 'text', i: 'number', 0: 'nothing', t: 'truth value', f: 'truth value' };
  const kind = store.kinds[place];
  const text = kind === 's' ? seen(store.values[place], true) : store.valueText(place);
  return element('div', { class: `content content-${kind}` }, element('pre', { dir: 'auto', tabindex: text.length > 2000 ? 0 : null }, text === '' ? element('span', { class: 'void' }, 'an empty text') : text),
    element('span', { class: 'content-kind' }, names[kind]));
}

function curatedParts(store, place, path) {
  const trace = store.trace(place);
  return [
    element('p', { class: 'summary' }, summary(store, trace)),
    section('Its past', pictureNode(store, trace)),
    partsOfSteps(store, place, trace),
    usersSection(store, path),
    store.childCount[place] > 0 && childrenTable(store, place),
    recordsSection(store, path, 'What was done at this address'),
    answersNode(store, place),
  ];
}

// The places of T whose data came by a place, but for that place itself.
function usersSection(store, path) {
  const { place, isThere } = store.walk(path);
  const users = store.uses(path).filter((it) => !(isThere && it === place));
  const title = 'Who took data from here';
  if (users.length === 0) return section(title, element('p', { class: 'none users' }, 'Nobody.'));
  return section(`${title} (${NUMBERS.format(users.length)})`, someRows(element('ul', { class: 'users' }), users, (it) => element('li', {}, placeLink(store.path(it)))));
}

// How the data came here, in a sentence or two.
function summary(store, { segments, end }) {
  const [here, before] = segments;
  const first = segments[segments.length - 1];
  const copied = (from) => ['Copied here from ', placeLink(from), ' in ', stepLink(here.low), ' by ', stamp(store, here.low), '. '];
  if (before) {
    const begun = { new: ['It was inserted at ', placeLink(first.path), ' in ', stepLink(first.low), ' by ', stamp(store, first.low), '.'], start: ['It was there from the start, at ', placeLink(first.path), '.'] };
    return [copied(before.path), Array.isArray(end) ? ['It comes from the source ', placeLink(end), ', taken in ', stepLink(first.low), ' by ', stamp(store, first.low), '.'] : begun[end]];
  }
  if (Array.isArray(end)) return copied(end);
  return end === 'start' ? 'It has stood here from the start.' : ['Inserted here in ', stepLink(here.low), ' by ', stamp(store, here.low), '.'];
}

// The picture, drawn anew where the room for it changes.
function pictureNode(store, trace) {
  const box = element('figure', { class: 'picture' });
  let isWhole = false;
  let width = 0;
  const draw = (room) => {
    if (room <= 0) return;
    width = room;
    const isLong = !isWhole && trace.segments.length >= MOST_BOXES;
    const button = isLong && element('button', { type: 'button', class: 'more', onclick: () => { isWhole = true; draw(width); } }, `Draw all ${NUMBERS.format(trace.segments.length)} places`);
    box.replaceChildren(pastPicture(store, trace, room, isWhole), button || '');
  };
  box.redraw = draw;
  new ResizeObserver(([{ contentRect }]) => { if (contentRect.width > 0 && Math.abs(contentRect.width - width) > 1 && !box.closest('.printing')) draw(contentRect.width); }).observe(box);
  return box;
}

function partsOfSteps(store, place, trace) {
  const own = new Set(store.ownSteps(place));
  const steps = store.mod(place).reverse();
  const title = `Steps that had a part${steps.length > 0 ? ` (${NUMBERS.format(steps.length)})` : ''}`;
  if (steps.length === 0) return section(title, element('p', { class: 'none' }, 'None: what stands here was there from the start.'));
  const rows = someRows(element('ol', { class: 'steps' }), steps, (tid) => stepRow(store, tid, own.has(tid)));
  return section(title, rows);
}

function stepRow(store, tid, isOwn) {
  const records = store.records(tid, tid);
  const shown = records.slice(0, 3).map((it) => element('div', {}, recordNode(store, it)));
  const left = records.length - shown.length;
  return element('li', { class: isOwn ? 'own' : 'inner' }, element('div', { class: 'who' }, stepLink(tid), stamp(store, tid), !isOwn && element('span', { class: 'note' }, 'below it')),
    shown, left > 0 && element('a', { class: 'rest', href: `#@step/${tid}` }, `and ${count(left, 'record')} more`));
}

// The places right below one, with where they came from, or in a source whether they were taken.
function childrenTable(store, place) {
  const isInT = store.isInT(place);
  const head = isInT ? ['What', 'Content', 'From', 'Came here'] : ['What', 'Content', 'Taken'];
  const body = element('tbody');
  const [, button] = someRows(body, store.children(place), (child) => childRow(store, child, isInT ? arrivalCells(store, child) : [takenMark(store, child)]));
  return section(`Below it (${NUMBERS.format(store.childCount[place])})`, tableOf(head, body), button);
}

function tableOf(head, body) {
  return element('div', { class: 'wide' }, element('table', {}, element('thead', {}, element('tr', {}, head.map((it) => element('th', { scope: 'col' }, it)))), body));
}

function childRow(store, child, cells) {
  const below = store.sizes[child] - 1;
  const content = store.isNode(child) ? element('span', { class: 'kind' }, below === 0 ? 'empty node' : count(below, 'place'))
    : element('bdi', { class: 'value' }, store.kinds[child] === 's' ? seen(store.values[child].slice(0, 120)) : store.valueText(child));
  const link = element('a', { href: addressOf(store.path(child)) }, labelNode(store.label(child)));
  return element('tr', {}, [link, content, ...cells].map((it) => element('td', {}, it)));
}

function arrivalCells(store, child) {
  const tid = store.arrivals[child];
  return [originMark(store, child), tid === 0 ? 'from the start' : [stepLink(tid), ' ', stamp(store, tid)]];
}

function recordsSection(store, path, title) {
  const records = store.recordsAt(path).reverse();
  if (records.length === 0) return null;
  const note = element('p', { class: 'note' }, 'Each record of this address and of those above it, of data too that stands here no more. The newest is first.');
  return section(`${title} (${NUMBERS.format(records.length)})`, note, someRows(element('ol', { class: 'steps' }), records, (it) => recordRow(store, it)));
}

function recordRow(store, record) {
  return element('li', {}, element('div', { class: 'who' }, stepLink(record.tid), stamp(store, record.tid)), element('div', {}, recordNode(store, record)));
}

function answersNode(store, place) {
  const box = element('details', { class: 'answers' }, element('summary', {}, 'The program\u2019s answers'));
  box.ontoggle = () => {
    if (!box.open || box.children.length > 1) return;
    box.append(element('pre', { tabindex: 0 }, store.answers(place).map((it) => seen(it)).join('\n')),
      element('p', { class: 'note' }, 'As cpdb writes them. The page keeps trace and mod without what the answers for the place above or below imply, and derives src, hist and from from the trace, and uses from all traces. When it was made, the program was asked the first five of every place, and answered just this.'));
  };
  return box;
}

// An address at which nothing stands

function missingView(store, path) {
  const { place } = store.walk(path);
  const nearest = place < 0 ? null : store.path(place);
  return [crumbs(path), element('h2', {}, labelNode(path[path.length - 1])),
    element('p', { class: 'summary' }, path[0] === 'T' ? 'Nothing stands at this address now. ' : place < 0 ? 'There is no source with this name. ' : 'The page has no such place of this source. ',
      nearest && ['What stands nearest above it is ', placeLink(nearest), '.']),
    place >= 0 && usersSection(store, path),
    path[0] === 'T' && recordsSection(store, path, 'What was done at this address')];
}

// A source

function sourceParts(store, place) {
  const root = store.roots[store.rootOf(place)];
  const taken = store.taken()[store.rootOf(place)];
  const isRoot = place === root.first;
  const copies = store.copiesFrom(place);
  const facts = isRoot && element('p', { class: 'summary' }, `A source of ${count(root.places, 'place')}, loaded ${root.after === 0 ? 'before the first commit' : `after ${count(root.after, 'commit')}`}. `,
    `${NUMBERS.format(taken.places)} of them (${share(taken.places, root.places)}) stand in T now, at ${count(taken.targets, 'place')}.`,
    !root.whole && ' It is too big for this page, which has only those of its places that were taken.');
  const title = isRoot ? 'What was taken' : 'Where it went';
  const list = copies.length === 0 ? element('p', { class: 'none' }, 'Nothing of it stands in T now.') : someRows(element('ol', { class: 'steps' }), copies, (it) => copyRow(store, it));
  return [facts, isRoot && meter(taken.places, root.places, store.rootOf(place)), section(copies.length > 0 ? `${title} (${NUMBERS.format(copies.length)})` : title, list), usersSection(store, store.path(place)),
    store.childCount[place] > 0 && childrenTable(store, place)];
}

function copyRow(store, { place, end, places }) {
  const tid = store.stepsOf(place).pop();
  return element('li', {}, element('div', { class: 'who' }, stepLink(tid), stamp(store, tid)),
    element('div', { class: 'record record-C' }, element('span', { class: 'sign', 'aria-hidden': 'true' }, SIGNS.C),
      element('span', {}, placeLink(store.path(end)), ' stands now at ', placeLink(store.path(place)), element('span', { class: 'rest' }, places > 1 ? `, with ${count(places - 1, 'place')} below` : ''))));
}

function meter(part, whole, root) {
  const bar = element('span', { class: `fill ${colour(root)}` });
  bar.style.inlineSize = `${whole === 0 ? 0 : (100 * part) / whole}%`;
  return element('span', { class: 'meter', role: 'img', 'aria-label': `${share(part, whole)} taken` }, bar);
}

function sourcesView(store) {
  const taken = store.taken();
  const total = store.roots[0].places;
  const rows = store.roots.slice(1).map((root, at) => element('tr', {}, element('td', {}, element('a', { href: `#@source/${root.name}` }, root.name)),
    element('td', { class: 'figure' }, NUMBERS.format(root.places)), element('td', { class: 'figure' }, NUMBERS.format(taken[at + 1].places)), element('td', {}, meter(taken[at + 1].places, root.places, at + 1), ' ', share(taken[at + 1].places, root.places)),
    element('td', { class: 'figure' }, NUMBERS.format(taken[at + 1].targets))));
  const head = ['Source', 'Its places', 'Taken', 'Share', 'Places of T'];
  return [element('h2', {}, 'Sources'), element('p', { class: 'summary' }, `Where the ${count(total, 'place')} of T come from. Taken is what stands in T now.`),
    originsBar(store), rows.length > 0 && tableOf(head, element('tbody', {}, rows))];
}

// How much of T comes from where, as one bar.
function originsBar(store) {
  const counts = new Map();
  store.origins.forEach((it) => counts.set(it, (counts.get(it) || 0) + 1));
  const entries = [...counts].sort((one, other) => other[1] - one[1]);
  const kind = (it) => (it === NEW ? 'new' : it === START ? 'start' : colour(it));
  const name = (it) => (it === NEW ? 'inserted by hand' : it === START ? 'from the start' : `from ${store.roots[it].name}`);
  const bar = element('div', { class: 'origins', 'aria-hidden': 'true' }, entries.map(([origin, number]) => {
    const made = element('span', { class: `fill ${kind(origin)}`, title: name(origin) });
    made.style.flexGrow = number;
    return made;
  }));
  const legend = entries.map(([origin, number]) => element('li', {}, element('span', { class: `dot ${kind(origin)}` }), `${NUMBERS.format(number)} ${name(origin)} (${share(number, store.origins.length)})`));
  return [bar, element('ul', { class: 'legend' }, legend)];
}

// Commits

function commitView(store, at, tid) {
  const commit = store.commit(at);
  const records = store.records(commit.first, commit.last);
  const steps = [];
  for (let step = commit.first; step <= commit.last; step += 1) steps.push(step);
  const list = someRows(element('ol', { class: 'steps' }), steps, (step) => commitStep(store, step, records.filter((it) => it.tid === step), step === tid));
  const beside = (to, text) => to >= 0 && to < store.commits.first.length && element('a', { href: `#@step/${store.commits.first[to]}` }, text);
  return [element('nav', { class: 'crumbs', 'aria-label': 'Commits beside this one' }, element('a', { href: '#@commits' }, 'Commits'), beside(at - 1, 'the one before'), beside(at + 1, 'the one after'), copyButton()),
    element('h2', {}, commitText(commit)), element('p', { class: 'summary' }, curatorNode(commit.curator), ', ', momentNode(commit.moment), `, ${count(commit.operations, 'operation')}`),
    section(steps.length === 1 ? 'What it changed' : `What its ${NUMBERS.format(steps.length)} steps changed`, list)];
}

function commitStep(store, step, records, isWanted) {
  const box = element('div');
  const content = records.length === 0 ? element('p', { class: 'none' }, 'nothing, as a copy of a place onto itself does') : someRows(box, records, (it) => element('div', {}, recordNode(store, it)));
  const after = store.versions.has(step) && element('a', { href: `#@version/${step}` }, 'the tree after it');
  return element('li', { class: isWanted ? 'own wanted' : '' }, element('div', { class: 'who' }, stepLink(step), after), content);
}

function commitsView(store) {
  const total = store.commits.first.length;
  if (total === 0) return [element('h2', {}, 'Commits'), element('p', { class: 'summary' }, 'Nothing has been committed yet.')];
  return [element('h2', {}, 'Commits'), element('p', { class: 'summary' }, `${count(total, 'commit')} of ${count(store.tid, 'step')} by ${count(store.commits.names.length, 'curator')}.`), timeline(store), curatorsTable(store)];
}

function curatorsTable(store) {
  const { names, curators, first, last, moments } = store.commits;
  const sums = names.map((name) => ({ name, commits: 0, steps: 0 }));
  curators.forEach((curator, at) => {
    sums[curator].commits += 1;
    sums[curator].steps += last[at] - first[at] + 1;
    sums[curator].newest = moments[at];
  });
  const rows = sums.sort((one, other) => other.commits - one.commits).map((it) => element('tr', {}, element('td', {}, curatorLink(it.name)), element('td', { class: 'figure' }, NUMBERS.format(it.commits)),
    element('td', { class: 'figure' }, NUMBERS.format(it.steps)), element('td', {}, momentNode(it.newest))));
  return section('Who', tableOf(['Curator', 'Commits', 'Steps', 'Last commit'], element('tbody', {}, rows)));
}

// The commits over the time, in bars of equal spans.
function timeline(store) {
  const moments = store.commits.moments.map(Number).filter((it) => it > 0 && it < 253402300800);
  if (moments.length < 2) return null;
  const start = moments.reduce((one, other) => Math.min(one, other));
  const end = moments.reduce((one, other) => Math.max(one, other));
  const bars = new Array(Math.min(60, Math.max(1, end - start))).fill(0);
  moments.forEach((it) => { bars[Math.min(bars.length - 1, Math.floor(((it - start) / Math.max(1, end - start)) * bars.length))] += 1; });
  const most = Math.max(...bars);
  const shapes = bars.map((it, at) => it > 0 && drawn('rect', { x: at * 10 + 1, y: 90 - (84 * it) / most, width: 8, height: (84 * it) / most, rx: 2 }, drawn('title', {}, count(it, 'commit'))));
  const dates = [start, end].map((it) => momentText(String(it)).slice(0, 10));
  return element('figure', { class: 'timeline' }, drawn('svg', { viewBox: `0 0 ${bars.length * 10} 92`, preserveAspectRatio: 'none', role: 'img', 'aria-label': `Commits from ${dates[0]} to ${dates[1]}` }, drawn('path', { class: 'axis', d: `M0 91H${bars.length * 10}` }), shapes),
    element('figcaption', {}, element('span', {}, dates[0]), element('span', {}, dates[1])));
}
