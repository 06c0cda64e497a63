'use strict';
// The past of a place as a picture: the places where its data stood, newest first, from left to right and on in the next
// line where there is no more room; an arrow for each copy; the source, the insertion or the start at the end.

const BOX = { width: 172, height: 92, across: 78, down: 58 };
const MOST_BOXES = 60;

// What is drawn: `here`, `place`, `gap` or an end; each but the first with the step through which its data went on.
function pastItems({ segments, end }, isWhole) {
  const items = segments.map((it, at) => ({ kind: at === 0 ? 'here' : 'place', ...it }));
  const last = segments[segments.length - 1].low;
  items.push(Array.isArray(end) ? { kind: 'source', path: end } : { kind: end, low: last });
  items.forEach((it, at) => { if (at > 0) it.step = items[at - 1].low; });
  if (isWhole || items.length <= MOST_BOXES) return items;
  const left = items.length - MOST_BOXES + 1;
  const kept = MOST_BOXES - 20;
  return [...items.slice(0, kept), { kind: 'gap', left, step: items[kept].step }, ...items.slice(kept + left)];
}

// Where each item stands in a width.
function pastLayout(items, width) {
  const columns = Math.max(1, Math.min(items.length, Math.floor((width - 4 + BOX.across) / (BOX.width + BOX.across))));
  const boxWidth = columns === 1 ? Math.max(120, Math.min(width - 4, 300)) : BOX.width;
  items.forEach((it, at) => {
    it.column = at % columns;
    it.x = 2 + it.column * (boxWidth + BOX.across);
    it.y = 2 + Math.floor(at / columns) * (BOX.height + BOX.down);
    it.width = boxWidth;
  });
  const lines = Math.ceil(items.length / columns);
  return { columns, width: 4 + columns * boxWidth + (columns - 1) * BOX.across, height: 4 + lines * BOX.height + (lines - 1) * BOX.down };
}

function pastPicture(store, trace, width, isWhole) {
  const items = pastItems(trace, isWhole);
  const size = pastLayout(items, width);
  const parts = items.map((it) => (it.kind === 'gap' ? pastGap(it) : it.path ? pastPlace(store, it) : pastEnd(it)));
  const arrows = items.slice(1).map((it, at) => pastArrow(store, items[at], it, size.columns));
  return drawn('svg', {
    class: 'past', viewBox: `0 0 ${size.width} ${size.height}`, width: size.width, height: size.height, role: 'group',
    'aria-label': pastWords(trace),
  }, pastHead(), arrows, parts);
}

function pastHead() {
  const head = { id: 'arrow', viewBox: '0 0 10 10', refX: 9, refY: 5, markerWidth: 8, markerHeight: 8, orient: 'auto-start-reverse' };
  return drawn('defs', {}, drawn('marker', head, drawn('path', { class: 'head', d: 'M0 0 10 5 0 10z' })));
}

// The trace in words, for those who hear it.
function pastWords({ segments, end }) {
  const stood = segments.map((it) => `${seen(spelledPlace(it.path))} in ${versionsText(it)}`);
  const ends = { new: 'where it was inserted', start: 'where it was from the start' };
  return `Its data stood, newest first, at ${stood.join(', before that at ')}, ${Array.isArray(end) ? `copied from the source ${seen(spelledPlace(end))}` : ends[end]}.`;
}

function versionsText({ low, high }) {
  return low === high ? `version ${low}` : `versions ${low}\u2013${high}`;
}

function pastPlace(store, it) {
  const isSource = it.kind === 'source';
  const root = isSource ? store.rootNames.get(it.path[0]) : 0;
  const caption = { here: 'stands here now', place: 'stood here', source: 'in the source' }[it.kind];
  const kind = `box ${it.kind} ${isSource ? colour(root) : ''}`;
  const low = isSource ? 13 : 0;
  return drawn('a', { href: addressOf(it.path), class: kind },
    drawn('title', {}, seen(spelledPlace(it.path))),
    isSource ? sourceShape(it) : drawn('rect', { x: it.x, y: it.y, width: it.width, height: BOX.height, rx: 10 }),
    line(it, 20 + low, 'caption', caption),
    it.path.length > 1 && line(it, 38 + low, 'way', fitted(it.path.slice(0, -1), it.width - 24)),
    line(it, it.path.length > 1 ? 56 + low : 47 + low, 'name', fittedEnd(labelText(it.path[it.path.length - 1]), it.width - 24)),
    !isSource && [line(it, 74, 'versions', versionsText(it)), versionsBar(store, it)]);
}

function line(it, y, kind, text) {
  return drawn('text', { class: kind, x: it.x + 12, y: it.y + y }, text);
}

// A drum, as data bases are drawn.
function sourceShape({ x, y, width }) {
  const bottom = y + BOX.height;
  const right = x + width;
  return [drawn('path', { class: 'shape', d: `M${x} ${y + 7}V${bottom - 7}C${x} ${bottom + 3} ${right} ${bottom + 3} ${right} ${bottom - 7}V${y + 7}` }),
    drawn('ellipse', { class: 'lid', cx: x + width / 2, cy: y + 7, rx: width / 2, ry: 6 })];
}

// Which of all versions it was.
function versionsBar(store, it) {
  const full = it.width - 24;
  const start = (full * it.low) / (store.tid + 1);
  const size = Math.max(3, (full * (it.high - it.low + 1)) / (store.tid + 1));
  return [drawn('rect', { class: 'track', x: it.x + 12, y: it.y + 80, width: full, height: 4, rx: 2 }),
    drawn('rect', { class: 'span', x: it.x + 12 + Math.min(start, full - size), y: it.y + 80, width: size, height: 4, rx: 2 })];
}

function pastGap(it) {
  return drawn('g', { class: 'box gap' }, drawn('rect', { x: it.x, y: it.y, width: it.width, height: BOX.height, rx: 10 }),
    line(it, 50, 'name', `${NUMBERS.format(it.left)} more`));
}

function pastEnd(it) {
  const words = { new: ['inserted', `new in step ${it.step}`], start: ['the start', 'from version 0'] }[it.kind];
  const sign = it.kind === 'new' ? 'M-7 0H7M0-7V7' : 'M-5-8V8M-5-7H7L3-3 7 1H-5';
  const content = [drawn('rect', { x: it.x, y: it.y, width: it.width, height: BOX.height, rx: BOX.height / 2 }),
    drawn('circle', { cx: it.x + 36, cy: it.y + 46, r: 17 }), drawn('path', { class: 'sign', d: sign, transform: `translate(${it.x + 36} ${it.y + 46})` }),
    drawn('text', { class: 'name', x: it.x + 62, y: it.y + 43 }, words[0]), drawn('text', { class: 'versions', x: it.x + 62, y: it.y + 61 }, words[1])];
  return it.kind === 'new' ? drawn('a', { href: `#@step/${it.step}`, class: 'box end' }, content) : drawn('g', { class: 'box end' }, content);
}

// An arrow from where the data stood to where it was copied to, with the step.
function pastArrow(store, newer, older, columns) {
  const way = arrowWay(newer, older, columns);
  const path = drawn('path', { class: `arrow ${older.kind}`, d: way.d, 'marker-end': 'url(#arrow)' });
  if (older.kind === 'new' || older.kind === 'start') return path;
  const commit = store.commitOf(older.step);
  const who = commit < 0 ? '' : store.commit(commit);
  const title = who ? `Step ${older.step} copied it: ${curatorText(who.curator)}, ${momentText(who.moment)}` : `Step ${older.step} copied it`;
  const text = (y, kind, words) => drawn('text', { class: kind, x: way.x, y: way.y + y, 'text-anchor': way.anchor }, words);
  return drawn('a', { href: `#@step/${older.step}`, class: 'step' }, drawn('title', {}, title), path,
    drawn('path', { class: 'touch', d: way.d }), text(-8, 'verb', 'copied'), text(way.second, 'number', `step ${older.step}`));
}

function arrowWay(newer, older, columns) {
  const middle = BOX.height / 2;
  if (older.column > newer.column) {
    const x = (newer.x + newer.width + older.x) / 2;
    return { d: `M${older.x - 4} ${older.y + middle}H${newer.x + newer.width + 5}`, x, y: older.y + middle, anchor: 'middle', second: 17 };
  }
  if (columns === 1) {
    const x = newer.x + newer.width / 2;
    return { d: `M${x} ${older.y - 4}V${newer.y + BOX.height + 5}`, x: x + 12, y: older.y - BOX.down / 2 + 4, anchor: 'start', second: 8 };
  }
  const from = older.x + older.width / 2;
  const to = newer.x + newer.width / 2;
  const turn = older.y - BOX.down / 2;
  return { d: `M${from} ${older.y - 4}V${turn + 8}q0-8 8-8H${to - 8}q8 0 8-8V${newer.y + BOX.height + 5}`, x: (from + to) / 2, y: turn, anchor: 'middle', second: 17 };
}

// Texts within a width

const MEASURE = document.createElement('canvas').getContext('2d');

function widthOf(text, font) {
  MEASURE.font = font;
  return MEASURE.measureText(text).width;
}

// The labels of a way, without the first ones where there is no room for them.
function fitted(labels, width) {
  const texts = labels.map(labelText);
  for (let first = 0; first < texts.length; first += 1) {
    const text = `${first > 0 ? '\u2026/' : ''}${texts.slice(first).map(isolated).join('/')}/`;
    if (widthOf(text, '12px system-ui') <= width) return text;
  }
  return labels.length > 0 ? '\u2026/' : '';
}

// A text without its end, where there is no room for that.
function fittedEnd(text, width) {
  const letters = Array.from(text);
  let size = letters.length;
  while (size > 1 && widthOf(letters.slice(0, size).join(''), '600 14px system-ui') > width - (size < letters.length ? 12 : 0)) size -= size > 60 ? 20 : 1;
  return isolated(size < letters.length ? `${letters.slice(0, size).join('')}\u2026` : text);
}
