'use strict';
// Texts: what is written how. A label or a value can have any characters; here they become nodes of text alone, never markup.

const SVG = 'http://www.w3.org/2000/svg';

// An element with attributes (those that begin with `on` are listeners) and children; null and false are left out.
function element(name, attributes, ...children) {
  return filled(document.createElement(name), attributes, children);
}

function drawn(name, attributes, ...children) {
  return filled(document.createElementNS(SVG, name), attributes, children);
}

function filled(made, attributes, children) {
  for (const [key, value] of Object.entries(attributes || {})) {
    if (key.startsWith('on')) made.addEventListener(key.slice(2), value);
    else if (value === true) made.setAttribute(key, '');
    else if (value !== false && value !== null && value !== undefined) made.setAttribute(key, value);
  }
  made.append(...children.flat(Infinity).filter((it) => it !== null && it !== false && it !== undefined));
  return made;
}

// Characters that would be unseen, or would turn the writing round, as signs that are seen. Line feeds and tabs too,
// where they are not kept.
const UNSEEN = /[\u0000-\u001f\u007f-\u009f\u00ad\u061c\u200b\u200e\u200f\u2028-\u202e\u2060-\u206f\ufeff\ufff9-\ufffb]/g;

function seen(text, keepsLines) {
  return text.replace(UNSEEN, (it) => {
    if (keepsLines && (it === '\n' || it === '\t')) return it;
    const code = it.charCodeAt(0);
    if (code < 0x20) return String.fromCharCode(0x2400 + code);
    return code === 0x7f ? '\u2421' : `\u27e8U+${code.toString(16).toUpperCase().padStart(4, '0')}\u27e9`;
  });
}

// A label by itself; the empty one, and blanks at its ends, are made to be seen by quotation marks.
function labelText(label) {
  const text = seen(label);
  return text === '' || text !== text.trim() ? `\u201c${text}\u201d` : text;
}

function labelNode(label, kind) {
  return element('bdi', { class: kind || 'label' }, labelText(label));
}

// In a picture, where no element keeps the direction of a text to itself, two signs do.
function isolated(text) {
  return `\u2068${text}\u2069`;
}

// Spellings, as the program writes them.

function escapedLabel(label) {
  return label.replace(/~/g, '~0').replace(/\//g, '~1');
}

function rawPlace(path) {
  return [path[0], ...path.slice(1).map(escapedLabel)].join('/');
}

const TRIGGER = /[\u0000-\u0020";{}:,]/;
const SHORT = { '"': '\\"', '\\': '\\\\', '\b': '\\b', '\f': '\\f', '\n': '\\n', '\r': '\\r', '\t': '\\t' };

function quoted(text) {
  return `"${text.replace(/[\u0000-\u001f"\\]/g, (it) => SHORT[it] || `\\u${it.charCodeAt(0).toString(16).padStart(4, '0')}`)}"`;
}

function spelledPlace(path) {
  const raw = rawPlace(path);
  return TRIGGER.test(raw) ? quoted(raw) : raw;
}

// Addresses: the raw text of a place, with what an address can't hold in percent signs.

function addressOf(path) {
  return `#${encodeURIComponent(rawPlace(path)).replace(/%2F/g, '/').replace(/%3A/g, ':')}`;
}

// The path of an address; null where it spells no place.
function pathOf(address) {
  let raw = address;
  try {
    raw = decodeURIComponent(address);
  } catch (error) {
    // A percent sign that was typed by hand stands for itself.
  }
  const [name, ...labels] = raw.split('/');
  if (!/^[A-Za-z][A-Za-z0-9_]{0,31}$/.test(name) || labels.some((it) => /~(?![01])/.test(it))) return null;
  return [name, ...labels.map((it) => it.replace(/~1/g, '/').replace(/~0/g, '~'))];
}

// A place as a link, its labels each kept to themselves.
function placeLink(path, kind) {
  return element('a', { class: `place ${kind || ''}`, href: addressOf(path), title: seen(spelledPlace(path)) }, placeNodes(path));
}

function placeNodes(path) {
  return path.map((label, at) => [at > 0 && element('span', { class: 'slash' }, '/', element('wbr')), labelNode(label, at === path.length - 1 ? 'last' : 'above')]);
}

// Numbers and times.

const NUMBERS = new Intl.NumberFormat('en-US');

function count(number, one, many) {
  return `${NUMBERS.format(number)} ${number === 1 ? one : many || `${one}s`}`;
}

function share(part, whole) {
  if (part === 0 || whole === 0) return '0 %';
  const percent = (100 * part) / whole;
  if (percent < 1) return 'under 1 %';
  return percent > 99 && part < whole ? 'over 99 %' : `${Math.round(percent)} %`;
}

// A moment, in seconds since 1970 as digits, in universal time.
function momentText(digits) {
  if (digits === '0') return 'at a time that isn\u2019t kept';
  const date = new Date(Number(digits) * 1000);
  if (Number.isNaN(date.getTime()) || date.getUTCFullYear() > 9999) return `at second ${digits}`;
  const text = date.toISOString();
  return `${text.slice(0, 10)} ${text.slice(11, 16)} UTC`;
}

function momentNode(digits) {
  const date = new Date(Number(digits) * 1000);
  const isKnown = digits !== '0' && !Number.isNaN(date.getTime());
  return isKnown ? element('time', { datetime: date.toISOString(), title: date.toString() }, momentText(digits)) : element('span', {}, momentText(digits));
}

function curatorText(name) {
  return name === '' ? 'no curator named' : labelText(name);
}

function curatorNode(name) {
  return element('bdi', { class: name === '' ? 'curator unnamed' : 'curator' }, curatorText(name));
}
