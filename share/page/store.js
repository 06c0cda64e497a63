'use strict';
// The store: the columns of the page (share/python/cpdb_page/columns.py writes them), and what follows from them.

const NEW = -1;
const START = -2;

// The columns, which stand in the page compressed.
async function unpacked(text) {
  const letters = atob(text);
  const bytes = new Uint8Array(letters.length);
  for (let at = 0; at < letters.length; at += 1) bytes[at] = letters.charCodeAt(at);
  const stream = new Blob([bytes]).stream().pipeThrough(new DecompressionStream('deflate'));
  return JSON.parse(await new Response(stream).text());
}

// Where in a rising column the first number stands that is at least this one.
function firstAtLeast(column, number) {
  let low = 0;
  let high = column.length;
  while (low < high) {
    const middle = (low + high) >> 1;
    if (column[middle] < number) low = middle + 1;
    else high = middle;
  }
  return low;
}

class Store {
  constructor(columns) {
    Object.assign(this, { name: columns.name, made: columns.made, stats: columns.stats, labels: columns.labels });
    this.commits = columns.commits;
    this.steps = columns.steps;
    this.tid = columns.stats.tid;
    this.readPlaces(columns);
    this.readPasts(columns.pasts);
    this.readParts(columns.parts);
    this.readSteps(columns.steps);
    this.versions = new Versions(this, columns.versions);
  }

  // Places

  readPlaces({ standing, others, roots }) {
    this.count = standing.depths.length;
    this.depths = Uint8Array.from(standing.depths);
    this.kinds = standing.kinds;
    this.parents = new Int32Array(this.count + others.parents.length);
    this.labelAt = Int32Array.from([...standing.labels, ...others.labels]);
    this.sizes = new Int32Array(this.count).fill(1);
    this.childCount = new Int32Array(this.count);
    this.ordinals = new Int32Array(this.count);
    this.values = new Array(this.count).fill(null);
    const way = [];
    let text = 0;
    for (let place = 0; place < this.count; place += 1) {
      const depth = this.depths[place];
      way[depth] = place;
      this.parents[place] = depth > 0 ? way[depth - 1] : -1;
      if (depth > 0) this.ordinals[place] = this.childCount[way[depth - 1]]++;
      if ('si'.includes(this.kinds[place])) this.values[place] = standing.texts[text++];
    }
    for (let place = this.count - 1; place > 0; place -= 1) {
      if (this.parents[place] >= 0) this.sizes[this.parents[place]] += this.sizes[place];
    }
    this.parents.set(others.parents, this.count);
    this.readRoots(roots);
  }

  readRoots(roots) {
    let first = 0;
    this.roots = roots.map((it) => {
      const root = { ...it, first, end: first + it.rows };
      first = root.end;
      return root;
    });
    this.rootNames = new Map(this.roots.map((it, at) => [it.name, at]));
  }

  rootOf(place) {
    return this.roots.findIndex((it) => place < it.end);
  }

  isNode(place) {
    return this.kinds[place] === 'n';
  }

  isInT(place) {
    return place < this.roots[0].end;
  }

  label(place) {
    return this.labelAt[place] < 0 ? this.roots[this.rootOf(place)].name : this.labels[this.labelAt[place]];
  }

  // The name of the root, and the labels on the way down.
  path(place) {
    const path = [];
    for (let at = place; at >= 0; at = this.parents[at]) path.push(this.label(at));
    return path.reverse();
  }

  children(place) {
    const found = [];
    for (let at = place + 1; at < place + this.sizes[place]; at += this.sizes[at]) found.push(at);
    return found;
  }

  ancestors(place) {
    const found = [];
    for (let at = this.parents[place]; at >= 0; at = this.parents[at]) found.push(at);
    return found;
  }

  childWith(place, label) {
    for (let at = place + 1; at < place + this.sizes[place]; at += this.sizes[at]) {
      if (this.labels[this.labelAt[at]] === label) return at;
    }
    return -1;
  }

  // How far a path leads: the last place on it that stands, and whether that is its end.
  walk(path) {
    const root = this.rootNames.get(path[0]);
    if (root === undefined) return { place: -1, isThere: false };
    let place = this.roots[root].first;
    for (const label of path.slice(1)) {
      const next = this.childWith(place, label);
      if (next < 0) return { place, isThere: false };
      place = next;
    }
    return { place, isThere: true };
  }

  // The value as the program spells it; null for a node.
  valueText(place) {
    const words = { 0: 'null', t: 'true', f: 'false', i: this.values[place] };
    if (this.kinds[place] === 's') return quoted(this.values[place]);
    return this.isNode(place) ? null : words[this.kinds[place]];
  }

  // Pasts

  // Of each place of T: where its own past stands, or that it is its parent's; whose past it has (`carriers`); how that ends
  // (`origins`: NEW, START or the number of a source's root); and the step that brought the data here (`arrivals`).
  readPasts(numbers) {
    const end = this.roots[0].end;
    this.pasts = numbers;
    this.pastAt = new Int32Array(end).fill(-1);
    this.carriers = new Int32Array(end);
    this.origins = new Int32Array(end);
    this.arrivals = new Float64Array(end);
    let at = 0;
    for (let place = 0; place < end; place += 1) {
      const isOwn = numbers[at] > 0;
      this.carriers[place] = isOwn ? place : this.carriers[this.parents[place]];
      if (isOwn) at = this.readPast(place, at);
      else {
        this.origins[place] = this.origins[this.parents[place]];
        this.arrivals[place] = this.arrivals[this.parents[place]];
        at += 1;
      }
    }
  }

  readPast(place, at) {
    const shared = this.pasts[at] - 1;
    const own = this.pasts[at + 1];
    const next = at + 2 + 2 * own - (shared === 0 && own > 0 ? 1 : 0);
    const end = this.pasts[next];
    this.pastAt[place] = at;
    this.origins[place] = end < 0 ? end : this.rootOf(end);
    this.arrivals[place] = shared > 0 ? this.arrivals[this.parents[place]] : this.pasts[at + 2];
    return next + 1;
  }

  // The trace of a place of T: where its data stood, newest first, each with its versions, and the end: `new`, `start` or
  // the path of a place of a source.
  trace(place) {
    const at = this.pastAt[place];
    if (at < 0) return this.traceBelow(this.trace(this.parents[place]), this.label(place));
    const shared = this.pasts[at] - 1;
    const above = shared > 0 ? this.traceBelow(this.trace(this.parents[place]), this.label(place)).segments : [];
    const segments = above.slice(0, shared);
    let next = at + 2;
    for (let own = this.pasts[at + 1]; own > 0; own -= 1) {
      const path = segments.length === 0 ? this.path(place) : this.path(this.pasts[next++]);
      const high = segments.length === 0 ? this.tid : segments[segments.length - 1].low - 1;
      segments.push({ path, low: this.pasts[next++], high });
    }
    const end = this.pasts[next];
    return { segments, end: end === NEW ? 'new' : end === START ? 'start' : this.path(end) };
  }

  traceBelow({ segments, end }, label) {
    return {
      segments: segments.map((it) => ({ ...it, path: [...it.path, label] })),
      end: Array.isArray(end) ? [...end, label] : end,
    };
  }

  // The step that inserted the data, or null.
  src({ segments, end }) {
    return end === 'new' ? segments[segments.length - 1].low : null;
  }

  // The steps that copied the data, rising.
  hist({ segments, end }) {
    const lows = segments.map((it) => it.low).reverse();
    return Array.isArray(end) ? lows : lows.slice(1);
  }

  // The steps that inserted or copied the data of a place, from the numbers of its past.
  stepsOf(place) {
    const carrier = this.carriers[place];
    const at = this.pastAt[carrier];
    const shared = this.pasts[at] - 1;
    const steps = shared > 0 ? this.stepsOf(this.parents[carrier]).slice(0, shared) : [];
    let next = at + 2;
    for (let own = this.pasts[at + 1]; own > 0; own -= 1) {
      if (steps.length > 0) next += 1;
      steps.push(this.pasts[next++]);
    }
    return steps;
  }

  // The steps of `mod`, rising: of each place of the subtree those of its past, and those that are kept for it.
  mod(place) {
    const found = new Set();
    for (let at = place; at < place + this.sizes[place]; at += 1) {
      if (at === place || this.carriers[at] === at) this.ownSteps(at).forEach((it) => found.add(it));
    }
    for (let at = firstAtLeast(this.partPlaces, place); at < this.partPlaces.length && this.partPlaces[at] < place + this.sizes[place]; at += 1) {
      this.partSteps[at].forEach((it) => found.add(it));
    }
    return [...found].sort((one, other) => one - other);
  }

  // What `stepsOf` has but for the version 0, with which data begins that was there from the start.
  ownSteps(place) {
    const steps = this.stepsOf(place);
    return this.origins[place] === START ? steps.slice(0, -1) : steps;
  }

  readParts(parts) {
    this.partPlaces = parts.map((it) => it[0]);
    this.partSteps = parts.map((it) => it.slice(1));
  }

  // Who uses a place

  // By the numbers of places: which places of T have a past of their own that passes through one or ends in it, and at which
  // rank of their traces; `users[starts[number]]` is the first of a number.
  passages() {
    if (this.passagesAt) return this.passagesAt;
    const starts = new Int32Array(this.parents.length + 1);
    this.eachPassage((number) => { starts[number + 1] += 1; });
    for (let number = 0; number < this.parents.length; number += 1) starts[number + 1] += starts[number];
    const next = starts.slice();
    const users = new Int32Array(starts[this.parents.length]);
    const ranks = new Int32Array(users.length);
    this.eachPassage((number, user, rank) => {
      users[next[number]] = user;
      ranks[next[number]++] = rank;
    });
    this.passagesAt = { starts, users, ranks };
    return this.passagesAt;
  }

  // Tells of each past that is a place's own its places, but for those that it shares with its parent's, and its end.
  eachPassage(tell) {
    for (let place = 0; place < this.pastAt.length; place += 1) {
      const at = this.pastAt[place];
      if (at < 0) continue;
      const shared = this.pasts[at] - 1;
      const last = shared + this.pasts[at + 1];
      let next = at + 2;
      for (let rank = shared; rank < last; rank += 1) {
        tell(rank === 0 ? place : this.pasts[next++], place, rank);
        next += 1;
      }
      if (this.pasts[next] >= 0) tell(this.pasts[next], place, last);
    }
  }

  // The places of T whose trace passes through a place or ends in it, in order, as `cpdb uses` answers; whether the place
  // stands or not. Each has such a past by itself or from a place above, whose own passes through one above the place.
  uses(path) {
    const { starts, users, ranks } = this.passages();
    const found = new Set();
    for (const number of this.numbersOn(path)) {
      const labels = path.slice(this.ancestors(number).length + 1);
      for (let at = starts[number]; at < starts[number + 1]; at += 1) {
        const user = this.heir(users[at], ranks[at], labels);
        if (user >= 0) found.add(user);
      }
    }
    return [...found].sort((one, other) => one - other);
  }

  // The place by these labels below a place of T, where each on the way has its parent's past up to a rank; else -1.
  heir(place, rank, labels) {
    let at = place;
    for (const label of labels) {
      at = this.childWith(at, label);
      if (at < 0 || (this.pastAt[at] >= 0 && this.pasts[this.pastAt[at]] - 1 <= rank)) return -1;
    }
    return at;
  }

  // The line that `cpdb uses` writes.
  usesLine(path) {
    const users = this.uses(path).map((it) => spelledPlace(this.path(it)));
    return `uses ${spelledPlace(path)}: ${users.length > 0 ? users.join(' ') : 'none'}`;
  }

  // The answers of the program to its five queries of a place, and the line of `cpdb uses`.
  answers(place) {
    const trace = this.trace(place);
    const { segments, end } = trace;
    const name = spelledPlace(this.path(place));
    const list = (steps) => (steps.length > 0 ? steps.join(' ') : 'none');
    const stood = segments.map((it) => `${spelledPlace(it.path)}@${it.low}..${it.high}`);
    const endText = Array.isArray(end) ? spelledPlace(end) : end;
    const isStart = segments.length === 1 && end === 'start';
    const from = segments.length > 1 ? spelledPlace(segments[1].path) : endText;
    return [`src ${name}: ${this.src(trace) === null ? 'none' : this.src(trace)}`, `hist ${name}: ${list(this.hist(trace))}`,
      `mod ${name}: ${list(this.mod(place))}`, `trace ${name}: ${[...stood, endText].join(' < ')}`,
      `from ${name}: ${isStart ? 'start' : `${from} at ${segments[0].low}`}`, this.usesLine(this.path(place))];
  }

  // Commits and records

  readSteps(steps) {
    let source = 0;
    this.recordSources = new Int32Array(steps.tids.length).fill(-1);
    for (let at = 0; at < steps.tids.length; at += 1) {
      if (steps.ops[at] === 'C') this.recordSources[at] = steps.sources[source++];
    }
  }

  // The number of the commit that made a step, or -1.
  commitOf(tid) {
    const at = firstAtLeast(this.commits.last, tid);
    return at < this.commits.last.length && this.commits.first[at] <= tid ? at : -1;
  }

  commit(at) {
    const { first, last, curators, names, moments, operations } = this.commits;
    return { at, first: first[at], last: last[at], curator: names[curators[at]], moment: moments[at], operations: operations[at] };
  }

  record(at) {
    const { tids, ops, places, below } = this.steps;
    return { at, tid: tids[at], op: ops[at], place: places[at], source: this.recordSources[at], below: below[at] };
  }

  // The records of the steps from one to another.
  records(first, last) {
    const found = [];
    for (let at = firstAtLeast(this.steps.tids, first); at < this.steps.tids.length && this.steps.tids[at] <= last; at += 1) found.push(this.record(at));
    return found;
  }

  // The records of an address and of those above it, whether something stands there or not.
  recordsAt(path) {
    const known = new Set(this.numbersOn(path));
    const found = [];
    for (let at = 0; at < this.steps.places.length; at += 1) {
      if (known.has(this.steps.places[at])) found.push(this.record(at));
    }
    return found;
  }

  // The numbers of the places on a path, as far as the page knows them.
  numbersOn(path) {
    const { place, isThere } = this.walk(path);
    if (place < 0) return [];
    const found = [place, ...this.ancestors(place)];
    if (isThere) return found;
    let last = place;
    for (const label of path.slice(this.depths[place] + 1)) {
      last = this.otherWith(last, label);
      if (last < 0) break;
      found.push(last);
    }
    return found;
  }

  otherWith(place, label) {
    for (let at = this.count; at < this.parents.length; at += 1) {
      if (this.parents[at] === place && this.labels[this.labelAt[at]] === label) return at;
    }
    return -1;
  }

  // Sources

  // Of each place of T the number of the place of a source from which its data comes, or -1.
  ends() {
    if (this.endAt) return this.endAt;
    const end = this.roots[0].end;
    const children = new Map();
    for (let at = end; at < this.count; at += 1) {
      if (this.parents[at] >= 0) children.set(this.parents[at] * this.labels.length + this.labelAt[at], at);
    }
    this.endAt = new Int32Array(end).fill(-1);
    for (let place = 0; place < end; place += 1) {
      if (this.origins[place] < 0) continue;
      if (this.carriers[place] === place) this.endAt[place] = this.pastEnd(place);
      else this.endAt[place] = children.get(this.endAt[this.parents[place]] * this.labels.length + this.labelAt[place]);
    }
    return this.endAt;
  }

  pastEnd(place) {
    const at = this.pastAt[place];
    return this.pasts[at + 2 + 2 * this.pasts[at + 1] - (this.pasts[at] === 1 ? 1 : 0)];
  }

  // Of each root: how many of its places were taken, and how many places of T come from it.
  taken() {
    if (this.takenAt) return this.takenAt;
    const ends = this.ends();
    this.takenAt = this.roots.map(() => ({ places: 0, targets: 0 }));
    this.isTaken = new Uint8Array(this.count);
    for (let place = 0; place < ends.length; place += 1) {
      if (ends[place] < 0) continue;
      const taken = this.takenAt[this.origins[place]];
      taken.targets += 1;
      if (!this.isTaken[ends[place]]) taken.places += 1;
      this.isTaken[ends[place]] = 1;
    }
    return this.takenAt;
  }

  // The copies that brought something from a source's place, or from below it: of each the topmost place of T with its end,
  // and how many places share that past.
  copiesFrom(source) {
    const ends = this.ends();
    const last = source + this.sizes[source];
    const found = new Map();
    for (let place = 0; place < ends.length; place += 1) {
      if (ends[place] < source || ends[place] >= last) continue;
      const carrier = this.carriers[place];
      if (found.has(carrier)) found.get(carrier).places += 1;
      else found.set(carrier, { place, end: ends[place], places: 1 });
    }
    return [...found.values()];
  }
}
