'use strict';
// The page: its views, the address of what is chosen, the keys, light and dark, printing.

const byId = (id) => document.getElementById(id);

const THEMES = { auto: '\u25d0 Auto', light: '\u25cb Light', dark: '\u25cf Dark' };
const DARK = matchMedia('(prefers-color-scheme: dark)');
const NARROW = matchMedia('(max-width: 760px)');
// How wide a sheet of A4 is between its margins, in the pixels of a page.
const PAPER = 690;

class Page {
  constructor(store) {
    this.store = store;
    this.view = '';
    this.places = null;
    byId('name').textContent = seen(store.name);
    byId('facts').textContent = `${count(store.roots[0].places, 'place')}, ${count(store.commits.first.length, 'commit')}, ${count(store.roots.length - 1, 'source')}, kind ${store.stats.kind}, as of ${momentText(String(store.made))}`;
    byId('search').oninput = () => this.filter();
    byId('search').onkeydown = (event) => this.searchKey(event);
    byId('fold').onclick = () => this.fold();
    byId('skip').onclick = (event) => { event.preventDefault(); byId('detail').focus(); };
    addEventListener('hashchange', () => this.route());
    addEventListener('keydown', (event) => this.key(event));
    addEventListener('beforeprint', () => this.print(true));
    addEventListener('afterprint', () => this.print(false));
  }

  // Addresses: `#T/a/b` a place, `#@commits`, `#@step/7`, `#@versions`, `#@version/7` and `#@version/7/3` with another one beside
  // it, `#@curators`, `#@curator/Ada` and `#@curator/Ada/Ben` with another one beside, `#@sources`, `#@source/P`; `#@places` the
  // tree and no place of it.

  route() {
    const address = location.hash.slice(1);
    const step = /^@step\/(\d+)$/.exec(address);
    const version = /^@version\/(\d+)(?:\/(\d+))?$/.exec(address);
    const source = /^@source\/(\w+)$/.exec(address);
    const curator = /^@curator\/([^/]*(?:\/[^/]*)?)$/.exec(address);
    if (address === '' || address === '@places') this.showPlace(['T'], false);
    else if (address === '@commits') this.show('commits', commitsView(this.store), 'Commits', false);
    else if (address === '@curators') this.show('curators', curatorsView(this.store), 'Curators', false);
    else if (curator) this.showCurator(curatorsIn(curator[1]));
    else if (address === '@sources') this.show('sources', sourcesView(this.store), 'Sources', false);
    else if (step) this.showStep(Number(step[1]));
    else if (address === '@versions') this.showVersion(this.store.tid, null, false);
    else if (version) this.showVersion(Number(version[1]), version[2] === undefined ? null : Number(version[2]), true);
    else if (source) this.showSource(source[1]);
    else this.showPlace(pathOf(address), true);
  }

  // Makes an address that of the page: as a step of a walk in the place of the one before, else after it.
  go(address, isWalk) {
    if (isWalk) {
      history.replaceState(null, '', address);
      clearTimeout(this.walk);
      this.walk = setTimeout(() => this.route(), 60);
    } else if (location.hash === address) this.route();
    else location.hash = address;
  }

  // Views

  show(view, content, title, isDetail) {
    this.turnTo(view);
    const hadFocus = byId('detail').contains(document.activeElement);
    byId('detail').replaceChildren(...[isDetail && this.backButton(), ...content].flat(Infinity).filter(Boolean));
    byId('detail').scrollTop = 0;
    document.body.dataset.pane = isDetail ? 'detail' : 'list';
    document.title = `${title} \u2013 ${seen(this.store.name)}`;
    if (NARROW.matches) scrollTo(0, 0);
    if (hadFocus) byId('detail').focus();
    const wanted = byId('detail').querySelector('.wanted');
    if (wanted) wanted.scrollIntoView({ block: 'center' });
  }

  showPlace(path, isDetail) {
    if (path === null) return this.show('tree', [element('h2', {}, 'No such address'), element('p', { class: 'summary' }, 'What stands behind the # of the address spells no place.')], 'No such address', true);
    const { place, isThere } = this.store.walk(path);
    this.show('tree', isThere ? placeView(this.store, place) : missingView(this.store, path), seen(spelledPlace(path)), isDetail);
    return this.list.reveal(isThere ? place : -1);
  }

  showStep(tid) {
    const at = this.store.commitOf(tid);
    if (at < 0) return this.show('commits', [element('h2', {}, `No step ${tid}`), element('p', { class: 'summary' }, 'No commit has a step with this number.')], `No step ${tid}`, true);
    this.show('commits', commitView(this.store, at, tid), commitText(this.store.commit(at)), true);
    return this.list.reveal(at);
  }

  // A version, with another one beside it or null. Where the pane is shown already, it stays, so that its slider keeps the focus.
  showVersion(version, beside, isDetail) {
    const { store } = this;
    const lacking = [version, beside].find((it) => it !== null && !store.versions.has(it));
    if (lacking !== undefined) return this.show('versions', noVersionView(store, lacking), `No version ${lacking}`, true);
    this.pane = this.pane || new VersionPane(store, (to, other) => this.turnVersion(to, other));
    this.pane.turn(version, beside);
    const isShown = isDetail && document.body.dataset.pane === 'detail' && byId('detail').contains(this.pane.box);
    if (!isShown) this.show('versions', [this.pane.box], versionText(version), isDetail);
    document.title = `${versionText(version)} \u2013 ${seen(store.name)}`;
    return this.list.reveal(isDetail ? version : -1);
  }

  // What the slider does: the address goes along, in the place of the one before.
  turnVersion(version, beside) {
    history.replaceState(null, '', versionAddress(version, beside));
    document.body.dataset.pane = 'detail';
    this.showVersion(version, beside, true);
  }

  showCurator(names) {
    const [name, beside = null] = names || [undefined];
    const turn = (to) => this.go(curatorAddress(name, to), false);
    this.show('curators', curatorView(this.store, name, beside, turn), name === undefined ? 'No such curator' : curatorText(name), true);
    return this.list.reveal(this.store.commits.names.indexOf(name));
  }

  showSource(name) {
    const root = this.store.rootNames.get(name);
    if (!root) return this.show('sources', missingView(this.store, [name]), name, true);
    const { first } = this.store.roots[root];
    this.show('sources', [element('h2', {}, name), element('p', { class: 'kind' }, element('a', { href: `#${name}` }, 'Its tree')), sourceParts(this.store, first)], name, true);
    return this.list.reveal(root);
  }

  backButton() {
    const names = { tree: 'The tree', commits: 'All commits', curators: 'All curators', versions: 'All versions', sources: 'All sources' };
    return element('button', { type: 'button', class: 'back', onclick: () => { document.body.dataset.pane = 'list'; byId('rows').focus(); } }, `\u2039 ${names[this.view]}`);
  }

  // The lists of the views; each is made when its view is shown, the tree once.
  turnTo(view) {
    if (this.view === view) return;
    this.view = view;
    const box = element('div', { class: 'rows', id: 'rows', tabindex: 0 });
    byId('rows').replaceWith(box);
    byId('search').value = '';
    const words = {
      tree: ['Search labels and values', 'Fold all', 'tree', 'Places'],
      commits: ['Search curators, dates and places', 'Oldest first', 'listbox', 'Commits'],
      curators: ['Search curators', '', 'listbox', 'Curators'],
      versions: ['Search places, curators and dates', '', 'listbox', 'Versions'],
      sources: ['Search sources', '', 'listbox', 'Sources'],
    }[view];
    byId('search').placeholder = words[0];
    byId('search').setAttribute('aria-label', words[0]);
    byId('fold').textContent = words[1];
    byId('fold').hidden = words[1] === '';
    box.setAttribute('role', words[2]);
    box.setAttribute('aria-label', words[3]);
    this.list = this.made(view, box);
    this.tellCount(0);
    for (const it of ['tree', 'commits', 'curators', 'versions', 'sources']) {
      if (it === view) byId(`tab-${it}`).setAttribute('aria-current', 'page');
      else byId(`tab-${it}`).removeAttribute('aria-current');
    }
    document.body.dataset.view = view;
  }

  made(view, box) {
    const { store } = this;
    if (view === 'commits') return new CommitList(store, box, (commit, isWalk) => this.go(`#@step/${store.commits.first[commit]}`, isWalk));
    if (view === 'curators') return new CuratorList(store, box, (at, isWalk) => this.go(curatorAddress(store.commits.names[at], null), isWalk));
    if (view === 'versions') return new VersionList(store, box, (version, isWalk) => this.go(`#@version/${version}`, isWalk));
    if (view === 'sources') return new SourceList(store, box, (root, isWalk) => this.go(`#@source/${store.roots[root].name}`, isWalk));
    const choose = (place, isWalk) => this.go(addressOf(store.path(place)), isWalk);
    if (this.places) this.places.moveTo(box);
    else this.places = new TreeView(store, box, choose);
    return this.places;
  }

  // Search and keys

  filter() {
    this.tellCount(this.list.filter(byId('search').value));
  }

  // How many were found; without a search how many there are.
  tellCount(found) {
    const { roots, commits, versions } = this.store;
    const inSources = roots.slice(1).reduce((sum, it) => sum + it.rows, 0);
    const all = {
      tree: () => `${count(roots[0].rows, 'place')} in T${inSources > 0 ? `, ${NUMBERS.format(inSources)} in sources` : ''}`,
      commits: () => count(commits.first.length, 'commit'),
      curators: () => count(commits.names.length, 'curator'),
      versions: () => (versions.oldest > 0 ? `the newest ${NUMBERS.format(versions.last - versions.oldest + 1)} of ${count(versions.last + 1, 'version')}` : count(versions.last + 1, 'version')),
      sources: () => count(roots.length - 1, 'source'),
    };
    const names = { tree: 'place', commits: 'commit', curators: 'curator', versions: 'version', sources: 'source' };
    byId('count').textContent = byId('search').value ? `${count(found, names[this.view])} found` : all[this.view]();
  }

  fold() {
    if (this.view === 'commits') {
      this.list.turn();
      byId('fold').textContent = this.list.isNewestFirst ? 'Oldest first' : 'Newest first';
    } else {
      const isOpen = byId('fold').textContent === 'Unfold all';
      this.list.setAll(isOpen);
      byId('fold').textContent = isOpen ? 'Fold all' : 'Unfold all';
    }
  }

  searchKey(event) {
    if (event.key === 'Escape' && byId('search').value !== '') {
      byId('search').value = '';
      this.filter();
      event.stopPropagation();
    } else if (event.key === 'ArrowDown' || event.key === 'Enter') {
      event.preventDefault();
      byId('rows').focus();
      if (event.key === 'Enter' && this.list.rows.length > 0) this.list.move(this.list.active);
    }
  }

  key(event) {
    const isTyping = event.target.closest('input[type="search"], input[readonly]');
    if (event.ctrlKey || event.metaKey || event.altKey) return;
    if (event.key === '/' && !isTyping) {
      event.preventDefault();
      document.body.dataset.pane = 'list';
      byId('search').focus();
      byId('search').select();
    } else if (event.key === 'Escape') byId('rows').focus();
  }

  // A list of commits is printed whole, a place or a commit with its picture as wide as the paper.
  print(isBefore) {
    const figure = byId('detail').querySelector('.picture');
    document.documentElement.dataset.theme = isBefore ? 'light' : themeNow();
    byId('detail').classList.toggle('printing', isBefore);
    if (figure) figure.redraw(isBefore ? PAPER : figure.clientWidth);
    if (this.view === 'commits' && document.body.dataset.pane === 'list') isBefore ? this.list.list.paintAll(5000) : this.list.list.paint(true);
  }
}

// Light and dark

function kept(value) {
  try {
    if (value !== undefined) localStorage.setItem('cpdb-theme', value);
    return localStorage.getItem('cpdb-theme');
  } catch (error) {
    return value || null;
  }
}

let theme = 'auto';

function themeNow() {
  return theme === 'auto' ? (DARK.matches ? 'dark' : 'light') : theme;
}

function setTheme(wanted) {
  theme = THEMES[wanted] ? wanted : 'auto';
  document.documentElement.dataset.theme = themeNow();
  byId('theme').textContent = THEMES[theme];
  byId('theme').setAttribute('aria-label', `Colours: ${theme === 'auto' ? 'as the system has them' : theme}`);
}

function startTheme() {
  setTheme(kept());
  DARK.addEventListener('change', () => setTheme(theme));
  byId('theme').onclick = () => {
    const names = Object.keys(THEMES);
    setTheme(names[(names.indexOf(theme) + 1) % names.length]);
    kept(theme);
  };
}

async function start() {
  startTheme();
  try {
    const store = new Store(await unpacked(byId('data').textContent));
    byId('data').remove();
    byId('main').hidden = false;
    byId('notice').remove();
    const page = new Page(store);
    page.route();
    document.documentElement.dataset.ready = 'true';
    if (location.search === '?measure') await measure(store);
    if (location.search === '?answers') showAnswers(store);
  } catch (error) {
    byId('notice').textContent = typeof DecompressionStream === 'undefined' ? 'This browser is too old for this page: it can\u2019t unpack what is in it. One of 2023 or later can.' : `The page can\u2019t be read: ${error.message}`;
    throw error;
  }
}

start();
