'use strict';
// A list of rows of one height, of which only those in sight are made.

// The height that a browser still scrolls well. A longer list is scrolled in proportion.
const MOST_HEIGHT = 10_000_000;
const COARSE = matchMedia('(pointer: coarse)');

class Rows {
  // `render` makes the element of the row with a number.
  constructor(box, render) {
    this.box = box;
    this.render = render;
    this.count = 0;
    this.height = COARSE.matches ? 40 : 28;
    this.space = element('div', { class: 'space', role: 'none' });
    this.shown = element('div', { class: 'shown', role: 'none' });
    box.replaceChildren(this.space, this.shown);
    // What the box says of itself is kept, since asking it after a change lays the page out at once.
    this.seenHeight = box.clientHeight;
    this.scrolled = 0;
    this.onShown = () => this.paint(true);
    box.addEventListener('scroll', () => { this.scrolled = box.scrollTop; this.paint(false); });
    new ResizeObserver(() => this.resize()).observe(box);
  }

  resize() {
    const wasHidden = this.seenHeight === 0;
    this.seenHeight = this.box.clientHeight;
    if (wasHidden && this.seenHeight > 0) this.onShown();
    else this.paint(true);
  }

  // How far the box can be scrolled.
  get most() {
    return Math.max(0, Math.min(this.total, MOST_HEIGHT) - this.seenHeight);
  }

  get total() {
    return this.count * this.height;
  }

  // How much longer the list is than what is scrolled.
  get ratio() {
    return this.most > 0 ? Math.max(1, (this.total - this.seenHeight) / this.most) : 1;
  }

  set(count) {
    this.count = count;
    this.space.style.height = `${Math.min(this.total, MOST_HEIGHT)}px`;
    this.scrolled = Math.min(this.scrolled, this.most);
  }

  scrollTo(top) {
    this.scrolled = Math.max(0, Math.min(top, this.most));
    this.box.scrollTop = this.scrolled;
  }

  paint(isForced) {
    const top = this.scrolled * this.ratio;
    const first = Math.max(0, Math.floor(top / this.height) - 4);
    const last = Math.min(this.count, Math.ceil((top + this.seenHeight) / this.height) + 4);
    if (isForced || first !== this.first || last !== this.last) {
      this.first = first;
      this.last = last;
      const rows = [];
      for (let at = first; at < last; at += 1) rows.push(this.render(at));
      this.shown.replaceChildren(...rows);
    }
    this.shown.style.transform = `translateY(${this.scrolled - (top - first * this.height)}px)`;
  }

  // All rows, for printing, up to so many.
  paintAll(most) {
    const rows = [];
    for (let at = 0; at < Math.min(this.count, most); at += 1) rows.push(this.render(at));
    this.shown.replaceChildren(...rows);
    this.shown.style.transform = '';
    this.first = -1;
  }

  get page() {
    return Math.max(1, Math.floor(this.seenHeight / this.height) - 1);
  }

  // Scrolls so that a row is in sight.
  reveal(at) {
    const top = this.scrolled * this.ratio;
    const start = at * this.height;
    if (start < top) this.scrollTo(start / this.ratio);
    else if (start + this.height > top + this.seenHeight) this.scrollTo((start + this.height - this.seenHeight) / this.ratio);
  }
}
