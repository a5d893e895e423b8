// One stop of the Tab key for a part that has many things to use: arrow keys move within it.
import { $ } from './dom.js';

const THINGS = ':is(button, input, summary):enabled, summary';
const ALONG = { ArrowLeft: -1, ArrowRight: 1 }, ACROSS = { ArrowUp: -1, ArrowDown: 1 };
const isText = (it) => it.tagName === 'INPUT' && it.type !== 'checkbox';

export class Roving {
  /** @type {HTMLElement} */ part;
  row;
  place = 0;
  held = null;

  // A part by its id, and what a row is in it.
  constructor(id, row = 'tr') {
    this.part = $(id);
    this.row = row;
    this.part.addEventListener('focusin', ({ target }) => this.stopAt(target));
    this.part.addEventListener('keydown', (event) => this.key(event));
    new MutationObserver(() => this.renew()).observe(this.part, { childList: true, subtree: true, attributeFilter: ['disabled'] });
    this.renew();
  }

  get things() { return [.../** @type {NodeListOf<HTMLElement>} */ (this.part.querySelectorAll(THINGS))]; }

  // The stop among things that were made anew, or that can be used now: what has the focus, or had it, or is where it was.
  renew() {
    const { things, held, place } = this, byName = held && things.find((it) => it.dataset.held === held);
    const now = things.find((it) => it === document.activeElement) ?? byName ?? things[Math.min(place, things.length - 1)];
    for (const it of things) it.tabIndex = it === now ? 0 : -1;
  }

  stopAt(target) {
    const { things } = this, at = things.indexOf(target);
    if (at < 0) return;
    this.place = at;
    this.held = target.dataset.held ?? null;
    for (const it of things) it.tabIndex = it === target ? 0 : -1;
  }

  key(event) {
    if (isText(event.target) || event.altKey || event.metaKey || event.shiftKey) return;
    const { things } = this, at = things.indexOf(event.target);
    const next = at < 0 ? null : this.next(event, things, at);
    if (!next) return;
    next.focus();
    event.preventDefault();
  }

  // What a key moves to.
  next({ key, ctrlKey }, things, at) {
    const rows = [...new Set(things.map((it) => this.rowOf(it)))], row = this.rowOf(things[at]), within = this.thingsOf(row, things);
    if (key === 'Home' || key === 'End') return (ctrlKey ? things : within).at(key === 'Home' ? 0 : -1);
    if (ctrlKey) return null;
    if (key in ALONG) return things[at + ALONG[key]];
    if (!(key in ACROSS)) return null;
    const other = rows[rows.indexOf(row) + ACROSS[key]], column = within.indexOf(things[at]), there = this.thingsOf(other, things);
    return there[Math.min(column, there.length - 1)];
  }

  rowOf(it) { return it.closest(this.row) ?? this.part; }
  thingsOf(row, things) { return row ? things.filter((it) => this.rowOf(it) === row) : []; }
}
