// The legend of a picture: a line for each outcome, which opens to its traces, is taken out of the picture, and whose first edit is made.
import { $, element, focusHeld, heldName } from '../common/dom.js';
import { grouped } from '../common/numbers.js';
import { inkOn } from './colours.js';
import { lineOf } from './sweeping.js';

const MOST = 60, MOST_LISTED = 40;

export class Legend {
  make;
  changed;
  links;
  hidden = new Set();
  open = new Set();
  pointed = null;
  rows;

  // `make` makes an edit: a kind, a place and a value; `changed` is called when outcomes are taken out, put back or pointed at; `links`
  // takes the number of the outcome that is pointed at, null for none.
  constructor({ make, changed, links }) {
    this.make = make;
    this.links = links;
    this.changed = changed;
    const numberOf = (target) => (target instanceof Element ? target.closest('tr')?.dataset.number : undefined);
    for (const it of ['pointerover', 'focusin']) $('legend-rows').addEventListener(it, ({ target }) => this.pointAt(numberOf(target)));
    for (const it of ['pointerleave', 'focusout']) $('legend-rows').addEventListener(it, () => this.pointAt());
  }

  clear() {
    this.hidden.clear();
    this.open.clear();
    this.pointed = null;
    $('legend-rows').replaceChildren();
    $('legend').hidden = true;
  }

  // Has the picture show the outcomes of one row, or of all.
  pointAt(number = null) {
    const numbers = this.rows?.find((it) => `${it.numbers[0]}` === number)?.numbers ?? null;
    this.links(numbers?.[0] ?? null);
    this.pointOut(numbers);
  }

  // Has the picture show some outcomes, or all.
  pointOut(numbers) {
    if (numbers === this.pointed) return;
    this.pointed = numbers;
    this.changed();
  }

  show(outcomes, looks) {
    const held = heldName();
    this.rows = outcomes.rows;
    const rows = this.rows.slice(0, MOST).map((row) => this.row(outcomes, row, looks[row.numbers[0]]));
    $('legend-rows').replaceChildren(...rows);
    $('legend').hidden = false;
    focusHeld($('legend-rows'), held);
  }

  row(outcomes, row, look) {
    const { firsts, asked } = outcomes.swept, [number] = row.numbers, first = firsts[number];
    const line = () => lineOf(asked, ...first);
    const button = number && first ? element('button', { onclick: () => this.make(asked.kind, ...first) }, line()) : '';
    if (button) button.dataset.held = `first ${number}`;
    const cell = (className, ...children) => element('td', { role: 'cell', className }, ...children);
    const made = element('tr', { role: 'row' }, cell('shows', element('label', {}, this.box(outcomes, row), swatch(look))),
      cell('number', grouped(row.edits)), cell('outcome', this.text(outcomes, row)), cell('first', button));
    made.dataset.number = number;
    return made;
  }

  box(outcomes, row) {
    const [number] = row.numbers, told = outcomes.rowTold(row, true);
    const box = element('input', { type: 'checkbox', checked: !this.hidden.has(number), 'aria-label': `show outcome: ${told}` });
    box.dataset.held = `show ${number}`;
    box.addEventListener('change', () => {
      for (const it of row.numbers) this.hidden[box.checked ? 'delete' : 'add'](it);
      this.changed();
    });
    return box;
  }

  // The outcome in one line, which opens to all of it: the traces, or the runs that differ in their exit status only.
  text(outcomes, row) {
    const { numbers } = row, [number] = numbers, short = outcomes.rowTold(row, true), { firsts, tallies, asked } = outcomes.swept;
    const first = (it) => lineOf(asked, ...firsts[it]);
    const each = (it) => `${grouped(tallies[it])}: ${outcomes.told(it)}, first ${first(it)}`;
    const all = numbers.length > 1 ? numbers.slice(0, MOST_LISTED).map(each) : [outcomes.told(number)];
    if (all.length > 1 && numbers.length > MOST_LISTED) all.push(`and ${grouped(numbers.length - MOST_LISTED)} more`);
    const summary = element('summary', { title: all.join('\n') }, short);
    summary.dataset.held = `open ${number}`;
    const made = element('details', { open: this.open.has(number) }, summary, ...all.map((it) => element('div', {}, it)));
    made.addEventListener('toggle', () => this.open[made.open ? 'add' : 'delete'](number));
    return made;
  }
}

function swatch({ colour, isHatched, label }) {
  const number = element('span', {}, label), made = element('span', { className: isHatched ? 'swatch hatched' : 'swatch' }, number);
  made.setAttribute('aria-hidden', 'true');
  number.style.backgroundColor = colour;
  made.style.backgroundColor = colour;
  made.style.color = inkOn(colour);
  return made;
}
