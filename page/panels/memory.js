// Some bytes of memory at the step that is shown, with their letters. One is picked: another one is typed over it, and it is asked for.
import { $, $input, element, say } from '../common/dom.js';
import { grouped, hexByte, hexWord, letter, numberOf } from '../common/numbers.js';
import { writeLine } from '../engine/scenario.js';

export const SEEN = 128;  // bytes that are shown
export const GRAIN = 16;  // at a multiple of it the bytes of the stack begin
const WIDE = 16, NARROW = 8;  // bytes of a row, on a page of this width
const IS_NARROW = matchMedia('(max-width: 40rem)');

const SINCE = { inaccessible: 'Inaccessible since?', undefined: 'Undefined since?', defined: 'Defined since?' };

// What is known of a byte, in a word.
export const knownOf = ({ undef }) => (undef === null ? 'inaccessible' : undef ? 'undefined' : 'defined');

export class Memory {
  alter;
  refuse;
  choose;
  at = 0;
  bytes = [];
  step = 0;
  runs = false;
  picked = null;
  writing = null;
  changed = new Set();
  wide;
  cells;
  rows;

  // `alter` takes a line that alters the run at its step, `refuse` a sentence; `ask` takes a question about a byte; `choose` takes the
  // address that is wanted, null for where the stack is.
  constructor({ alter, refuse, ask, choose }) {
    this.alter = alter;
    this.refuse = refuse;
    this.choose = choose;
    $('memory-form').addEventListener('submit', (event) => {
      event.preventDefault();
      this.goTo($input('memory-at').value.trim());
    });
    $('memory-stack').addEventListener('click', () => choose(null));
    for (const it of ['wrote', 'since']) $(`byte-${it}`).addEventListener('click', () => ask(it, { byte: this.picked }));
    IS_NARROW.addEventListener('change', () => this.bytes.length && this.build());
  }

  // Makes the rows, of as many bytes as the page has room for.
  build() {
    const wide = this.wide = IS_NARROW.matches ? NARROW : WIDE;
    this.endWriting();
    this.cells = Array.from({ length: SEEN }, (_, i) => this.cell(i));
    this.rows = Array.from({ length: SEEN / wide }, () => ({ head: element('th', { scope: 'row', className: 'quiet' }),
      letters: element('td', { className: 'quiet letters', 'aria-hidden': 'true' }) }));
    $('memory-rows').replaceChildren(...this.rows.map(({ head, letters }, row) =>
      element('tr', {}, head, ...this.cells.slice(row * wide, (row + 1) * wide).map((it) => it.place), letters)));
    this.render();
  }

  cell(index) {
    const button = element('button', { onclick: () => this.pick(this.at + index) });
    return { button, place: element('td', {}, button) };
  }

  clear() {
    this.bytes = [];
    this.picked = null;
    this.writing = null;
    $('memory-rows').replaceChildren();
    $('byte-form').hidden = true;
  }

  // Shows bytes from an address on, before a step. What has changed is marked later.
  show({ at, bytes, step, runs }) {
    if (at !== this.at || step !== this.step || !runs) this.endWriting();
    this.at = at;
    this.bytes = bytes;
    this.step = step;
    this.runs = runs;
    this.changed = new Set();
    if (document.activeElement !== $('memory-at')) $input('memory-at').value = hexWord(at);
    if ($('memory-rows').childElementCount) this.render();
    else this.build();
    this.tellPicked();
  }

  render() {
    const { wide, bytes } = this;
    this.rows.forEach(({ head, letters }, row) => {
      head.textContent = hexWord(this.at + row * wide);
      letters.replaceChildren(...bytes.slice(row * wide, (row + 1) * wide).map(({ value }) => element('span', {}, letter(value))));
    });
    for (let i = 0; i < SEEN; i++) this.update(i);
  }

  // Marks bytes by their places among those that are shown.
  mark(changed) {
    const were = this.changed;
    this.changed = changed;
    for (const index of new Set([...were, ...changed])) this.update(index);
  }

  update(index) {
    const at = this.at + index, it = this.bytes[index], { button } = this.cells[index], isChanged = this.changed.has(index);
    const known = it.undef === null ? ', inaccessible' : it.undef ? `, undefined bits ${hexByte(it.undef)}` : '';
    const since = isChanged ? `, changed since step ${grouped(this.step - 1)}` : '';
    const told = `byte at ${hexWord(at)}: ${hexByte(it.value)}${known}${since}`;
    const names = [known && knownOf(it), isChanged && 'changed', at === this.picked && 'here'].filter(Boolean).join(' ');
    if (button.title !== told) Object.assign(button, { title: told, ariaLabel: told, textContent: it.value.toString(16).padStart(2, '0') });
    if (button.className !== names) button.className = names;
    this.rows[Math.floor(index / this.wide)].letters.children[index % this.wide].className = isChanged ? 'changed' : '';
  }

  goTo(text) {
    const at = numberOf(text);
    if (at === null) {
      this.refuse(`An address is a number such as 0x7fffffc0, and not “${text}”.`);
      return;
    }
    this.choose(at);
  }

  // ---- the byte that is picked

  pick(at) {
    this.endWriting();
    const before = this.picked;
    this.picked = at;
    for (const it of [before, at]) this.updateAt(it);
    this.tellPicked();
    if (!this.runs) return;
    this.writing = at;
    const field = this.field(at, this.bytes[at - this.at].value);
    this.cells[at - this.at].place.replaceChildren(field);
    field.select();
  }

  updateAt(at) {
    if (at !== null && at >= this.at && at < this.at + SEEN) this.update(at - this.at);
  }

  // What is below the bytes about the one that is picked, if it is among them.
  tellPicked() {
    const it = this.picked === null ? undefined : this.bytes[this.picked - this.at];
    $('byte-form').hidden = !it;
    if (!it) return;
    say('byte-name', `byte at ${hexWord(this.picked)}: ${hexByte(it.value)}`);
    say('byte-since', SINCE[knownOf(it)]);
  }

  field(at, value) {
    const key = (event) => {
      if (event.key === 'Escape') this.write(null);
      else if (event.key === 'Enter') this.write(at, event.target.value.trim());
      else return;
      event.preventDefault();
    };
    return element('input', { id: 'new-byte', value: hexByte(value), onkeydown: key, spellcheck: false, autocomplete: 'off',
      'aria-label': `new byte at ${hexWord(at)}, Enter sets it` });
  }

  // Has no field for a byte any more. The focus that it had goes to the byte.
  endWriting() {
    if (this.writing === null) return;
    const { place, button } = this.cells[this.writing - this.at], hasFocus = place.contains(document.activeElement);
    this.writing = null;
    place.replaceChildren(button);
    if (hasFocus) button.focus();
  }

  // Writes a byte, or leaves it.
  write(at, text) {
    const value = at === null ? null : numberOf(text);
    if (at !== null && (value === null || value > 255)) {
      this.refuse(`A byte is a number from 0 to 255, such as 0x41, and not “${text}”.`);
      return;
    }
    this.endWriting();
    if (at !== null) this.alter(writeLine(this.step, at, value));
  }
}
