// The input as bytes that are edited in place. Only the rows in view are elements, so that long inputs scroll.
import { $, $button, $input, element, say, speaks } from '../common/dom.js';
import { grouped, hexByte, letter, many } from '../common/numbers.js';

const BESIDE = 8;  // rows that are made above and below the view
const EACH = 8;  // bytes by which rows differ, where they aren't all in one row
const LEAST = 17, MOST = 40;  // pixels of a byte in the only row
const TALL = 21;  // pixels of a row, until one is measured
const HEX = /^[0-9a-fA-F]$/;

export class Bytes {
  edit;
  tell;
  moved;
  here = 0;
  read = 0;
  scenario = null;
  wide = EACH;
  tall = TALL;
  isOneRow = false;
  grid = $('bytes');
  rows;
  series;
  digit;
  each;
  pointed;

  // `edit` takes the scenario after an edit, and its series; `tell` gives what is said of a byte; `moved` is called when bytes have other
  // places.
  constructor({ edit, tell, moved }) {
    this.edit = edit;
    this.tell = tell;
    this.moved = moved;
    this.rows = element('div', { role: 'rowgroup' });
    this.grid.append(this.rows);
    this.grid.addEventListener('scroll', () => this.render());
    this.grid.addEventListener('keydown', (event) => this.key(event));
    this.grid.addEventListener('pointerdown', (event) => this.touch(event, true));
    this.grid.addEventListener('pointermove', (event) => this.touch(event, false));
    this.grid.addEventListener('pointerleave', () => this.tellOf(this.here));
    $('value').addEventListener('input', () => this.set(Number($input('value').value)));
    $('value').addEventListener('change', () => this.beginSeries());
    new ResizeObserver(() => this.fit()).observe(this.grid);
    this.beginSeries();
  }

  // What is changed from here on is undone as one: the digits of a byte, the values of the slider until it is let go.
  beginSeries() {
    this.series = Symbol('series');
    this.digit = null;
  }

  // All bytes in one row if there is room for it, with their letters below, or else as many in each as there is room for.
  fit() {
    const [row] = this.rows.children, { length } = this.scenario ?? { length: 0 };
    if (!row || !this.grid.clientWidth) return;
    const room = this.grid.clientWidth - row.firstElementChild.getBoundingClientRect().width, was = [this.wide, this.isOneRow, this.each];
    this.isOneRow = length * LEAST <= room;
    this.each = this.isOneRow ? Math.min(MOST, room / length) : null;
    this.grid.classList.toggle('one-row', this.isOneRow);
    this.grid.style.setProperty('--byte', this.isOneRow ? `${this.each}px` : '');
    this.wide = this.isOneRow ? length : this.fitting(row, room);
    this.tall = row.getBoundingClientRect().height || TALL;
    if (was.join() === [this.wide, this.isOneRow, this.each].join()) return;
    this.pick(this.here);
    this.moved();
  }

  // How many bytes a row has room for, with their letters beside them if there is room for these too.
  fitting(row, room) {
    this.grid.classList.remove('bare');
    const [byte, letter] = [row.children[1], row.lastElementChild.firstElementChild].map((it) => it.getBoundingClientRect().width);
    const groups = Math.floor((room - byte / 2) / (byte + letter) / EACH);
    this.grid.classList.toggle('bare', !groups);
    return EACH * Math.max(1, groups);
  }

  // Where a number of bytes begins and ends, in pixels from the left of the grid, null unless they are all bytes and in one row.
  ends(count) {
    const cells = this.rows.firstElementChild?.querySelectorAll('[role=gridcell]') ?? [];
    if (!this.isOneRow || cells.length !== count) return null;
    const { left } = this.grid.getBoundingClientRect();
    return [cells[0].getBoundingClientRect().left - left, cells[count - 1].getBoundingClientRect().right - left];
  }

  // Shows which byte another part points at.
  point(at) {
    this.pointed = at;
    this.rows.querySelector('.pointed')?.classList.remove('pointed');
    this.rows.querySelector(`#byte-${at}`)?.classList.add('pointed');
  }

  show(scenario, read) {
    if (scenario === this.scenario && read === this.read) return;
    this.scenario = scenario;
    this.read = read;
    this.here = Math.max(0, Math.min(this.here, scenario.length - 1));
    const has = scenario.length > 0;
    for (const it of ['bytes', 'value-row']) $(it).hidden = !has;
    this.render();
    this.fit();
    this.tellOf(this.here);
    $button('cut').disabled = !has;
    say('input-told', `${grouped(read)} of ${many(scenario.length, 'byte')} read`);
  }

  render() {
    const { scenario, wide, tall } = this;
    const count = Math.ceil(scenario.length / wide);
    const first = Math.max(0, Math.floor(this.grid.scrollTop / tall) - BESIDE);
    const last = Math.min(count, Math.ceil((this.grid.scrollTop + (this.grid.clientHeight || 400)) / tall) + BESIDE);
    this.rows.style.height = `${count * tall}px`;
    this.rows.style.paddingTop = `${first * tall}px`;
    this.rows.replaceChildren(...Array.from({ length: Math.max(0, last - first) }, (_, i) => this.row(first + i)));
    this.grid.setAttribute('aria-rowcount', `${count}`);
    if (scenario.length) this.grid.setAttribute('aria-activedescendant', `byte-${this.here}`);
    else this.grid.removeAttribute('aria-activedescendant');
  }

  row(number) {
    const begin = number * this.wide, end = Math.min(begin + this.wide, this.scenario.length);
    const cells = [];
    for (let at = begin; at < end; at++) cells.push(this.cell(at));
    const letters = cells.map((_, i) => element('span', {}, letter(this.scenario.byte(begin + i))));
    return element('div', { role: 'row', 'aria-rowindex': number + 1 },
      element('span', { className: 'offset', role: 'rowheader' }, begin.toString(16).padStart(5, '0')), ...cells,
      element('span', { className: 'letters', 'aria-hidden': 'true' }, ...letters));
  }

  cell(at) {
    const value = this.scenario.byte(at), isEdited = this.scenario.isEdited(at);
    const names = [at >= this.read && 'unread', isEdited && 'edited', at === this.here && 'here', at === this.pointed && 'pointed'];
    const was = isEdited && at < this.scenario.base.length ? `, was ${hexByte(this.scenario.base[at])}` : '';
    const told = `byte ${at}: ${hexByte(value)}${was}${at >= this.read ? ', not read' : ''}`;
    const cell = element('span', { role: 'gridcell', id: `byte-${at}`, className: names.filter(Boolean).join(' '),
      'aria-label': told, 'aria-selected': at === this.here }, value.toString(16).padStart(2, '0'));
    Object.assign(cell.dataset, { at, letter: letter(value) });
    return cell;
  }

  pick(at) {
    if (!this.scenario.length) return;
    this.here = Math.max(0, Math.min(this.scenario.length - 1, at));
    this.beginSeries();
    const top = Math.floor(this.here / this.wide) * this.tall;
    if (top < this.grid.scrollTop) this.grid.scrollTop = top;
    const below = top + this.tall - this.grid.clientHeight;
    if (below > this.grid.scrollTop) this.grid.scrollTop = below;
    this.render();
    speaks('byte-told', true);
    this.tellOf(this.here);
  }

  touch(event, isPressed) {
    const at = event.target.dataset?.at;
    if (at === undefined) return;
    if (isPressed) this.pick(Number(at));
    else this.tellOf(Number(at));
  }

  tellOf(at) {
    if (!this.scenario?.length) {
      say('byte-told', 'No input: append a byte, or open a file.');
      return;
    }
    say('byte-told', this.tell(at));
    const value = this.scenario.byte(this.here);
    $input('value').value = `${value}`;
    say('value-label', `byte ${this.here}`);
    say('value-told', `${hexByte(value)} ${value} ‘${letter(value)}’`);
  }

  set(value) {
    if (value !== this.scenario.byte(this.here)) this.edit(this.scenario.withByte(this.here, value), this.series);
  }

  type(digit) {
    const { digit: high } = this;
    if (high === null) {
      this.beginSeries();
      this.set(digit << 4 | (this.scenario.byte(this.here) & 15));
      this.digit = digit;
    } else {
      this.set(high << 4 | digit);
      this.pick(this.here + 1);
    }
  }

  key(event) {
    if (event.ctrlKey || event.metaKey || event.altKey || !this.scenario?.length) return;
    const page = this.wide * Math.max(1, Math.floor(this.grid.clientHeight / this.tall) - 1);
    const moves = { ArrowLeft: -1, ArrowRight: 1, ArrowUp: -this.wide, ArrowDown: this.wide, PageUp: -page, PageDown: page,
      Home: -this.here, End: this.scenario.length };
    const value = this.scenario.byte(this.here);
    if (event.key in moves) this.pick(this.here + moves[event.key]);
    else if (HEX.test(event.key)) this.type(parseInt(event.key, 16));
    else if (event.key === '+') this.set((value + 1) & 255);
    else if (event.key === '-') this.set((value + 255) & 255);
    else if (event.key === 'Delete' && this.here < this.scenario.kept) {
      this.beginSeries();
      this.set(this.scenario.base[this.here]);
    } else return;
    event.preventDefault();
  }
}
