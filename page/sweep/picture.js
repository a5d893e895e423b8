// The picture of a sweep: a column for each place, or for several where they are many, a row for each value, a colour for each kind of
// outcome. Its columns are below the bytes, if these are in one row; those of steps are above the strip, where their steps are.
import { $, $canvas, isTouch, say, speaksAt } from '../common/dom.js';
import { hexByte, hexWord, hexadecimal, many } from '../common/numbers.js';
import { rowAt, rowNames, rowsOf } from './alterations.js';
import { colourOf, hatch, inkOn } from './colours.js';
import { upTo } from './counting.js';
import { Legend } from './legend.js';
import { Lens } from './lens.js';
import { Outcomes } from './outcomes.js';
import { indexOf, lengthAt, lineOf as lineOfEdit, placeAt, placesOf, valuesOf } from './sweeping.js';

const MOST_COLUMNS = 1000, LEAST_MARK = 3;
const MOST_CELLS = 250000;  // of a picture of steps, whose columns are as wide as the strip has them
const LOW = 26, TALL = 130;  // pixels of such a picture of one row, and of several
const REACH = 4;  // pixels from a pointer to a cell of it
const EDGES = [0, 1, 0x7f, 0x80, 0xff];
const EDGE_NAMES = ['0', '1', '0x7f', '0x80', '0xff', '+1', '−1'];
const DRAW_EVERY = 150;  // milliseconds
const MOST_TOLD = 3;
const LEFT = 46, BELOW = 18;  // pixels beside and below the cells, for what the axes say
const FAINT = 0.18;  // how much is left of an outcome's colour while one points at another one
const LEAST_LABEL = 11;  // pixels of a cell that has room for a number
const RING = 9;  // pixels of a ring at least
const LEAST_APART = 90;  // pixels between two places that are named
const DARK = matchMedia('(prefers-color-scheme: dark)');

const within = (at, count) => Math.max(0, Math.min(count - 1, at));

export class Picture {
  make;
  otherRun;
  ends;
  pointed;
  links;
  chosen;
  drawing = null;
  axis;
  canvas = $canvas('picture');
  /** @type {Legend} */ legend;
  /** @type {Lens} */ lens;
  swept;
  cells;
  here;
  timer;
  before;
  count;
  rows;
  columns;
  taken;
  /** @type {Outcomes} */ outcomes;
  looks;
  hatches;

  // `make` makes an edit: a kind, a place and a value; `otherRun` tells which run the picture is of, where another one is shown; `chosen`
  // gives the edits that stand, of each its place and its value, which are ringed; `ends` gives where the bytes begin and end, in pixels
  // from the left, if there is this number of them and they are in one row; `pointed` takes the byte that one points at, and `links` the
  // address of the worst new error of the outcome that one points at, null for none. `axis` tells where the strip has a step, in pixels
  // from the left, and which step is there.
  constructor({ make, otherRun, chosen, ends, pointed, links, axis }) {
    this.make = make;
    this.otherRun = otherRun;
    this.ends = ends;
    this.pointed = pointed;
    this.links = links;
    this.chosen = chosen;
    this.axis = axis;
    this.legend = new Legend({ make, changed: () => this.draw(), links: (number) => this.link(number) });
    this.canvas.addEventListener('pointermove', (event) => this.point(event));
    this.canvas.addEventListener('click', (event) => {
      this.point(event);
      if (!isTouch(event)) this.choose();
    });
    this.lens = new Lens(this);
    $('picture-make').addEventListener('click', () => this.choose());
    this.canvas.addEventListener('keydown', (event) => this.key(event));
    for (const it of ['pointerleave', 'blur']) this.canvas.addEventListener(it, () => { this.pointed(null); this.link(null); });
    for (const it of ['focus', 'blur']) this.canvas.addEventListener(it, () => this.draw());
    speaksAt('picture-told', this.canvas);
    new ResizeObserver(() => this.draw()).observe(this.canvas);
    DARK.addEventListener('change', () => this.show());
    this.clear();
  }

  clear() {
    clearTimeout(this.timer);
    this.swept = null;
    this.cells = [];
    this.here = { column: 0, row: 0 };
    this.timer = null;
    this.legend.clear();
    say('picture-told', '');
    $('picture-parts').hidden = $('picture-make').hidden = true;
  }

  // Begins with a sweep. `before` gives the value at a place of the run that is swept; `goal` is the text of a goal, or empty.
  begin(swept, before, lineOf, goal) {
    this.clear();
    const { kind, values } = swept.asked, count = placesOf(swept.asked);
    const rows = kind === 'steps' ? rowsOf(values) : values === 'all' ? 256 : valuesOf(swept.asked);
    this.swept = swept;
    this.before = before;
    this.count = count;
    this.rows = rows;
    this.columns = Math.min(count, kind === 'steps' ? Math.floor(MOST_CELLS / rows) : MOST_COLUMNS);
    this.taken = new Map();
    this.outcomes = new Outcomes(swept, lineOf, goal);
    this.empty();
    $('picture-parts').hidden = false;
    this.settle();
  }

  // Puts the picture where its columns belong.
  settle() {
    const home = $(this.isOfSteps ? 'strip-picture' : 'picture-home');
    if ($('picture-parts').parentElement !== home) home.append($('picture-parts'));
    this.canvas.style.height = this.isOfSteps ? `${this.rows > 1 ? TALL : LOW}px` : '';
  }

  // The strip shows other steps.
  followStrip() { if (this.swept && this.isOfSteps) this.redraw(); }

  empty() {
    this.taken.clear();
    this.cells = Array.from({ length: this.columns * this.rows }, () => null);
  }

  // Shows the same edits with another goal.
  seek(goal) {
    this.outcomes.goal = goal;
    this.empty();
    this.more(true);
  }

  get isDark() { return DARK.matches; }

  get isOfBytes() { return this.swept.asked.kind === 'bytes'; }
  get isOfSteps() { return this.swept.asked.kind === 'steps'; }

  rowOf(at, value) {
    const { values } = this.swept.asked;
    if (this.isOfSteps) return rowAt(values, value);
    if (values === 'all') return value;
    if (values === 'skip') return 0;
    if (values === 'flips') return 31 - Math.clz32((value ^ this.before(at)) >>> 0);
    const edge = EDGES.indexOf(value);
    return edge >= 0 ? edge : value === ((this.before(at) + 1) & 255) ? 5 : 6;
  }

  columnOf(at) {
    return Math.floor(indexOf(this.swept.asked, at) * this.columns / this.count);
  }

  // Takes what the sweep has more of, and draws it a moment later, at the end at once.
  more(isLast = false) {
    for (const [at, { values, outcomes }] of this.swept.places) {
      const taken = this.taken.get(at) ?? 0;
      if (taken === values.length) continue;
      for (let i = taken; i < values.length; i++) this.take(at, values[i], outcomes[i]);
      this.taken.set(at, values.length);
    }
    if (isLast) this.show();
    else this.timer ??= setTimeout(() => this.show(), DRAW_EVERY);
  }

  take(at, value, number) {
    const index = this.columnOf(at) * this.rows + this.rowOf(at, value), was = this.cells[index];
    if (!was || this.outcomes.badness(number) > this.outcomes.badness(was.number)) this.cells[index] = { at, value, number };
  }

  // ---- drawing

  show() {
    clearTimeout(this.timer);
    this.timer = null;
    if (!this.swept?.outcomes.length) return;
    this.draw();
    this.legend.show(this.outcomes, this.looks);
    this.tell();
  }

  // Draws it once before the next picture of the screen.
  redraw() {
    this.drawing ??= requestAnimationFrame(() => {
      this.drawing = null;
      this.draw();
    });
  }

  draw() {
    const scale = devicePixelRatio || 1, box = this.canvas.getBoundingClientRect();
    this.canvas.width = Math.max(1, Math.round(box.width * scale));
    this.canvas.height = Math.max(1, Math.round(box.height * scale));
    if (!this.swept?.outcomes.length) return;
    const on = this.canvas.getContext('2d'), fresh = [], isDark = DARK.matches;
    this.looks = this.outcomes.looks(isDark);
    this.hatches = new Map();
    this.cells.forEach((cell, index) => {
      if (!cell || this.legend.hidden.has(cell.number)) return;
      if (this.outcomes.isMarked(cell.number)) fresh.push([cell, index]);
      else this.fill(on, cell, index, 0);
    });
    for (const [cell, index] of fresh) this.fill(on, cell, index, LEAST_MARK * scale);
    on.globalAlpha = 1;
    this.axes(on, scale);
    this.rings(on, scale);
    this.outline(on, scale);
    this.lens.draw();
  }

  // Where the cells are, in pixels of the canvas: below the bytes, if these are in one row and each has a column.
  get field() {
    const scale = devicePixelRatio || 1;
    if (this.isOfSteps) return { left: 0, wide: this.canvas.width, tall: this.canvas.height };
    const isWhole = this.isOfBytes && this.columns === this.count;
    const [left, right] = (isWhole && this.ends(this.count)) || [LEFT, this.canvas.width / scale];
    return { left: left * scale, wide: (right - left) * scale, tall: this.canvas.height - BELOW * scale };
  }

  box(index) {
    const { left, wide, tall } = this.field, column = Math.floor(index / this.rows), row = index % this.rows;
    const scale = devicePixelRatio || 1, ofStep = (it) => this.axis.x(this.firstOf(it)) * scale;
    const [x, right] = [column, column + 1].map(this.isOfSteps ? ofStep : (it) => left + it * wide / this.columns);
    const [y, below] = [row, row + 1].map((it) => it * tall / this.rows);
    return [x, y, right - x, below - y];
  }

  // The names of some values and places.
  axes(on, scale) {
    const { left, wide, tall } = this.field;
    on.font = `${11 * scale}px sans-serif`;
    on.fillStyle = getComputedStyle(this.canvas).color;
    on.textBaseline = 'middle';
    if (this.isOfSteps) {
      this.inside(on, scale);
      return;
    }
    on.textAlign = 'right';
    for (const [row, name] of this.rowNames()) {
      const y = (Number(row) + .5) * tall / this.rows;
      on.fillText(`${name}`, left - 5 * scale, Math.max(7 * scale, Math.min(tall - 5 * scale, y)), left - 6 * scale);
    }
    if (this.isOfBytes) on.fillText('byte', left - 5 * scale, tall + (BELOW + 2) * scale / 2, left - 6 * scale);
    on.textAlign = 'center';
    const each = Math.max(1, Math.ceil(LEAST_APART * scale * this.columns / wide));
    for (let column = 0; column < this.columns; column += each) {
      const x = Math.max(left + 12 * scale, left + (column + .5) * wide / this.columns), at = this.firstOf(column);
      const name = this.isOfBytes ? `${at}` : hexWord(at);
      on.fillText(name, Math.min(x, this.canvas.width - 30 * scale), tall + (BELOW + 2) * scale / 2);
    }
  }

  // The names of some values, over the cells at the left.
  inside(on, scale) {
    on.textAlign = 'left';
    for (const [row, name] of this.rowNames()) {
      const y = Math.max(8 * scale, Math.min(this.canvas.height - 7 * scale, (Number(row) + .5) * this.canvas.height / this.rows));
      const ink = on.fillStyle, { width } = on.measureText(`${name}`);
      on.fillStyle = colourOf('unedited', DARK.matches);
      on.fillRect(0, y - 7 * scale, width + 6 * scale, 14 * scale);
      on.fillStyle = ink;
      on.fillText(`${name}`, 3 * scale, y);
    }
  }

  rowNames() {
    const { values } = this.swept.asked;
    if (this.isOfSteps) return rowNames(values);
    if (values === 'all') return [0, 64, 128, 192, 255].map((it) => [it, hexByte(it)]);
    if (values === 'edges') return [...EDGE_NAMES.entries()];
    if (values === 'skip') return [[0, 'skip']];
    return (this.isOfBytes ? [0, 3, 7] : [0, 8, 16, 24, 31]).map((it) => [it, `bit ${it}`]);
  }

  // The first place of a column.
  firstOf(column) {
    return placeAt(this.swept.asked, Math.ceil(column * this.count / this.columns));
  }

  fill(on, cell, index, least) {
    let [x, y, wide, tall] = this.box(index);
    if (x + wide < 0 || x > this.canvas.width) return;
    if (wide < least) [x, wide] = [x - (least - wide) / 2, least];
    if (tall < least) [y, tall] = [y - (least - tall) / 2, least];
    const look = this.looks[cell.number], { pointed } = this.legend;
    on.globalAlpha = !pointed || pointed.includes(cell.number) ? 1 : FAINT;
    on.fillStyle = look.isHatched ? this.hatchOf(on, look.colour) : look.colour;
    on.fillRect(Math.floor(x), Math.floor(y), Math.ceil(wide), Math.ceil(tall));
    if (look.label) this.label(on, look, [x, y, wide, tall]);
  }

  hatchOf(on, colour) {
    if (!this.hatches.has(colour)) this.hatches.set(colour, hatch(on, colour, DARK.matches, devicePixelRatio || 1));
    return this.hatches.get(colour);
  }

  // The number of an outcome, if its cell has room for it.
  label(on, { colour, label }, [x, y, wide, tall]) {
    const size = LEAST_LABEL * (devicePixelRatio || 1);
    if (wide < size || tall < size) return;
    on.fillStyle = colour;
    on.fillRect(x + (wide - size) / 2, y + (tall - size) / 2, size, size);
    Object.assign(on, { font: `${size * .9}px sans-serif`, fillStyle: inkOn(colour), textAlign: 'center', textBaseline: 'middle' });
    on.fillText(label, x + wide / 2, y + tall / 2);
  }

  // A ring around the cell of each edit that stands.
  rings(on, scale) {
    const [ink, ground] = DARK.matches ? ['#ffffff', '#000000'] : ['#000000', '#ffffff'];
    for (const [at, value] of this.chosen()) {
      const index = this.columnOf(at) * this.rows + this.rowOf(at, value), cell = this.cells[index];
      if (cell?.at !== at || cell.value !== value) continue;
      const [x, y, wide, tall] = this.box(index), [w, t] = [wide, tall].map((it) => Math.max(it, RING * scale));
      for (const { colour, thick } of [{ colour: ground, thick: 4 }, { colour: ink, thick: 2 }]) {
        Object.assign(on, { strokeStyle: colour, lineWidth: thick * scale });
        on.strokeRect(x + (wide - w) / 2, Math.max(scale, y + (tall - t) / 2), w, t);
      }
    }
  }

  outline(on, scale) {
    if (document.activeElement !== this.canvas) return;
    const [x, y, wide, tall] = this.box(this.here.column * this.rows + this.here.row);
    on.lineWidth = 2 * scale;
    on.strokeStyle = DARK.matches ? '#ffffff' : '#000000';
    on.strokeRect(x - 2 * scale, y - 2 * scale, wide + 4 * scale, tall + 4 * scale);
  }

  // ---- what is told

  get cell() { return this.cells[this.here.column * this.rows + this.here.row]; }

  tell() {
    if (!this.swept?.outcomes.length) return undefined;
    const { cell } = this, { asked } = this.swept;
    if (!cell) {
      const { column, row } = this.here;
      if (this.isOwn) return say('picture-told', `byte ${column + asked.first} has this value, ${hexByte(row)}, itself`);
      const columns = this.isOfBytes ? 'bytes of the input' : this.isOfSteps ? 'steps of the run'
        : asked.code ? 'instructions of the function' : 'words of the function';
      return say('picture-told', `Columns: ${columns}. Rows: values. Point, or press arrow keys; a click or Enter makes the edit.`);
    }
    const shares = this.count > this.columns ? ', the worst of its column' : '';
    const other = this.otherRun(), label = this.looks?.[cell.number]?.label;
    say('picture-told', `${other}${this.editTold(cell, other ? 'there' : 'now')}${shares}: ${label ? `(${label}) ` : ''}${
      this.outcomes.told(cell.number, true)}`);
    say('picture-make', lineOfEdit(asked, cell.at, cell.value));
    return undefined;
  }

  // The edit of a cell in words; `now` says where the value before it is.
  editTold({ at, value }, now) {
    const { asked } = this.swept;
    if (this.isOfSteps) return lineOfEdit(asked, at, value);
    const name = this.isOfBytes ? hexByte : (it) => hexadecimal(it, 2 * lengthAt(asked, at));
    return `${this.isOfBytes ? `byte ${at}` : hexWord(at)} as ${name(value)} (${now} ${name(this.before(at))})`;
  }

  // Whether the place that one points at is the value that a byte has.
  get isOwn() {
    const { asked, places } = this.swept, at = asked.first + this.here.column;
    return this.isOfBytes && asked.values === 'all' && this.columns === this.count && places.has(at) && this.before(at) === this.here.row;
  }

  // What the sweep said of a byte's values, in few words.
  saidOf(at) {
    const place = this.swept && this.isOfBytes ? this.swept.places.get(at) : null;
    if (!place) return '';
    const counts = new Map();
    for (const number of place.outcomes) counts.set(number, (counts.get(number) ?? 0) + 1);
    const fresh = [...counts].filter(([number]) => this.outcomes.at(number).isNew);
    fresh.sort(([a], [b]) => this.outcomes.at(b).bad - this.outcomes.at(a).bad);
    const told = fresh.slice(0, MOST_TOLD).map(([number, count]) => {
      const value = place.values[place.outcomes.indexOf(number)];
      return `${count} (${hexByte(value)} first): ${this.outcomes.at(number).fresh[0].told}`;
    });
    const other = place.values.length, same = counts.get(0) ?? 0, values = many(other, 'other value');
    const until = upTo(this.swept);
    if (same === other) return `None of ${values} changes anything${until}.`;
    const first = same ? `Of ${values}, ${same} change${same === 1 ? 's' : ''} nothing` : `Each of ${values} changes something`;
    return `${first}${until}; ${told.length ? `new by ${told.join(' · ')}` : 'none makes a new error'}.`;
  }

  // ---- pointing

  point(event) {
    if (!this.swept) return;
    const box = this.canvas.getBoundingClientRect(), scale = devicePixelRatio || 1, { left, wide, tall } = this.field;
    const part = (at, whole, count) => within(Math.floor(at * scale / whole * count), count);
    const row = part(event.clientY - box.top, tall, this.rows), x = event.clientX - box.left;
    const column = this.isOfSteps ? this.columnNear(x, row) : part(x - left / scale, wide, this.columns);
    this.here = { column, row };
    this.snap();
    this.tell();
    this.showByte();
  }

  // The column of a picture of steps at a place of the strip, or a near one that has a cell in a row.
  columnNear(x, row) {
    const { first, last } = this.swept.asked, at = (pixel) => Math.max(first, Math.min(last, Math.floor(this.axis.step(pixel))));
    const [from, here, to] = [x - REACH, x, x + REACH].map((pixel) => this.columnOf(at(pixel)));
    const hasCell = (column) => column >= from && column <= to && this.cells[column * this.rows + row];
    for (let far = 0; far <= to - from; far++) {
      if (hasCell(here - far)) return here - far;
      if (hasCell(here + far)) return here + far;
    }
    return here;
  }

  // The next column to a side; of a picture of steps the next one that has a cell.
  beside(column, row, by) {
    let next = within(column + by, this.columns);
    if (!this.isOfSteps || Math.abs(by) !== 1) return next;
    while (!this.cells[next * this.rows + row] && next > 0 && next < this.columns - 1) next += by;
    return this.cells[next * this.rows + row] ? next : column;
  }

  // Shows the byte that one points at.
  showByte() {
    if (this.isOfBytes) this.pointed(this.firstOf(this.here.column));
    this.link(this.cell ? this.cell.number : null);
  }

  // Marks where the worst new error of an outcome is, by its number.
  link(number) { this.links(number === null || !this.swept ? null : this.outcomes.at(number).address); }

  // Shows no other outcomes than those whose worst new error is at an address of which a test is true; all without one.
  pointOut(isThere) {
    const { outcomes, swept } = this, found = isThere && swept ? outcomes.numbers.filter((it) => {
      const { address } = outcomes.at(it);
      return address !== null && isThere(address);
    }) : [];
    this.legend.pointOut(found.length ? found : null);
  }

  // A new outcome is drawn larger than its cell, and so it is met beside it.
  snap() {
    if (this.cell && this.outcomes.isMarked(this.cell.number)) return;
    const { column, row } = this.here, least = LEAST_MARK * (devicePixelRatio || 1);
    for (const [x, y] of [[0, 1], [0, -1], [1, 0], [-1, 0]]) {
      const [c, r] = [column + x, row + y], index = c * this.rows + r;
      const cell = c >= 0 && c < this.columns && r >= 0 && r < this.rows && this.cells[index];
      const [, , wide, tall] = this.box(index);
      if (cell && this.outcomes.isMarked(cell.number) && (x ? wide : tall) < least) this.here = { column: c, row: r };
    }
  }

  key(event) {
    if (!this.swept) return;
    const moves = { ArrowLeft: [-1, 0], ArrowRight: [1, 0], ArrowUp: [0, -1], ArrowDown: [0, 1], PageUp: [0, -16],
      PageDown: [0, 16], Home: [-this.columns, 0], End: [this.columns, 0] };
    if (event.ctrlKey || event.metaKey || event.altKey) return;
    if (event.key === 'Enter' || event.key === ' ') this.choose();
    else if (event.key in moves) {
      const [x, y] = moves[event.key];
      const row = within(this.here.row + y, this.rows);
      this.here = { column: this.beside(this.here.column, row, x), row };
      this.draw();
      this.tell();
      this.showByte();
    } else return;
    event.preventDefault();
  }

  choose() {
    if (this.cell) this.make(this.swept.asked.kind, this.cell.at, this.cell.value);
  }
}
