// How the strip of a run is drawn: cells of calls, marks of what happens, the step that is chosen, and where two runs part.
import { grouped } from '../common/numbers.js';
import { toneOf } from '../sweep/colours.js';
import { firstAfter } from './calls.js';

export const LANE = 20;  // pixels of the marks of a run
export const ROW = 16;  // pixels of a row of calls
const AXIS = 17, BETWEEN = 8;  // pixels of the steps below, and between two runs
const LEAST_TEXT = 26, INSET = 4;  // pixels of a cell that has its name, and beside the name
const LONGEST = 200;  // letters of a name that are measured
const MARK = 9, TICK = 2;  // pixels of a mark, and of what is left of one that is close behind another one of its kind
const TICK_APART = 90;  // pixels between two steps that are named
const FONT = 'ui-monospace, "DejaVu Sans Mono", monospace';
const COLOURS = { ink: '--ink', quiet: '--quiet', soft: '--soft', line: '--line', pick: '--pick', part: '--part', open: '--open',
  input: '--read', output: '--good', heap: '--heap', alloc: '--heap', free: '--heap', resize: '--heap', error: '--error' };
// Which marks are over which, and in which of two lanes: what the heap does is in the lower one.
export const LANES = { heap: 1, free: 1, resize: 1, alloc: 1, output: 0, input: 0, error: 0 };

// Where the runs of a strip are, in pixels from the top, if each has so many rows.
export const topOf = (index, rows) => index * (LANE + rows * ROW + BETWEEN);
export const heightOf = (count, rows) => topOf(count, rows) - BETWEEN + AXIS;

// The shape of each kind of mark, around a middle.
const SHAPES = {
  input: (on, x, y, r) => polygon(on, [[x - r, y - r], [x + r, y - r], [x, y + r]]),
  error: (on, x, y, r) => polygon(on, [[x - r, y + r], [x + r, y + r], [x, y - r]]),
  output: (on, x, y, r) => {
    on.beginPath();
    on.arc(x, y, r, 0, 2 * Math.PI);
    on.fill();
  },
  alloc: (on, x, y, r) => on.fillRect(x - r, y - r, 2 * r, 2 * r),
  free: (on, x, y, r) => on.strokeRect(x - r + 1, y - r + 1, 2 * r - 2, 2 * r - 2),
  resize: (on, x, y, r) => {
    SHAPES.free(on, x, y, r);
    on.fillRect(x - r, y, 2 * r, r);
  },
  heap: (on, x, y, r) => on.fillRect(x - r, y - r / 3, 2 * r, 2 * r / 3),
};

function polygon(on, points) {
  on.beginPath();
  for (const point of points) on.lineTo(...point);
  on.closePath();
  on.fill();
}

// A step of a scale of steps: 1, 2 or 5 times a power of ten, of which each has so many pixels.
function tickOf(wide, pixels) {
  const least = Math.max(1, wide * TICK_APART / pixels), power = 10 ** Math.floor(Math.log10(least));
  return [1, 2, 5, 10].map((it) => it * power).find((it) => it >= least);
}

export class StripDrawing {
  canvas;
  on;
  fitted = new Map();
  tones = new Map();
  letter = 0;
  wide;
  tall;
  view;
  rows;
  top;
  isDark;
  scale;
  colours;

  constructor(canvas) {
    this.canvas = canvas;
    this.on = canvas.getContext('2d');
  }

  // Begins a drawing of this size in pixels, of the steps of a view and of some rows from the one at the top on.
  begin({ wide, tall, view, rows, top, isDark }) {
    const scale = devicePixelRatio || 1, { canvas, on } = this, style = getComputedStyle(canvas);
    if (isDark !== this.isDark) this.tones.clear();
    this.wide = wide;
    this.tall = tall;
    this.view = view;
    this.rows = rows;
    this.top = top;
    this.isDark = isDark;
    this.scale = scale;
    this.colours = Object.fromEntries(Object.entries(COLOURS).map(([name, it]) => [name, style.getPropertyValue(it)]));
    const size = [wide * scale, tall * scale].map(Math.round);
    if (canvas.width !== size[0] || canvas.height !== size[1]) [canvas.width, canvas.height] = size;
    on.setTransform(scale, 0, 0, scale, 0, 0);
    on.clearRect(0, 0, wide, tall);
    Object.assign(on, { textBaseline: 'middle', textAlign: 'left', direction: 'ltr', font: `11px ${FONT}` });
    this.letter = on.measureText('m').width;
  }

  x(step) { return (step - this.view.from) / this.view.wide * this.wide; }
  step(x) { return this.view.from + x / this.wide * this.view.wide; }

  // One run: its calls from a row on, and the marks above them.
  run(index, timeline, label) {
    const top = topOf(index, this.rows), { on, colours } = this;
    on.fillStyle = colours.soft;
    on.fillRect(0, top + LANE, this.wide, this.rows * ROW);
    for (const { from, to, calls } of timeline.stretches) {
      const [first, end] = [Math.max(from, this.view.from), Math.min(to, calls.until, this.view.to)];
      for (let row = this.top; first < end && row < Math.min(this.top + this.rows, calls.rows.length); row++) {
        this.row(timeline, calls, row, [first, end], top + LANE + (row - this.top) * ROW);
      }
    }
    if (label) this.label(label, top);
    this.marks(timeline, top);
  }

  // The cells of a row between two steps. Of those that share a pixel one is drawn.
  row(timeline, calls, row, [first, end], y) {
    const { begins, ends, codes, entries } = calls.rows[row], pixel = 1 / this.scale;
    for (let i = calls.indexAt(row, first); i < begins.length && begins[i] < end;) {
      const x = this.x(Math.max(begins[i], first)), right = this.x(Math.min(ends[i], end));
      this.cell(timeline.names.of({ code: codes[i], isEntry: entries[i] }), x, y, Math.max(pixel, right - x));
      i = right - x < pixel ? Math.max(i + 1, calls.indexAt(row, this.step(x + pixel))) : i + 1;
    }
  }

  cell(name, x, y, wide) {
    const { on } = this, gap = wide > 3 ? 1 : 0;
    if (!this.tones.has(name)) this.tones.set(name, toneOf(name, this.isDark));
    on.fillStyle = this.tones.get(name);
    on.fillRect(x, y, wide - gap, ROW - 1);
    if (wide < LEAST_TEXT) return;
    on.fillStyle = this.colours.ink;
    on.fillText(this.fitting(name, wide - 2 * INSET), x + INSET, y + ROW / 2, wide - 2 * INSET);
  }

  // A name, or as much of it as there is room for and an ellipsis.
  fitting(name, wide) {
    const most = Math.max(1, Math.floor(wide / this.letter)), key = `${most} ${name}`;
    if (this.fitted.size > 5000) this.fitted.clear();
    if (!this.fitted.has(key)) {
      const letters = [...name.slice(0, LONGEST)], isWhole = letters.length <= most && name.length <= LONGEST;
      this.fitted.set(key, isWhole ? name : `${letters.slice(0, most - 1).join('')}…`);
    }
    return this.fitted.get(key);
  }

  // The marks of a run: a shape for each, if it is beside the last one of its kind, else a tick.
  marks(timeline, top) {
    const { on, view } = this, last = {}, places = Object.fromEntries(Object.keys(LANES).map((it) => [it, []]));
    for (const all of [timeline.marks, timeline.errors]) {
      for (let i = firstAfter(all, view.from - 1, (it) => it.step); i < all.length && all[i].step <= view.to; i++) {
        const { what, step } = all[i], x = this.x(step + .5), isBeside = !(x - last[what] < MARK);
        if (isBeside) last[what] = x;
        if (isBeside || x - (places[what].at(-1)?.x ?? -TICK) >= TICK) places[what].push({ x, isBeside });
      }
    }
    for (const [kind, lane] of Object.entries(LANES)) {
      const y = top + (lane + .5) * LANE / 2;
      Object.assign(on, { fillStyle: this.colours[kind], strokeStyle: this.colours[kind], lineWidth: 2 });
      for (const { x, isBeside } of places[kind]) {
        if (isBeside) SHAPES[kind](on, x, y, MARK / 2);
        else on.fillRect(x - TICK / 2, y - TICK, TICK, 2 * TICK);
      }
    }
  }

  // What a run is called, below its marks.
  label(text, top) {
    const { on, colours } = this;
    Object.assign(on, { font: '11px system-ui, sans-serif', fillStyle: colours.quiet });
    on.fillText(text, 0, top + LANE / 2);
    on.font = `11px ${FONT}`;
  }

  axis() {
    const { on, colours, view, wide, tall } = this, tick = tickOf(view.wide, wide), y = tall - AXIS / 2 + 1;
    Object.assign(on, { fillStyle: colours.quiet, strokeStyle: colours.line, lineWidth: 1, textAlign: 'center' });
    for (let step = Math.ceil(view.from / tick) * tick; step <= view.to; step += tick) {
      const x = this.x(step), text = grouped(step), half = on.measureText(text).width / 2;
      on.fillRect(x, tall - AXIS, 1, 3);
      on.fillText(text, Math.max(half, Math.min(wide - half, x)), y + 2);
    }
    on.textAlign = 'left';
  }

  // A line at a step, over all runs; `dash` are pixels that are drawn and left out.
  line(step, colour, dash, thick = 2) {
    const { on, tall } = this, x = this.x(step);
    if (x < 0 || x > this.wide) return;
    Object.assign(on, { strokeStyle: this.colours[colour], lineWidth: thick });
    on.setLineDash(dash);
    on.beginPath();
    on.moveTo(x, 0);
    on.lineTo(x, tall - AXIS + 3);
    on.stroke();
    on.setLineDash([]);
  }

  // A ring around a part of a run: steps of a row, or of the marks above them.
  ring(index, row, begin, end) {
    const { on } = this, top = topOf(index, this.rows), y = row < 0 ? top : top + LANE + (row - this.top) * ROW;
    if (row >= this.top + this.rows || (row >= 0 && row < this.top)) return;
    const [x, right] = [Math.max(1, this.x(begin)), Math.min(this.wide - 1, this.x(end))];
    const wide = Math.max(MARK + 2, right - x), left = right - x < MARK + 2 ? (x + right - MARK - 2) / 2 : x;
    Object.assign(on, { strokeStyle: this.colours.ink, lineWidth: 2 });
    on.strokeRect(left, y + 1, wide, (row < 0 ? LANE : ROW) - 3);
  }
}
