// The run in time: a row for each depth of calls, a cell from a call to its return, marks of what happens. Beside an edited run there is
// the unedited one, on the same steps.
import { $, $canvas, element, say } from '../common/dom.js';
import { many } from '../common/numbers.js';
import { Session } from '../engine/sessions.js';
import { Names } from './calls.js';
import { partingOf } from './events.js';
import { LANE, ROW, StripDrawing, heightOf, topOf } from './strip-drawing.js';
import { Hands } from './strip-hands.js';
import { Place, marksBetween } from './strip-places.js';
import { KINDS, howTold, partingTold, placeTold } from './strip-words.js';
import { Timeline, partingOfSamples } from './timeline.js';
import { View } from './view.js';

const MOST_ROWS = [12, 7], LEAST_ROWS = 3;  // rows of one run, and of each of two
const ZOOM = 2, PAGE = 0.8;  // what a key or a button zooms by; the part of the steps in view by which a key pages
const LOOK_AFTER = 150;  // milliseconds after which a stretch that comes into view is read
const HINT = matchMedia('(pointer: coarse)').matches
  ? 'Tap a call or a mark: it is named, and its step is shown. Two fingers zoom, one moves.'
  : 'Point, or press arrow keys; a click or Enter goes to the step. Ctrl and the wheel zoom, a drag moves.';
const NAMES = ['unedited', 'edited'];
const DARK = matchMedia('(prefers-color-scheme: dark)');

export class Strip {
  choose;
  explain;
  known;
  drew;
  canvas = $canvas('strip');
  view = new View();
  sessions = [];
  top = 0;
  rows = LEAST_ROWS;
  step = 0;
  /** @type {StripDrawing} */ drawing;
  /** @type {Hands} */ hands;
  /** @type {?Timeline} */ plain;
  /** @type {?Timeline} */ edited;
  /** @type {?Timeline} */ next;
  /** @type {?Place} */ here;
  parting;
  opened;
  /** @type {Names} */ names;
  scenario;
  drawn;
  keyShown;
  timer;

  // `choose` takes the step that is chosen; `explain` says a fault in words; `known` is called when all of a run was read,
  // and `drew` when other steps may be in view.
  constructor({ choose, explain, known, drew }) {
    this.choose = choose;
    this.explain = explain;
    this.known = known;
    this.drew = drew;
    this.drawing = new StripDrawing(this.canvas);
    this.hands = new Hands(this.canvas, { pan: (x, y) => this.pan(x, y), zoom: (times, x) => this.zoom(times, this.stepAt(x)),
      point: (x, y) => this.point(x, y), choose: (x, y) => this.click(x, y), leave: () => this.tell(this.here) });
    this.canvas.addEventListener('keydown', (event) => this.key(event));
    this.canvas.addEventListener('focus', () => this.focused());
    this.canvas.addEventListener('blur', () => this.draw());
    $('strip-all').addEventListener('click', () => this.all());
    $('strip-in').addEventListener('click', () => this.zoom(1 / ZOOM));
    $('strip-out').addEventListener('click', () => this.zoom(ZOOM));
    new ResizeObserver(() => this.draw()).observe(this.canvas);
    DARK.addEventListener('change', () => this.draw());
    this.clear();
  }

  clear() {
    clearTimeout(this.timer);
    for (const it of [this.plain, this.edited, this.next]) it?.leave();
    this.plain = null;
    this.edited = null;
    this.next = null;
    this.here = null;
    this.parting = undefined;
    this.opened = null;
    this.top = 0;
    this.rows = LEAST_ROWS;
    say('strip-told', HINT);
    say('strip-how', '');
  }

  // ---- what is shown

  open(opened) {
    this.close();
    this.opened = opened;
    this.names = new Names(opened.elf);
    this.sessions = [0, 1].map(() => new Session(opened.program));
    this.view = new View(opened.last);
    this.draw();
  }

  close() {
    for (const it of this.sessions) it.close();
    this.sessions = [];
    this.clear();
  }

  // The runs that are drawn, the unedited one first.
  get runs() { return [this.plain, this.edited].filter((it) => it?.isBegun); }

  // Shows a scenario's run of so many steps, beside the unedited one if it has edits.
  show(scenario, last) {
    this.plain ??= this.begin(0, this.opened.plain, this.opened.last);
    this.follow(scenario);
    const isThere = [this.next, this.edited].some((it) => it?.scenario === scenario);
    if (scenario.lines.length && !isThere) this.next = this.begin(1, scenario, last);
  }

  // The steps of a scenario's run that write, and how many bytes each writes; null where not all are known.
  writesOf(scenario) {
    const isEdited = scenario.lines.length > 0;
    const found = isEdited ? [this.edited, this.next].find((it) => it?.scenario === scenario) : this.plain;
    if (found?.knownTo !== Infinity) return null;
    return found.events.filter((it) => it.what === 'output').map(({ step, count }) => ({ step, count }));
  }

  // Another scenario is wanted: other runs are read no further, and what is shown looks stale until its run is read. Without edits only
  // the unedited run is left.
  follow(scenario) {
    const { next, edited } = this, isEdited = scenario.lines.length > 0, isWanted = (it) => isEdited && it.scenario === scenario;
    if (next && !isWanted(next)) {
      next.leave();
      this.next = null;
    }
    if (edited && !isWanted(edited)) edited.leave();
    else if (edited?.isRead) edited.isWanted = true;
    else if (edited && !edited.isWanted) this.next ??= this.begin(1, scenario, edited.last);
    if (!isEdited) this.edited = null;
    this.scenario = scenario;
    this.changed();
  }

  begin(index, scenario, last) {
    const { names, sessions } = this, look = (...it) => sessions[index].replies(...it);
    const made = new Timeline({ look, scenario, last, names, changed: () => this.more(made) });
    made.read().then(() => {
      this.moved();
      this.known();
    });
    return made;
  }

  // More of a run is known.
  more(timeline) {
    if (timeline === this.next && (timeline.isBegun || timeline.fault)) {
      this.edited?.leave();
      this.edited = timeline;
      this.next = null;
    }
    this.changed();
  }

  // What is shown has changed.
  changed() {
    this.parting = undefined;
    this.draw();
  }

  // Draws what is known, once before the next picture of the screen.
  draw() { this.drawn ??= requestAnimationFrame(() => this.renew()); }

  renew() {
    this.drawn = null;
    const { runs } = this, last = Math.max(1, ...runs.map((it) => it.last));
    if (runs.length && last !== this.view.last) this.view.resize(last);
    if (this.parting === undefined) {
      this.part();
      this.showKey();
    }
    $('strip-frame').classList.toggle('stale', this.isStale);
    say('strip-how', this.told);
    this.drawNow();
    if (document.activeElement === this.canvas) this.tell(this.here);
  }

  get isStale() { return Boolean(this.scenario?.lines.length) && this.edited?.scenario !== this.scenario; }

  // Finds where two runs part.
  part() {
    const [one, other] = this.runs, exact = other ? partingOf(one, other) : null;
    this.parting = other ? { step: exact ?? partingOfSamples(one, other), isExact: exact !== null } : null;
  }

  // How much of the runs is known, and where they part.
  get told() {
    const { plain, edited, runs } = this, each = [plain, edited].filter(Boolean).map((it) => howTold(it, this.view, this.explain));
    const [one, other] = each, both = one === other ? [one] : each.map((it, i) => `${NAMES[i]}: ${it}`);
    const parting = runs.length > 1 ? partingTold(...runs, this.parting) : '';
    return [...(edited ? both : each), this.next ? 'reading the edited run' : '', parting, this.rowsTold()].filter(Boolean).join('; ');
  }

  rowsTold() {
    const { deepest } = this, first = Math.round(this.top);
    return deepest < this.rows ? '' : `depths ${first} to ${first + this.rows - 1} of 0 to ${deepest}`;
  }

  get deepest() { return Math.max(0, ...this.runs.map((it) => it.deepest)); }

  // The kinds of marks that there are, and how many of each.
  showKey() {
    const marks = this.runs.at(-1) ? [...this.runs.at(-1).marks, ...this.runs.at(-1).errors] : [];
    const counts = new Map();
    for (const { what } of marks) counts.set(what, (counts.get(what) ?? 0) + 1);
    const rows = Object.entries(KINDS).filter(([kind]) => counts.has(kind))
      .map(([kind, [one, more]]) => [kind, many(counts.get(kind), one, more)]);
    const key = rows.join();
    if (key === this.keyShown) return;
    this.keyShown = key;
    $('strip-key').replaceChildren(...rows.map(([kind, told]) => element('li', {}, element('span', { className: `mark ${kind}` }), told)));
  }

  // The step that is chosen comes into view.
  at(step) {
    if (step === this.step) return;
    this.step = step;
    this.view.reach(step);
    this.draw();
  }

  // ---- drawing

  drawNow() {
    const { runs, view, drawing, canvas } = this, count = Math.max(1, runs.length);
    const isRead = [this.plain, this.edited, this.next].every((it) => !it || it.isRead || it.fault);
    const wanted = Math.max(LEAST_ROWS, Math.min(MOST_ROWS[count - 1], this.deepest + 1));
    this.rows = isRead ? wanted : Math.min(MOST_ROWS[count - 1], Math.max(wanted, this.rows));
    this.top = Math.max(0, Math.min(this.deepest + 1 - this.rows, this.top));
    const tall = heightOf(count, this.rows);
    if (canvas.style.height !== `${tall}px`) canvas.style.height = `${tall}px`;
    const wide = canvas.getBoundingClientRect().width;
    drawing.begin({ wide, tall, view, rows: this.rows, top: Math.round(this.top), isDark: DARK.matches });
    runs.forEach((it, i) => drawing.run(i, it, count > 1 ? NAMES[i] : ''));
    drawing.axis();
    if (this.parting && this.parting.step !== null) drawing.line(this.parting.step, 'open', [5, 3]);
    if (runs.length) drawing.line(Math.min(this.step, view.last), 'pick', []);
    if (document.activeElement === canvas && this.here) this.ring();
    this.drew();
  }

  ring() {
    const { here, drawing } = this, cell = here.cell;
    if (here.mark) drawing.ring(here.index, -1, here.mark.step, here.mark.step + 1);
    else if (cell) drawing.ring(here.index, here.row, cell.begin, cell.end);
  }

  // ---- zoom and pan

  stepAt(x) { return this.drawing.step(x); }

  // Shows so many times as many steps; what has the focus stays where it is, or the step that is chosen, if it is in view.
  zoom(times, at = null) {
    const { view } = this, isIn = (it) => it >= view.from && it <= view.to;
    const middle = (view.from + view.to) / 2, here = document.activeElement === this.canvas ? this.here?.step : null;
    view.zoom(times, at ?? [here ?? middle, this.step, middle].find(isIn));
    this.moved();
  }

  all() {
    this.view.all();
    this.moved();
  }

  // Moves what is shown by pixels.
  pan(x, y = 0) {
    this.view.pan(x / this.drawing.wide * this.view.wide);
    this.top = Math.max(0, Math.min(this.deepest + 1 - this.rows, this.top + y / ROW));
    this.moved();
  }

  // Something else came into view: it is read, if it can be, and nothing else comes.
  moved() {
    this.draw();
    clearTimeout(this.timer);
    this.timer = setTimeout(() => this.lookCloser(), LOOK_AFTER);
  }

  lookCloser() {
    const { from, to } = this.view;
    for (const it of this.runs) {
      it.look(from, to);
      it.kinds(marksBetween(it.marks, from, to));
    }
  }

  // ---- pointing

  // What is at a place of the canvas: a run, its row, and the steps of a pixel.
  placeAt(x, y) {
    const { runs, rows } = this, index = Math.max(0, runs.findIndex((_, i) => i + 1 === runs.length || y < topOf(i + 1, rows)));
    const below = y - topOf(index, rows) - LANE, lane = below < -LANE / 2 ? 0 : 1;
    const row = below < 0 ? -1 : Math.min(rows - 1, Math.floor(below / ROW)) + Math.round(this.top);
    const pixel = Math.floor(x), steps = [pixel, pixel + 1].map((it) => this.stepAt(it));
    return runs[index] ? Place.at(runs[index], index, row, lane, steps) : null;
  }

  point(x, y) { this.tell(this.placeAt(x, y)); }

  click(x, y) {
    const place = this.placeAt(x, y);
    if (!place) return;
    this.here = place;
    this.tell(place);
    this.choose(place.chosen);
    this.draw();
  }

  // Says what is at a place, and of which run where there are two.
  tell(place) {
    const told = place && placeTold(place);
    say('strip-told', told ? (this.runs.length > 1 ? `${NAMES[place.index]}: ` : '') + told : HINT);
  }

  // ---- keys

  focused() {
    this.here ??= this.first;
    this.tell(this.here);
    this.draw();
  }

  // Where the focus is first: in the function of the run that is shown at the step that is chosen.
  get first() {
    const { runs } = this, run = runs.at(-1);
    return run ? Place.deepest(run, runs.length - 1, Math.max(0, Math.min(this.step, run.last - 1))) : null;
  }

  key(event) {
    if (event.ctrlKey || event.metaKey || event.altKey || !this.runs.length) return;
    const does = this.keys[event.key];
    if (!does) return;
    this.here ??= this.first;
    does();
    event.preventDefault();
  }

  get keys() {
    const page = (by) => () => this.pan(by * PAGE * this.drawing.wide), to = (how) => () => this.move(how);
    const choose = () => this.choose(this.here.chosen), into = () => this.zoom(1 / ZOOM), out = () => this.zoom(ZOOM);
    return { ArrowLeft: to('before'), ArrowRight: to('after'), ArrowUp: to('above'), ArrowDown: to('below'),
      Home: to('first'), End: to('last'), PageUp: page(-1), PageDown: page(1), Enter: choose, ' ': choose,
      '+': into, '=': into, '-': out, 0: () => this.all() };
  }

  // Moves the focus: along a row, or to the row or the run above or below.
  move(how) {
    const index = Math.min(this.here.index, this.runs.length - 1);
    const found = this.here.on(this.runs[index], index).moved(how, this.runs);
    if (!found) return;
    this.here = found;
    this.view.reach(found.step);
    if (found.row >= 0) this.top = Math.min(found.row, Math.max(found.row + 1 - this.rows, this.top));
    this.tell(found);
    this.moved();
  }
}
