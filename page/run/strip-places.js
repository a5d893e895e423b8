// Places of the strip: a cell of a row, or a mark above the rows. Each is of a run and at a step, and leads to those beside it.
import { firstAfter } from './calls.js';
import { LANES } from './strip-drawing.js';

const REACH = 6;  // pixels beside a mark at which it is met

const indexFrom = (marks, step) => firstAfter(marks, step - 1, (it) => it.step);
const between = (marks, from, to) => marks.slice(indexFrom(marks, from), indexFrom(marks, to));

// Those of some marks from one step on and below another one.
export const marksBetween = (marks, from, to) => between(marks, Math.floor(from), Math.ceil(to));

export class Place {
  run;
  index;
  row;
  step;
  mark;
  more = 0;

  // A place of a run, by its index among those that are shown: a step of a row, or a mark, above the rows.
  constructor(run, index, row, step, mark = null) {
    this.run = run;
    this.index = index;
    this.row = row;
    this.step = step;
    this.mark = mark;
  }

  // What is at the steps of a pixel: a cell, first one that begins there, or the nearest mark, if it isn't far, first one of this lane.
  static at(run, index, row, lane, steps) {
    const [begin, end] = steps, far = REACH * (end - begin);
    const first = Math.max(0, Math.floor(begin)), last = Math.max(first + 1, Math.ceil(end)) - 1;
    if (row >= 0) return Place.inRow(run, index, row, [first, last]);
    const all = marksOf(run, begin - far, end + far), inLane = all.filter((it) => LANES[it.what] === lane);
    const near = inLane.length ? inLane : all, mark = nearest(near, first);
    return Object.assign(new Place(run, index, row, mark?.step ?? first, mark), { more: Math.max(0, near.length - 1) });
  }

  static inRow(run, index, row, [first, last]) {
    const place = new Place(run, index, row, first), calls = run.stretchAt(first)?.calls, begins = calls?.rows[row]?.begins;
    if (!begins) return place;
    const begun = firstAfter(begins, first - 1), end = firstAfter(begins, last);  // those from `begun` on, up to `end`, begin there
    if (begun < end) place.step = begins[begun];
    place.more = Math.max(0, end - calls.indexAt(row, first) - 2);
    return place;
  }

  // The deepest cell at a step.
  static deepest(run, index, step) {
    const calls = run.stretchAt(step)?.calls;
    for (let row = calls ? calls.deepest : 0; row > 0; row--) if (calls.cellAt(row, step)) return new Place(run, index, row, step);
    return new Place(run, index, 0, step);
  }

  // The same place of a run that may be another one by now.
  on(run, index) { return run === this.run ? this : new Place(run, index, this.row, this.step); }

  get stretch() { return this.run.stretchAt(this.step); }

  // The cell, null where none is: as much of it as the stretch has.
  get cell() { return this.row < 0 ? null : this.stretch?.calls.cellAt(this.row, this.step) ?? null; }

  // The step to go to: that of a mark, or of a place within a cell.
  get chosen() { return this.mark ? this.mark.step : this.step; }

  // The place that a key leads to, null where there is none.
  moved(how, runs) {
    if (how === 'above' || how === 'below') return how === 'above' ? this.above(runs) : this.below(runs);
    return this.row < 0 ? this.otherMark(how) : this.otherCell(how);
  }

  otherMark(how) {
    const all = marksOf(this.run, 0, Infinity), at = this.mark ? all.findIndex((it) => it === this.mark) : -1;
    const index = { first: 0, last: all.length - 1, before: at - 1, after: at + 1 }[how], mark = all[index];
    return mark ? new Place(this.run, this.index, -1, mark.step, mark) : null;
  }

  otherCell(how) {
    const { run, row, cell } = this;
    const step = { first: 0, last: run.last, before: cell?.begin ?? this.step, after: cell?.end ?? this.step + 1 }[how];
    const found = how === 'first' || how === 'after' ? nextCell(run, row, step) : cellBefore(run, row, step);
    return found === null ? null : new Place(run, this.index, row, found);
  }

  above(runs) {
    const { run, index, row, step } = this;
    if (row > 0) return this.inRow(row - 1);
    const mark = row === 0 ? nearest(marksOf(run, 0, Infinity), step) : null;
    if (mark) return new Place(run, index, -1, mark.step, mark);
    return index > 0 ? Place.deepest(runs[index - 1], index - 1, Math.min(step, runs[index - 1].last - 1)) : null;
  }

  // The first cell within this one, or the marks of the next run.
  below(runs) {
    const { run, index, row, step, cell } = this;
    const within = row < run.deepest ? nextCell(run, row + 1, step) : null;
    if (within !== null && (row < 0 || !cell || within < cell.end)) return new Place(run, index, row + 1, within);
    const other = runs[index + 1];
    if (!other) return null;
    const mark = nearest(marksOf(other, 0, Infinity), step);
    return mark ? new Place(other, index + 1, -1, mark.step, mark) : new Place(other, index + 1, 0, Math.min(step, other.last - 1));
  }

  // The cell of another row at this step, or the nearest one.
  inRow(row) {
    if (this.run.stretchAt(this.step)?.calls.cellAt(row, this.step)) return new Place(this.run, this.index, row, this.step);
    const found = cellBefore(this.run, row, this.step + 1) ?? nextCell(this.run, row, this.step);
    return found === null ? null : new Place(this.run, this.index, row, found);
  }
}

// Marks and errors between two steps, in the order of their steps.
function marksOf(run, from, to) {
  return [...between(run.marks, from, to), ...between(run.errors, from, to)].sort((a, b) => a.step - b.step);
}

function nearest(marks, step) {
  return marks.reduce((best, it) => (best && Math.abs(best.step - step) <= Math.abs(it.step - step) ? best : it), null);
}

// The first step from one on at which a row has a cell, null where there is none.
function nextCell(run, row, step) {
  for (const { from, to, calls } of run.stretches) {
    if (to <= step || !calls.rows[row]) continue;
    const first = Math.max(step, from), cell = calls.cell(row, calls.indexAt(row, first));
    if (cell && Math.max(cell.begin, first) < Math.min(to, cell.end)) return Math.max(cell.begin, first);
  }
  return null;
}

// Where the last cell of a row begins that has a step before one, null where there is none.
function cellBefore(run, row, step) {
  for (const { from, to, calls } of [...run.stretches].reverse()) {
    if (from >= step || !calls.rows[row]) continue;
    const last = Math.min(step, to) - 1, at = calls.indexAt(row, last), found = calls.cell(row, at);
    const cell = found && found.begin <= last ? found : calls.cell(row, at - 1);
    if (cell && cell.end > from) return Math.max(cell.begin, from);
  }
  return null;
}
