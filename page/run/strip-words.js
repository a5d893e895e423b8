// What the strip says: of a cell or a mark that one points at, of how a run was read, and of where two runs part.
import { grouped, many } from '../common/numbers.js';
import { MOST_FRAMES } from './calls.js';
import { marksBetween } from './strip-places.js';

// Kinds of marks: what one is called, and what several are.
export const KINDS = { error: ['error', 'errors'], input: ['read of input', 'reads of input'], output: ['write', 'writes'],
  alloc: ['block allocated', 'blocks allocated'], free: ['block freed', 'blocks freed'], resize: ['block resized', 'blocks resized'],
  heap: ['call of the heap', 'calls of the heap'] };
const MOST_NAME = 120;  // letters of a name that are said

// Some steps, from the first to the last.
const stepsTold = (first, last) => (first === last ? `step ${grouped(first)}` : `steps ${grouped(first)} to ${grouped(last)}`);

const shortened = (name) => (name.length > MOST_NAME ? `${name.slice(0, MOST_NAME)}…` : name);

export function placeTold(place) {
  const { mark, cell, more } = place;
  if (place.row < 0) return mark ? `${markTold(mark)}${more ? `; ${more} more here: zoom in` : ''}` : '';
  if (!cell) return '';
  return [cellTold(place, cell), marksTold(place.run, cell), more ? `${more} more here: zoom in` : ''].filter(Boolean).join('; ');
}

// What happens in a call: how many marks of each kind.
function marksTold(run, { begin, end }) {
  const counts = new Map();
  for (const all of [run.errors, run.marks]) {
    for (const { what } of marksBetween(all, begin, end)) counts.set(what, (counts.get(what) ?? 0) + 1);
  }
  const told = Object.entries(KINDS).filter(([kind]) => counts.has(kind)).map(([kind, [one, more]]) => many(counts.get(kind), one, more));
  return told.length ? `in it: ${told.join(', ')}` : '';
}

function markTold({ step, what, count, text }) {
  const at = `step ${grouped(step)}`;
  if (what === 'input') return `${at} reads ${many(count, 'byte')} of the input`;
  if (what === 'output') return `${at} writes ${many(count, 'byte')}`;
  return text ? `${at}: ${text}` : `${at} calls the heap`;
}

function cellTold({ run, row, stretch }, cell) {
  const { calls } = stretch, { names } = calls, caller = row > 0 ? calls.cellAt(row - 1, cell.begin) : null;
  const steps = stepsTold(cell.begin, cell.end - 1);
  const when = calls.isSampled ? `at each sampled step of ${steps}` : steps + endsTold(run, calls, cell);
  const where = [row > 0 ? `depth ${row}` : '', caller ? `in ${shortened(names.of(caller))}` : ''];
  return [`${shortened(names.of(cell))}: ${when}`, ...where].filter(Boolean).join(', ');
}

// What is known of a call before the steps that are known of it, and after them.
function endsTold(run, calls, cell) {
  const before = cell.begin === calls.from && cell.begin > 0 ? ', called before' : '';
  if (!cell.isOpen) return before;
  return `${before}${calls.until < run.last ? ' and on' : cell.row > 0 ? ', hasn’t returned at the end' : ''}`;
}

// How much of a run is known.
export function howTold(run, { from, to }, explain) {
  if (run.fault) return `can’t be read: ${explain(run.fault)}`;
  if (!run.isBegun) return 'reading';
  const { every, ground, last, part } = run, notes = [];
  const done = Math.min(99, Math.floor(100 * ground.until / last));
  if (ground.until < last) notes.push(`reading, ${done}%`);
  else if (!every) notes.push(many(run.events.length, 'event'));
  if (every && run.isKnown(from, to)) notes.push(`all calls of ${stepsTold(part.from, part.to - 1)}`);
  else if (every) notes.push(`sampled at every ${grouped(every)}th step: what is between shows when you zoom in`);
  if (run.isRead && run.errorsTo < last) notes.push(`errors are marked up to step ${grouped(run.errorsTo)}`);
  if (run.deepest >= MOST_FRAMES) notes.push(`of more than ${MOST_FRAMES} calls only the newest are known`);
  return notes.join(', ');
}

// Where two runs part, as far as that is known.
export function partingTold(one, other, { step, isExact }) {
  if (step !== null) {
    return isExact ? `their events part at step ${grouped(step)}`
      : `at the sampled steps their stacks differ first at step ${grouped(step)}`;
  }
  if (!one.isRead || !other.isRead) return '';
  if (one.every || other.every) return one.every === other.every ? 'at the sampled steps their stacks are the same' : '';
  return 'their events are the same';
}
