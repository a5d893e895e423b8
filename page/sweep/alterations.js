// The edits of a sweep of steps: what alters the machine just before a step. A value is the place of an edit among those of its step.
import { hexWord } from '../common/numbers.js';
import { REGISTERS } from '../facts.js';

const BITS = 32, ALL_BITS = 0xffffffff;
const bit = (value) => hexWord(1 << value % BITS >>> 0);
const register = (value) => `x${value + 1}`;
// Of each kind of fault how many edits a step has, how many rows these are in a picture, and the line of an edit.
const FAULTS = {
  skip: { edits: 1, rows: 1, line: (step) => `skip ${step}` },
  registers: { edits: 31 * BITS, rows: 31, line: (step, value) => `flip ${step} ${register(Math.floor(value / BITS))} ${bit(value)}` },
  pc: { edits: BITS, rows: BITS, line: (step, value) => `flip ${step} pc ${bit(value)}` },
  zero: { edits: 31, rows: 31, line: (step, value) => `set ${step} ${register(value)} ${hexWord(0)}` },
  ones: { edits: 31, rows: 31, line: (step, value) => `set ${step} ${register(value)} ${hexWord(ALL_BITS)}` },
};

export const editsAt = (fault) => FAULTS[fault].edits;
export const rowsOf = (fault) => FAULTS[fault].rows;
export const rowAt = (fault, value) => Math.floor(value * FAULTS[fault].rows / FAULTS[fault].edits);
export const alterationLine = (fault, step, value) => FAULTS[fault].line(step, value);

// The names of some rows of a picture, each with its row.
export function rowNames(fault) {
  if (fault === 'skip') return [[0, 'skip']];
  return (fault === 'pc' ? [0, 8, 16, 24, 31].map((it) => [it, `bit ${it}`]) : [0, 4, 9, 17, 27].map((it) => [it, REGISTERS[it + 1]]));
}

// The step and the value of the edit that a row of a table begins with, by its words; null where it alters no step.
export function alterationIn(words) {
  const [word, step, place, given] = words;
  if (word === 'skip') return [Number(step), 0];
  const number = Number(/^x(\d+)$/.exec(place ?? '')?.[1] ?? 0) - 1, of = 31 - Math.clz32(Number(given) >>> 0);
  if (word === 'flip') return [Number(step), place === 'pc' ? of : number * BITS + of];
  return word === 'set' ? [Number(step), number] : null;
}
