// The calls that a run is in, step by step, as cells: a row for each depth, a cell from the first step of a call to its last one.
import { hexWord } from '../common/numbers.js';

export const MOST_FRAMES = 256;  // calls that haven't returned, of which the program knows the newest
const UNKNOWN = '???', NOWHERE = -1;
const MOST_BACK = 8;  // functions before an address that are asked whether they have it: they may overlap

// The names of functions by addresses within them.
export class Names {
  elf;
  functions;
  known = new Map();

  constructor(elf) {
    this.elf = elf;
    this.functions = elf.functions;
  }

  // The name of the function that begins at an address.
  beginningAt(address) { return this.elf.nameAt(address); }

  // The name of the function that has an address, null where none has it.
  at(address) {
    if (!this.known.has(address)) this.known.set(address, this.find(address));
    return this.known.get(address);
  }

  find(address) {
    const after = firstAfter(this.functions, address, (it) => it.address);
    for (let i = after - 1; i >= Math.max(0, after - MOST_BACK); i--) {
      const { name, address: begin, size } = this.functions[i];
      if (address < begin + size) return name;
    }
    return null;
  }

  // What a cell is called: by its function, or by its first instruction where that is known.
  of({ code, isEntry }) { return this.at(code) ?? (isEntry ? hexWord(code) : UNKNOWN); }
}

// The index of the first of some sorted things that is above a value.
export function firstAfter(things, value, key = (it) => it) {
  let low = 0, high = things.length;
  while (low < high) {
    const middle = (low + high) >> 1;
    if (key(things[middle]) <= value) low = middle + 1;
    else high = middle;
  }
  return low;
}

export class Calls {
  from;
  until;
  names;
  isSampled;
  rows = [];
  depth = -1;
  stack = [];
  hasForgotten = false;

  // `stack` has the addresses of `look stack` at the first step; `isSampled` says that what is between two stacks isn't known.
  constructor(from, stack, names, isSampled = false) {
    this.from = from;
    this.until = from;
    this.names = names;
    this.isSampled = isSampled;
    this.restart(from, stack);
  }

  // What ends at a step: all calls that are deeper than this one.
  leave(depth, step) {
    for (; this.depth > depth; this.depth--) this.rows[this.depth].ends[this.rows[this.depth].ends.length - 1] = step;
  }

  enter(step, code, isEntry) {
    this.depth += 1;
    this.rows[this.depth] ??= { begins: [], ends: [], codes: [], entries: [] };
    const row = this.rows[this.depth];
    row.begins.push(step);
    row.ends.push(Infinity);
    row.codes.push(code);
    row.entries.push(isEntry);
  }

  // Takes what happens in a step. Whether the stack has to be asked for after it: once the program knew only the newest calls, each may
  // be another one than it was taken for.
  add({ step, what, to, depth }) {
    this.until = step + 1;
    if (depth === undefined) return false;
    const wasFull = this.depth >= MOST_FRAMES;
    this.hasForgotten ||= wasFull;
    this.leave(what === 'call' ? depth - 1 : depth, step + 1);
    if (what === 'call') this.enter(step + 1, to, true);
    else if (this.hasForgotten && depth === 0) this.forget(step + 1);
    return wasFull && this.depth < MOST_FRAMES;
  }

  // Once the newest calls have returned that the program knew, it doesn't see returns of the others: nobody knows in which it is.
  forget(step) {
    this.leave(-1, step);
    this.enter(step, NOWHERE, false);
  }

  // Notes that calls may have been forgotten before the first step.
  doubt() {
    this.hasForgotten = true;
    if (this.depth === 0) this.forget(this.from);
  }

  // Goes on with the stack of a step, newest first. What is as it was goes on: a call is the same one if all older ones were at the
  // same places before.
  restart(step, stack) {
    const sites = [...stack].reverse(), open = Math.min(sites.length, this.depth + 1);
    let same = 0, isSame = true;
    while (same < open && isSame && this.names.at(sites[same]) === this.names.at(this.rows[same].codes.at(-1))) {
      isSame = !this.isSampled || this.stack[same] === sites[same];
      same += 1;
    }
    this.leave(same - 1, step);
    for (const site of sites.slice(same)) this.enter(step, site, false);
    this.stack = sites;
    this.until = step + 1;
  }

  // Goes on with calls of which only the number is known.
  lose(step) { this.restart(step, Array(this.depth + 1).fill(NOWHERE)); }

  // Notes that all is known below a step, at which the run ends or the stretch does.
  knownTo(step) { this.until = step; }

  // The index of the cell of a row that has a step, or of the first one after it.
  indexAt(row, step) {
    const { begins, ends } = this.rows[row], at = firstAfter(begins, step);
    return at && ends[at - 1] > step ? at - 1 : at;
  }

  // A cell, null where there is none: from its first step up to the one after its last, of those that are known.
  cell(row, index) {
    const it = this.rows[row];
    if (!it || index < 0 || index >= it.begins.length) return null;
    const begin = it.begins[index], end = Math.min(it.ends[index], this.until);
    return { row, index, begin, end, code: it.codes[index], isEntry: it.entries[index], isOpen: it.ends[index] === Infinity };
  }

  cellAt(row, step) {
    const found = this.rows[row] ? this.cell(row, this.indexAt(row, step)) : null;
    return found && found.begin <= step && step < found.end ? found : null;
  }

  get deepest() { return this.rows.length - 1; }
}
