// What is read of a run in time, and how far: its calls as cells, marks of what happens, errors. A short run is read whole; of a long one
// the stack at some steps, and whole the stretch that is looked at.
import { hexWord, many } from '../common/numbers.js';
import { HEAP_NAMES } from '../facts.js';
import { Calls, MOST_FRAMES } from './calls.js';
import { Reading, Unwanted } from './events.js';

const MOST_EVENTS = 1 << 18;  // of a run that is read whole
const TRIED = 8;  // a run is given up for one that is too long for that by this part of its events
const MOST_SAMPLES = 1024, BATCH = 32;  // stacks that are asked for, and those by one question
const MOST_ERRORS = 64, MOST_HEAP = 4096;  // errors, and calls of the heap whose kind is asked for
const MOST_ASKED = 64;  // stacks that are asked for where the depth was as large as it can be
const LARGEST_PART = 1 << 18, MOST_IN_PART = 1 << 16;  // steps and events of a stretch that is read whole
const NARROWER = 0.7;  // of a stretch that had too much in it, what is tried again
const FIRST_HEAP_CALL = 2001;  // the number of the environment's `malloc`; those of the others follow
const [A0, A1, A7] = [10, 11, 17];
// A call of each of the heap's functions in words.
const HEAP_CALLS = {
  malloc: (size) => `malloc of ${many(size, 'byte')}`,
  calloc: (count, size) => `calloc of ${many(count, 'thing')} of ${many(size, 'byte')}`,
  realloc: (block, size) => `realloc of ${hexWord(block)} to ${many(size, 'byte')}`,
  free: (block) => `free of ${hexWord(block)}`,
};
const LIVE = /^block (0x[0-9a-f]{8}) \d+ live /;

// What a call of the heap did to blocks: none for a free of 0, `heap` for one that did nothing to any, such as a free of what is no block.
// `result` is what it returned, and `isBlock` says whether `block` was a live block before.
function doneBy(called, { block, size, result, isBlock }) {
  if (called === 'free') return block === 0 ? null : isBlock ? 'free' : 'heap';
  if (called !== 'realloc' || block === 0) return result ? 'alloc' : 'heap';
  if (!isBlock) return 'heap';
  return result ? 'resize' : size === 0 ? 'free' : 'heap';
}

// The value of a register in a reply.
const valueIn = (text, number) => Number(text.split('\n')[number].split(' ')[1]);
const TAKE_BLOCKS = new Set(['free', 'realloc']);

// A stretch that is read whole.
class Part {
  from;
  to;
  /** @type {Calls} */ calls;
  events = [];
  marks = [];

  constructor(from, to, stack, names) {
    this.from = from;
    this.to = to;
    this.calls = new Calls(from, stack, names);
  }

  add(event) {
    this.events.push(event);
    if (event.what !== 'call' && event.what !== 'return') this.marks.push({ ...event, text: null });
    return this.calls.add(event);
  }
}

export class Timeline {
  scenario;
  last;
  names;
  changed;
  isWanted = true;
  isRead = false;
  isDone = false;
  fault = null;
  /** @type {?Part} */ first = null;
  /** @type {?Calls} */ ground = null;
  every = 0;
  samples = new Map();
  /** @type {?Part} */ part = null;
  full = null;
  errors = [];
  errorsTo = 0;
  /** @type {Reading} */ reading;
  asked;

  // `look` promises replies to lines at a step of a scenario; `changed` is called whenever more is known. A run has so many steps.
  constructor({ look, scenario, last, names, changed }) {
    this.scenario = scenario;
    this.last = last;
    this.names = names;
    this.changed = changed;
    this.reading = new Reading((step, lines) => look(scenario, step, lines), () => this.isWanted);
  }

  // Nobody wants it any more.
  leave() { this.isWanted = false; }

  // Reads it; what fails is kept as a fault.
  async read() {
    await this.trying(async () => {
      if (!await this.whole()) await this.sampled();
      this.changed();
      const error = (step, text) => this.errors.push({ step, what: 'error', text });
      this.errorsTo = await this.reading.errors(this.last, MOST_ERRORS, error);
      this.isRead = true;
      this.changed();
      await this.kinds(this.marks);
      this.isDone = true;
    });
  }

  async trying(does) {
    try {
      await does();
    } catch (fault) {
      if (fault instanceof Unwanted || !this.isWanted) return;
      this.fault = fault;
      this.changed();
    }
  }

  get isWhole() { return this.ground !== null && !this.every; }
  get isBegun() { return this.isRead || (this.ground !== null && this.ground.until > 1); }
  get events() { return this.first?.events ?? []; }
  // The step up to which all events are known.
  get knownTo() { return this.isWhole && this.ground.until === this.last ? Infinity : this.first?.calls.until ?? 0; }
  // Marks of what is known to happen.
  get marks() { return (this.isWhole ? this.first : this.part)?.marks ?? []; }

  async whole() {
    const stack = await this.reading.stackAt(0);
    this.first = new Part(0, this.last, stack, this.names);
    this.ground = this.first.calls;
    return this.fill(this.first, MOST_EVENTS);
  }

  // Reads the events of a part, so many at most, as long as they are wanted; whether these are all.
  async fill(part, most, isWanted = () => true) {
    let asked = 0;
    return this.reading.events(part.from, part.to, async (events, known) => {
      for (const it of events) {
        if (!part.add(it)) continue;
        if (asked++ < MOST_ASKED) part.calls.restart(it.step + 1, await this.reading.stackAt(it.step + 1));
        else part.calls.lose(it.step + 1);
      }
      part.calls.knownTo(known);
      this.changed();
      const count = part.events.length, isSlow = count >= most / TRIED && (known - part.from) * TRIED < part.to - part.from;
      return count < most && !isSlow && isWanted();
    });
  }

  // Reads the stack at some steps that are as far apart from each other. What was read whole until there is shown until then.
  async sampled() {
    const every = 2 ** Math.ceil(Math.log2(this.last / MOST_SAMPLES));
    const steps = Array.from({ length: Math.ceil(this.last / every) }, (_, i) => i * every);
    for (let at = 0; at < steps.length; at += BATCH) {
      const some = steps.slice(at, at + BATCH), stacks = await this.reading.stacks(some);
      some.forEach((step, i) => this.sample(step, stacks[i]));
      this.ground.knownTo(Math.min(this.last, some.at(-1) + every));
      this.every = every;
      this.changed();
    }
  }

  sample(step, stack) {
    if (step === 0) this.ground = new Calls(0, stack, this.names, true);
    else this.ground.restart(step, stack);
    this.samples.set(step, stack.join());
  }

  // ---- where one looks

  // Whether all that happens in a stretch is known.
  isKnown(from, to) { return this.isWhole || Boolean(this.part) && this.part.from <= from && Math.min(to, this.last) <= this.part.to; }

  // Whether a stretch is as long as one here that had too much in it.
  isTooFull(from, to) {
    const { full } = this;
    return full !== null && from < full.to && full.from < to && to - from > full.wide * NARROWER;
  }

  // Reads a stretch whole that one looks at, with as much again around it, if it isn't too long. What was asked for before is given up.
  async look(from, to) {
    const wide = to - from, asked = this.asked = Symbol('asked');
    if (!this.every || this.isKnown(from, to) || wide > LARGEST_PART || this.isTooFull(from, to)) return;
    const begin = Math.max(0, Math.floor(from - wide / 2)), end = Math.min(this.last, Math.ceil(to + wide / 2));
    if (begin >= end) return;
    await this.trying(async () => {
      const part = new Part(begin, end, await this.reading.stackAt(begin), this.names);
      if (this.ground.deepest >= MOST_FRAMES) part.calls.doubt();
      const isAll = await this.fill(part, MOST_IN_PART, () => asked === this.asked);
      if (asked !== this.asked) return;
      if (isAll) this.part = part;
      else this.full = { from: begin, to: end, wide };
      this.changed();
      await this.kinds(part.marks);
    });
  }

  // Asks what the calls of the heap among some marks do to blocks, if they aren't too many. What does nothing is no mark.
  async kinds(marks) {
    const unknown = marks.filter((it) => it.what === 'heap' && it.text === null);
    if (!unknown.length || unknown.length > MOST_HEAP) return;
    await this.trying(async () => {
      for (let at = 0; at < unknown.length; at += BATCH) {
        const some = unknown.slice(at, at + BATCH), done = await this.heapCalls(some.map((it) => it.step));
        some.forEach((it, i) => {
          if (done[i]) Object.assign(it, done[i]);
          else marks.splice(marks.indexOf(it), 1);
        });
        this.changed();
      }
    });
  }

  // What the calls of the heap at some steps do, each in one step: by the registers before and after it, and by whether there was a block.
  async heapCalls(steps) {
    const [before, after] = [await this.reading.registers(steps), await this.reading.registers(steps.map((it) => it + 1))];
    const calls = before.map((text, i) => ({ ...this.heapCall(text), result: valueIn(after[i], A0) }));
    const takeBlocks = steps.map((step, i) => ({ step, block: calls[i].block })).filter((_, i) => TAKE_BLOCKS.has(calls[i].called));
    const blocks = await this.reading.blocksAt(takeBlocks);
    return calls.map((it, i) => {
      if (!it.called) return { text: 'call of the heap' };
      const text = HEAP_CALLS[it.called](it.block, it.size), found = LIVE.exec(blocks.get(steps[i]) ?? '');
      const what = doneBy(it.called, { ...it, isBlock: found !== null && Number(found[1]) === it.block });
      return what && { what, text: what === 'heap' ? `${text}, which does nothing to a block` : text };
    });
  }

  // Which function of the heap is called before a step, by name or by number, and with what.
  heapCall(text) {
    const name = this.names.beginningAt(Number(text.split('\n', 1)[0].split(' ')[2]));
    const called = HEAP_NAMES.includes(name) ? name : HEAP_NAMES[valueIn(text, A7) - FIRST_HEAP_CALL];
    return { called, block: valueIn(text, A0), size: valueIn(text, A1) };
  }

  // What is known of the calls, from which step up to which: the stretches that are drawn, in order.
  get stretches() {
    const { ground, part, last } = this;
    if (!ground) return [];
    if (!part) return [{ from: 0, to: last, calls: ground }];
    const around = [{ from: 0, to: part.from, calls: ground }, part, { from: part.to, to: last, calls: ground }];
    return around.filter((it) => it.from < it.to);
  }

  // The stretch that has a step, the last one where none has it.
  stretchAt(step) { return this.stretches.find((it) => step < it.to) ?? this.stretches.at(-1) ?? null; }

  get deepest() { return Math.max(0, ...this.stretches.map((it) => it.calls.deepest)); }
}

// The first of the steps at which both runs are sampled where their stacks differ, null where none does.
export function partingOfSamples(one, other) {
  for (const [step, stack] of one.samples) if (other.samples.has(step) && other.samples.get(step) !== stack) return step;
  return null;
}
