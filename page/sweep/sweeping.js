// Every edit of the input's bytes, of a function's words, or of the machine at steps, alone: parts of the proved sweep, in as many workers
// as there are processors.
import { hexWord } from '../common/numbers.js';
import { editLine } from '../engine/scenario.js';
import { Helper, Stopped } from '../engine/sessions.js';
import { WORD } from '../riscv/isa.js';
import { alterationLine, editsAt } from './alterations.js';

const PARTS_EACH = 4;  // so that no worker waits long for the last one
const MOST_PARTS = 1000;

// How many bytes, words or instructions are swept, how many values each has at most, and how many edits that are. Instructions of
// either length have `starts`, their addresses, and `code`, the place and the length of each.
const stride = ({ kind }) => (kind === 'words' ? WORD : 1);
export const placesOf = (asked) => asked.starts?.length ?? (asked.last - asked.first) / stride(asked) + 1;
export const valuesOf = ({ kind, values }) => (kind === 'steps' ? editsAt(values)
  : { all: 255, edges: 7, skip: 1, flips: kind === 'bytes' ? 8 : 32 }[values]);
export const mostEditsOf = (asked) => (asked.code && asked.values === 'flips'
  ? [...asked.code.values()].reduce((sum, it) => sum + 8 * it.length, 0) : placesOf(asked) * valuesOf(asked));
// Where a place is among all, which place is there, and how many bytes an instruction has.
export const indexOf = (asked, at) => (asked.code ? asked.code.get(at)?.index ?? 0 : (at - asked.first) / stride(asked));
export const placeAt = (asked, index) => asked.starts?.[index] ?? asked.first + stride(asked) * index;
export const lengthAt = (asked, at) => asked.code?.get(at)?.length ?? WORD;
// The line of a session that makes an edit.
export const lineOf = (asked, at, value) => (asked.kind === 'steps' ? alterationLine(asked.values, at, value)
  : editLine(asked.kind, at, value, lengthAt(asked, at)));

const partsOf = (places, workers) => (workers === 1 ? 1 : Math.max(1, Math.min(places, workers * PARTS_EACH, MOST_PARTS)));

// So many edits are made at most, as all are held.
export const MOST_EDITS = 4000000;

// What came of the edits. `outcomes` are texts, of which the first is the unedited run's; a place has values, each with its
// outcome.
export class Swept {
  asked;
  outcomes = [];
  numbers = new Map();
  tallies = [];
  firsts = [];
  places = new Map();
  edits = 0;
  isWhole = false;
  time;

  constructor(asked) {
    this.asked = asked;
  }

  number(text) {
    if (!this.numbers.has(text)) {
      this.numbers.set(text, this.outcomes.length);
      this.outcomes.push(text);
      this.tallies.push(0);
      this.firsts.push(null);
    }
    return this.numbers.get(text);
  }

  // Takes what a part tells: new outcomes, by the numbers of the part, and edits.
  add(part, told) {
    for (const text of told.outcomes) part.numbers.push(this.number(text));
    for (let i = 0; i < told.edits.length; i += 3) {
      const [at, value, own] = told.edits.subarray(i, i + 3), number = part.numbers[own];
      if (!this.places.has(at)) this.places.set(at, { values: [], outcomes: [] });
      const place = this.places.get(at);
      place.values.push(value);
      place.outcomes.push(number);
      this.tallies[number]++;
      this.edits++;
      const first = this.firsts[number];
      if (!first || at < first[0] || (at === first[0] && value < first[1])) this.firsts[number] = [at, value];
    }
  }
}

// Workers that have nothing to do and are kept for the next sweep, since it takes a while to start one.
export class Idle {
  makeWorker;
  helpers = [];

  constructor(makeWorker) {
    this.makeWorker = makeWorker;
  }

  take() { return this.helpers.pop() ?? new Helper(this.makeWorker); }
  give(helper) { this.helpers.push(helper); }
}

export class Sweep {
  program;
  files;
  asked;
  idle;
  told;
  /** @type {Swept} */ swept;
  helpers = new Set();
  memory = 0;
  isStopped = false;
  isOver = false;

  // `asked` has the kind, the first and the last place, the values and the step; `told` is called while it goes on.
  constructor(program, files, asked, idle, told) {
    this.program = program;
    this.files = files;
    this.asked = asked;
    this.idle = idle;
    this.told = told;
    this.swept = new Swept(asked);
  }

  get words() {
    const { kind, first, last, values, step, within } = this.asked;
    const names = { bytes: ['--bytes', '--values'], words: ['--words', '--words-values'], steps: ['--at', '--faults'] }[kind];
    const code = within ? [`--code-range=${within.map(hexWord).join('..')}`] : [];
    return [`${names[0]}=${first}..${last}`, `${names[1]}=${values}`, ...code, `--step=${step}`];
  }

  stop() {
    this.isStopped = true;
    for (const it of this.helpers) it.stop();
  }

  async run(workers) {
    const parts = partsOf(placesOf(this.asked), workers);
    let next = 1;
    const work = async () => {
      const helper = this.idle.take();
      this.helpers.add(helper);
      while (next <= parts && !this.isStopped) await this.part(helper, next++, parts);
      if (!this.isStopped && this.helpers.delete(helper)) this.idle.give(helper);
    };
    const begun = performance.now();
    try {
      await Promise.all(Array.from({ length: Math.min(workers, parts) }, work));
    } catch (fault) {
      const wasStopped = this.isStopped;
      this.stop();
      if (!wasStopped || !(fault instanceof Stopped)) throw fault;
    }
    this.swept.time = performance.now() - begun;
    this.swept.isWhole = !this.isStopped;
    this.isOver = true;
  }

  async part(helper, number, count) {
    const { module, target, limit } = this.program;
    const part = { numbers: [] };
    const words = [...this.words, `--part=${number}/${count}`];
    const { memory } = await helper.ask('sweep', { module, files: this.files, target, limit, words }, (told) => {
      this.swept.add(part, told);
      this.told(this.swept);
    });
    this.memory = Math.max(this.memory, memory);
  }
}
