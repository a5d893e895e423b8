// Which step before the one that is shown was the last to write a place, or to change what is known of it: by the program's looks.
import { grouped, hexWord, numberOf } from '../common/numbers.js';
import { REGISTERS } from '../facts.js';

const WINDOWS = [64, 512, 4096];  // steps back in which a register is compared from step to step, one window after the other
const MOST_EDITS = 16;  // edits of one byte that are looked at
const LAST_RUN = 'look last run 0 4294967295 0';
const STEP = /^step (\d+)\n?$/;
const FLIPPED = 4;  // bytes of a line that turns bits
const KINDS = { wrote: 'write', since: 'shadow' };

// The lines that look at registers in steps from one on to another, both among them, and lead back to the first one.
export const walkLines = (low, high) => [...Array.from({ length: high - low }, (_, i) => ['look registers', `goto ${low + i + 1}`]).flat(),
  'look registers', `goto ${low}`];

const stepIn = (reply) => (STEP.test(reply) ? Number(STEP.exec(reply)[1]) : null);
const covers = (at, begin, length) => at >= begin && at < begin + length;
const stepOf = (mark) => (mark.line ? numberOf(mark.line.split(' ')[1]) : mark.step);

// Whether an edit of a step writes a byte, or (`since`) may change what is known of it.
function touchesByte(mark, byte, what) {
  const [word, , place, ...numbers] = mark.line?.split(' ') ?? [];
  if (!word) return what === 'since' && covers(byte, mark.at, mark.length);
  const begin = numberOf(place ?? ''), [number] = numbers.map(numberOf);
  if (begin === null) return false;
  if (word === 'write') return covers(byte, begin, number);
  return word === 'flip' && what === 'wrote' && covers(byte, begin, FLIPPED) && (number >>> 8 * (byte - begin) & 255) > 0;
}

// The steps up to one at which edits touch a byte, the last one first.
export function editsOfByte(marks, byte, what, last) {
  const steps = marks.filter((it) => touchesByte(it, byte, what)).map(stepOf).filter((it) => it <= last);
  return [...new Set(steps)].sort((a, b) => b - a);
}

export class LastWriter {
  look;
  scenario;

  // `look` promises the replies to lines at a step of a scenario.
  constructor({ look, scenario }) {
    this.look = look;
    this.scenario = scenario;
  }

  // Finds the last step before `step` that wrote a byte or changed a register (`wrote`), or that changed what is known of it (`since`).
  // Gives it, null if there is none, whether an edit just before it did it, and the steps between which it was looked for.
  async last(what, { byte, register }, { step, runs }) {
    const end = runs ? step : (stepIn((await this.look(step, [LAST_RUN]))[0]) ?? -1) + 1;
    const edited = runs ? end : end - 1;  // edits after it find a run that has ended
    return byte === undefined ? this.lastOfRegister(what, register, end) : this.lastOfByte(what, byte, end, edited);
  }

  async lastOfByte(what, byte, end, edited) {
    const found = stepIn((await this.look(end, [`look last ${KINDS[what]} ${hexWord(byte)} 1 0`]))[0]);
    for (const at of editsOfByte(this.scenario.marks, byte, what, edited).slice(0, MOST_EDITS)) {
      if (at <= (found ?? -1)) break;
      if (what === 'wrote' || await this.differs(byte, at)) return { step: at, isEdit: true, from: 0, end };
    }
    return { step: found, isEdit: false, from: 0, end };
  }

  // Whether what is known of a byte before a step isn't what was known before the one before.
  async differs(byte, step) {
    if (!step) return true;
    const known = [];
    for (const it of [step - 1, step]) known.push((await this.look(it, [`look memory ${hexWord(byte)} 1`]))[0].split('\n')[1]);
    return known[0] !== known[1];
  }

  async lastOfRegister(what, register, end) {
    const from = Math.max(0, end - WINDOWS.at(-1));
    const rowIn = (reply) => (what === 'since' ? reply.split('\n')[register].split(' ')[2] : reply.split('\n')[register]);
    let high = end;
    for (const low of WINDOWS.map((back) => Math.max(from, end - back))) {
      const rows = (await this.look(low, walkLines(low, high))).filter((_, i) => i % 2 === 0).map(rowIn);
      for (let at = high; at > low; at--) if (rows[at - low] !== rows[at - low - 1]) return this.changedAt(register, at, { from, end });
      high = low;
    }
    return { step: null, isEdit: false, from, end };
  }

  // What has changed a register that differs from the step before.
  changedAt(register, at, range) {
    const isEdit = this.scenario.marks.some((it) => it.line?.split(' ')[2] === `x${register}` && stepOf(it) === at);
    return { step: isEdit ? at : at - 1, isEdit, ...range };
  }
}

const capital = (text) => text[0].toUpperCase() + text.slice(1);

// What was found, in a sentence. `known` is what is known of a byte: `undefined`, `inaccessible` or `defined`.
export function sentenceOf({ step, isEdit, from, end }, what, { byte, register }, known) {
  const isByte = byte !== undefined, name = isByte ? `the byte at ${hexWord(byte)}` : REGISTERS[register];
  const where = step === null ? 'since the run began' : `${isEdit ? 'the edit just before step' : 'step'} ${grouped(step)}`;
  if (step === null && from > 0) return `No step from ${grouped(from)} to ${grouped(end - 1)} changed ${name}.`;
  if (what === 'since') {
    const is = isByte ? `has been ${known}` : 'has had these undefined bits';
    return capital(`${name} ${is} ${step === null ? where : `since ${where}`}.`);
  }
  if (step === null) return `Nothing has ${isByte ? 'written' : 'changed'} ${name} ${where}.`;
  return `${capital(where)} was the last to ${isByte ? 'write' : 'change'} ${name}.`;
}
