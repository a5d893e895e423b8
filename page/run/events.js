// What a run does and when, as the program replies to looks: calls and returns, input and output, calls of the heap, errors, stacks.
import { hexWord } from '../common/numbers.js';
import { parseStack } from '../engine/looks.js';
import { parseReport } from '../engine/report.js';

const EVENT = /^(\d+) (call|return|heap|input|output) (?:(0x[0-9a-f]{8}) )?(\d+)$/;
const COUNTED = { input: true, output: true };
const ANYWHERE = '0 0xffffffff';  // addresses, for a search for errors of all instructions

// Nobody wants what is being read any more.
export class Unwanted extends Error {}

// The events of a reply to `look calls`, and where the next look has to begin, null at the end.
function parseCalls(text) {
  const lines = text.trimEnd().split('\n'), last = lines.pop();
  const events = lines.map((line) => {
    const [, step, what, to, number] = EVENT.exec(line);
    return COUNTED[what] ? { step: Number(step), what, count: Number(number) }
      : { step: Number(step), what, to: to && Number(to), depth: Number(number) };
  });
  return { events, next: last === 'end' ? null : Number(last.split(' ')[1]) };
}

// The step that a search has found, null where it has found none.
const parseStep = (text) => (text.startsWith('step ') ? Number(text.slice(5)) : null);

export class Reading {
  isWanted;
  replies;

  // `ask` promises the replies to lines at a step; `isWanted` says whether somebody still wants what is read.
  constructor(ask, isWanted) {
    this.isWanted = isWanted;
    this.replies = ask;
  }

  async ask(step, ...lines) {
    if (!this.isWanted()) throw new Unwanted();
    const replies = await this.replies(step, lines);
    if (!this.isWanted()) throw new Unwanted();
    return replies;
  }

  async stackAt(step) { return parseStack((await this.ask(step, 'look stack'))[0]); }

  // Reads what happens from one step on, below another one. `take` gets the events of a reply and the step up to which all are known;
  // what it promises is false where it wants no more. Whether all was read.
  async events(from, to, take) {
    for (let begin = from; begin !== null;) {
      const [text] = await this.ask(to, `look calls ${begin} ${to}`), { events, next } = parseCalls(text);
      if (!await take(events, next ?? to) && next !== null) return false;
      begin = next;
    }
    return true;
  }

  // The replies to a line at each of some steps, by one question. It ends at the step with which it begins, since the session takes it to
  // be there.
  async atEach(steps, line) {
    const [first, ...others] = steps;
    const replies = await this.ask(first, line, ...others.flatMap((it) => [`goto ${it}`, line]), `goto ${first}`);
    return replies.filter((_, i) => i % 2 === 0).slice(0, steps.length);
  }

  async stacks(steps) { return (await this.atEach(steps, 'look stack')).map(parseStack); }

  // The replies about blocks from one on at some steps, by these.
  async blocksAt(places) {
    const found = new Map();
    if (!places.length) return found;
    const [first, ...others] = places, lineOf = ({ block }) => `look blocks ${hexWord(block)}`;
    const lines = [lineOf(first), ...others.flatMap((it) => [`goto ${it.step}`, lineOf(it)]), `goto ${first.step}`];
    const replies = (await this.ask(first.step, ...lines)).filter((_, i) => i % 2 === 0);
    places.forEach((it, i) => found.set(it.step, replies[i]));
    return found;
  }

  // The registers at some steps, as the program writes them.
  registers(steps) { return this.atEach(steps, 'look registers'); }

  // Reads the errors that a report counts, of so many steps with errors at most: `take` gets the step of each and what it is. Gives the
  // step up to which these are all.
  async errors(to, most, take) {
    let before = new Map();
    for (let from = 0, count = 0; from < to; count++) {
      const step = parseStep((await this.ask(from, `look next error ${ANYWHERE} ${to}`))[0]);
      if (step === null) return to;
      if (count === most) return step;
      const [text] = await this.ask(step + 1, 'report'), groups = parseReport(text).groups.filter((it) => it.isError);
      const fresh = groups.filter(({ key, count: times }) => before.get(key) !== times);  // none where it is suppressed
      for (const it of fresh) take(step, it.text);
      before = new Map(groups.map((it) => [it.key, it.count]));
      from = step + 1;
    }
    return to;
  }
}

const isSame = (a, b) => a.step === b.step && a.what === b.what && a.to === b.to && a.depth === b.depth && a.count === b.count;

// The first step at which the events of two runs differ, of those that are known of both: null where none does.
export function partingOf(one, other) {
  const known = Math.min(one.knownTo, other.knownTo);
  const most = Math.max(one.events.length, other.events.length);
  for (let i = 0; i < most; i++) {
    const [a, b] = [one.events[i], other.events[i]];
    if (a && b && isSame(a, b)) continue;
    const step = Math.min(a?.step ?? Infinity, b?.step ?? Infinity);
    return step < known ? step : null;
  }
  return null;
}
