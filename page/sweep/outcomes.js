// The outcomes of a sweep's edits: of each its state, its errors and leaks in one line each, and which of them the run that is swept
// doesn't have. Outcomes that differ in the exit status only are one row.
import { grouped, hexWord, listed } from '../common/numbers.js';
import { frameOf } from '../engine/report.js';
import { BADNESS, FRAMES_TOLD, HEAP_NAMES, RUNNING } from '../facts.js';
import { KINDS, colourOf } from './colours.js';

const MOST_STATUSES = 4;  // exit statuses that a row names
const STATUS = /^exited (\d+)/;
const REACHED = 1000;  // worse than any error: what one looks for comes first

function partOf(text, trace, lineOf) {
  const frames = trace.slice(0, FRAMES_TOLD).map(frameOf);
  if (!frames.length) return { text, told: text, short: text };
  const line = lineOf(frames[0].address);
  const names = frames.slice(1).map((it) => (it.name === '???' ? hexWord(it.address) : it.name));
  const key = [`${text} at ${hexWord(frames[0].address)}: ${frames[0].name}`, ...names].join(', by ');
  const told = line ? key.replace(frames[0].name, () => `${frames[0].name} (${line})`) : key;
  const own = frames.find((it) => !HEAP_NAMES.includes(it.name)) ?? frames[0], at = lineOf(own.address);
  const name = own.name === '???' ? hexWord(own.address) : own.name;
  return { text: key, told, short: `${text} in ${name}${at ? ` (${at})` : ''}`, address: own.address };
}

const foundIn = (text) => BADNESS.find(([begin]) => text.startsWith(begin));
const badnessOf = (text) => Number(foundIn(text)?.[1] ?? 0);

class Outcome {
  state;
  parts = [];
  fresh;
  gone;
  runsOn;
  bad;

  constructor(text, lineOf) {
    const lines = text.split('\n');
    this.state = lines[0];
    for (let at = 1; at < lines.length;) {
      let end = at + 1;
      while (end < lines.length && lines[end].startsWith('   ')) end++;
      const part = partOf(lines[at], lines.slice(at + 1, end), lineOf);
      if (!this.parts.some((it) => it.text === part.text)) this.parts.push(part);
      at = end;
    }
  }

  // Finds the errors, leaks and stops that another run doesn't have, the worst first, those that only the other one has, and how bad
  // the new ones are.
  compare(unedited) {
    const had = new Set([...unedited.parts.map((it) => it.text), unedited.state]), has = new Set(this.parts.map((it) => it.text));
    const stop = { text: this.state, told: this.state, short: this.state };
    this.fresh = [stop, ...this.parts].filter((it) => badnessOf(it.text) && !had.has(it.text))
      .sort((a, b) => badnessOf(b.text) - badnessOf(a.text));
    this.gone = unedited.parts.filter((it) => badnessOf(it.text) && !has.has(it.text));
    this.runsOn = this.state.startsWith('running') && !unedited.state.startsWith('running');
    this.bad = this.fresh.length ? badnessOf(this.fresh[0].text) : this === unedited ? -1 : this.runsOn ? RUNNING : 0;
  }

  // The address of the worst that is new, null where there is none.
  get address() { return this.fresh.find((it) => it.address !== undefined)?.address ?? null; }

  get isNew() { return this.fresh.length > 0; }
  get isStop() { return this.fresh.some((it) => it.text === this.state); }
  get isClean() { return ![this.state, ...this.parts.map((it) => it.text)].some(badnessOf); }
}

// The outcomes of a sweep, by their numbers, of which 0 is that of the run that is swept. `goal` is a text with which a line
// of an outcome begins, or empty.
export class Outcomes {
  swept;
  lineOf;
  goal;
  made = [];
  known;

  constructor(swept, lineOf, goal = '') {
    this.swept = swept;
    this.lineOf = lineOf;
    this.goal = goal;
  }

  reaches(number) { return this.goal !== '' && this.swept.outcomes[number].split('\n').some((it) => it.startsWith(this.goal)); }

  // Whether an outcome stands out: by something new, or by the goal, which the run that is swept doesn't reach.
  isMarked(number) { return this.at(number).isNew || (this.reaches(number) && !this.reaches(0)); }

  badness(number) { return this.isMarked(number) && this.reaches(number) ? REACHED : this.at(number).bad; }

  at(number) {
    while (this.made.length < this.swept.outcomes.length) {
      const made = new Outcome(this.swept.outcomes[this.made.length], this.lineOf);
      this.made.push(made);
      made.compare(this.made[0]);
    }
    return this.made[number];
  }

  get numbers() { return [...this.swept.outcomes.keys()]; }

  count(is) {
    return this.swept.tallies.reduce((sum, count, number) => sum + (is(number) ? count : 0), 0);
  }

  // How many edits make something new, reach the goal, or have another outcome with nothing new.
  get fresh() { return this.count((number) => this.at(number).isNew); }
  get reached() { return this.count((number) => this.reaches(number)); }
  get changed() { return this.count((number) => number > 0 && !this.at(number).isNew); }

  // What is new in an outcome and what is gone, or how the run ended.
  told(number, isShort = false) {
    const { state, fresh, gone } = this.at(number), how = isShort ? 'short' : 'told';
    if (!number) return `as unedited: ${state}`;
    const parts = fresh.filter((it) => it.text !== state).map((it) => it[how]), without = gone.map((it) => it[how]);
    return [state, ...fewer(parts, isShort), ...(without.length ? [`without ${fewer(without, isShort).join('; ')}`] : [])].join('; ');
  }

  // ---- rows

  // Outcomes that have one row: numbers, the first of them first. Those that are else alike come in the order of their first
  // edits, since their numbers depend on which part of the sweep came first. The worst come first, and last the run itself.
  get rows() {
    const { edits } = this.swept, { known, goal } = this;
    if (known?.edits !== edits || known.goal !== goal) this.known = { edits, goal, rows: this.rowsNow() };
    return this.known.rows;
  }

  rowsNow() {
    const { firsts, outcomes, tallies } = this.swept, rows = new Map();
    const order = this.numbers.sort((a, b) => before(firsts[a] ?? [0, 0], firsts[b] ?? [0, 0]));
    for (const number of order) {
      const key = number ? `${this.reaches(number)} ${outcomes[number].replace(STATUS, 'exited')}` : 'unedited';
      if (!rows.has(key)) rows.set(key, { numbers: [], edits: 0 });
      const row = rows.get(key);
      row.numbers.push(number);
      row.edits += tallies[number];
    }
    return [...rows.values()].sort((a, b) => {
      const [one, other] = [a, b].map((it) => it.numbers[0]);
      return Number(one === 0) - Number(other === 0) || this.badness(other) - this.badness(one) || b.edits - a.edits;
    });
  }

  kindOf(number) {
    const { fresh, runsOn } = this.at(number);
    if (!number) return 'unedited';
    if (this.badness(number) === REACHED) return 'goal';
    return fresh.length ? KINDS[foundIn(fresh[0].text)[0]] : runsOn ? 'running' : 'ending';
  }

  // How each outcome looks: its colour, whether it is hatched, and its number among the rows of that colour, if there are several.
  looks(isDark) {
    const found = [], last = new Map(), rows = this.rows;
    const several = (kind) => rows.filter((it) => this.kindOf(it.numbers[0]) === kind).length > 1;
    for (const { numbers } of rows) {
      const kind = this.kindOf(numbers[0]);
      last.set(kind, (last.get(kind) ?? 0) + 1);
      const label = several(kind) ? `${last.get(kind)}` : '';
      const look = { kind, colour: colourOf(kind, isDark), isHatched: this.at(numbers[0]).isStop, label };
      for (const number of numbers) found[number] = look;
    }
    return found;
  }

  // A row in one line: `isShort` leaves out traces, and all but the worst error.
  rowTold({ numbers }, isShort) {
    const told = this.told(numbers[0], isShort);
    if (numbers.length === 1) return told;
    const statuses = numbers.map((it) => STATUS.exec(this.at(it).state)[1]);
    const named = statuses.length > MOST_STATUSES ? `with one of ${grouped(statuses.length)} statuses` : listed(statuses, 'or');
    return told.replace(STATUS, () => `exited ${named}`);
  }
}

const before = (one, other) => one[0] - other[0] || one[1] - other[1];

// The first of some texts, and how many more there are.
const fewer = (texts, isShort) => (isShort && texts.length > 1 ? [`${texts[0]}, and ${texts.length - 1} more`] : texts);
