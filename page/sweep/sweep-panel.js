// The part of the page that tries every edit: what is asked for, how far it is, and the outcome.
import { $, $button, $input, $progress, $select, element, say } from '../common/dom.js';
import { grouped, hexWord, many, milliseconds, size } from '../common/numbers.js';
import { editsOf } from '../engine/scenario.js';
import { HALF } from '../riscv/isa.js';
import { alterationIn, alterationLine } from './alterations.js';
import { counted, upTo } from './counting.js';
import { Outcomes } from './outcomes.js';
import { Picture } from './picture.js';
import { Idle, MOST_EDITS, Sweep, lengthAt, lineOf, mostEditsOf } from './sweeping.js';

const FAULTS = { skip: 'left out', registers: 'one bit of a register turned', pc: 'one bit of pc turned', zero: 'a register as 0',
  ones: 'a register as all ones' };
const VALUES = {
  bytes: { all: 'all 255 others', flips: 'one bit turned', edges: '0, 1, 0x7f, 0x80, 0xff, ±1' },
  words: { skip: 'skipped', flips: 'one bit turned' },
  step: FAULTS, steps: FAULTS,
};
const PART = /^\s*(\d{1,7})(?:(\.\.)(\d{1,7})?)?\s*$/;
const RANGE_WANTED = 'A range of bytes is A..B, A.. or A, such as 5..9, of bytes that the input has.';
const AT_ONCE = 25000;  // edits of a sweep that begins by itself

// The files of a program as a scenario has them, and what of it a file can't have.
export function filesOf(scenario, { files, elf }) {
  const left = [], swept = { program: files.program.slice() };
  if (scenario.length || files.input) swept.input = scenario.input;
  const view = new DataView(swept.program.buffer);
  for (const [at, { value, length }] of scenario.patches) {
    const offset = elf.offsetOf(at, length);
    if (offset < 0) left.push(`the patch at ${hexWord(at)}`);
    else if (length === HALF) view.setUint16(offset, value, true);
    else view.setUint32(offset, value, true);
  }
  const blocks = scenario.added.map((it) => `{\nadded\nMemcheck:${it.split(' ').join('\n')}\n}\n`).join('');
  if (files.supp || blocks) {
    const given = files.supp ?? new Uint8Array(), added = new TextEncoder().encode(`\n${blocks}`);
    swept.supp = new Uint8Array(given.length + added.length);
    swept.supp.set(given);
    swept.supp.set(added, given.length);
  }
  if (scenario.marks.some((it) => !it.line)) left.push('marks');
  if (scenario.marks.some((it) => it.line)) left.push('what is changed at a step');
  if (scenario.options.has('redzone') || scenario.options.has('queue')) left.push('options of the heap');
  if (scenario.switched.size) left.push('suppressions that are switched');
  return { files: swept, left };
}

export class SweepPanel {
  state;
  refuse;
  fail;
  told;
  workers;
  /** @type {?Sweep} */ sweep = null;
  of = null;
  ended = null;
  /** @type {Idle} */ idle;
  /** @type {?Object} */ recorded = null;
  /** @type {Picture} */ picture;
  most;

  // `state` gives what is swept: the program, the scenario, the step and the function that is shown, and how instructions lie in
  // a range; `make` makes an edit; `refuse` takes a sentence, `fail` a fault; `told` is called when more is known of the edits; `ends`,
  // `pointed`, `links` and `axis` are the picture's.
  constructor({ state, make, refuse, fail, told, makeWorker, workers, ends, pointed, links, axis }) {
    this.state = state;
    this.refuse = refuse;
    this.fail = fail;
    this.told = told;
    this.workers = workers;
    this.idle = new Idle(makeWorker);
    const makeEdit = (kind, at, value) => make(kind, at, value, kind === 'steps' ? lineOf(this.of.asked, at, value)
      : lengthAt(this.of.asked, at));
    this.picture = new Picture({ make: makeEdit, otherRun: () => this.otherRun, chosen: () => this.chosen, ends, pointed, links, axis });
    $('goal').addEventListener('input', () => this.showGoal());
    $('sweep').addEventListener('click', () => {
      this.begin();
      if (this.of?.asked.kind === 'steps') $('strip-part').scrollIntoView({ block: 'nearest' });
    });
    $('stop').addEventListener('click', () => this.sweep?.stop());
    $('sweep-what').addEventListener('change', () => this.offer());
    this.offer();
  }

  offer() {
    const what = $select('sweep-what').value, options = Object.entries(VALUES[what]);
    $('sweep-part').hidden = what !== 'bytes';
    $('sweep-values').replaceChildren(...options.map(([value, told]) => element('option', { value }, told)));
  }

  // Another program is opened.
  close() {
    this.sweep?.stop();
    this.sweep = null;
    this.of = null;
    this.ended = null;
    this.recorded = null;
    this.show(false);
    this.picture.clear();
    this.showOf();
    say('sweep-told', '');
  }

  show(isBusy) {
    $button('stop').disabled = !isBusy;
    $('sweep-done').hidden = !isBusy;
    $progress('sweep-done').value = 0;
    say('sweep-far', '');
  }

  // What is asked for, null where there is nothing of that kind.
  get asked() {
    const kind = $select('sweep-what').value, values = $select('sweep-values').value, { scenario, step, range, name } = this.state();
    if (kind === 'bytes') return scenario.length ? bytesAsked({ kind, values, step }, $input('sweep-bytes').value, scenario.length) : null;
    if (kind === 'step' || kind === 'steps') return this.askedSteps(kind === 'step', values);
    return range && range.starts.length ? { kind, values, step, name, ...placesIn(range) } : null;
  }

  // The same of the step that is looked at, or of those at which the function that is shown executes an instruction. Runs are compared
  // where the page looks at a run no further.
  askedSteps(isOne, values) {
    const { at, end, follow, range, name } = this.state(), asked = { kind: 'steps', values, step: follow };
    if (isOne) return at < end ? { ...asked, first: at, last: at, name: `step ${grouped(at)}` } : null;
    const within = range?.starts.length ? [range.starts[0], range.starts.at(-1)] : null;
    return within && end ? { ...asked, first: 0, last: end - 1, name, within } : null;
  }

  // ---- of which run the picture is

  // Whether the picture is of the recorded run up to its end. It is the picture of each edited run, too: the edits that stand are ringed.
  get isRecorded() {
    const { of } = this;
    return Boolean(of) && of.isEnd && !of.left.length && isSameRun(of.scenario, this.state().plain);
  }

  // Whether the picture is of another run than the recorded one and the one that is shown, or of another step.
  get isStale() {
    const { of } = this;
    if (!of || this.isRecorded) return false;
    const { scenario, step } = this.state(), isOfSteps = of.asked.kind === 'steps';
    return (!isOfSteps && of.step !== step) || (of.scenario !== scenario && !isSameRun(of.scenario, scenario));
  }

  // Which run the picture is of, where that isn't just the one that is shown, as the beginning of a sentence.
  get otherRun() {
    const { of, isStale } = this;
    if (!of) return '';
    const isOther = isStale || (this.isRecorded && !isSameRun(of.scenario, this.state().scenario));
    if (!isOther && !of.left.length) return '';
    const edits = editsOf(of.scenario).length;
    const at = of.isEnd || of.step === this.state().step ? '' : ` at step ${grouped(of.step)}`;
    const run = isOther ? `${edits ? `the run with ${many(edits, 'edit')}` : 'the unedited run'}${at}` : 'this run';
    return `Of ${run}${of.left.length ? `, without ${of.left.join(', ')}` : ''}: `;
  }

  // The edits that stand as those of the recorded run's picture: of each its place and its value.
  get chosen() {
    const { scenario } = this.state();
    if (!this.isRecorded) return [];
    const { kind, values } = this.of.asked;
    if (kind === 'bytes') return [...scenario.changes];
    if (kind === 'words') return [...scenario.patches].map(([at, { value }]) => [at, value]);
    const found = scenario.marks.flatMap(({ line }) => (line ? [{ line, edit: alterationIn(line.split(' ')) }] : []));
    return found.filter(({ line, edit }) => edit && alterationLine(values, ...edit) === line).map(({ edit }) => edit);
  }

  // Greys the picture of another run.
  showOf() {
    for (const it of ['picture-parts', 'legend']) $(it).classList.toggle('stale', this.isStale);
    this.picture.redraw();
    this.picture.tell();
  }

  // Whether edits are being tried of which the picture will be.
  get isGoing() { return Boolean(this.sweep) && !this.sweep.isOver && this.sweep.swept === this.picture.swept; }

  // What the edits of a byte do, once all are tried.
  saidOf(at) {
    const said = this.isGoing ? '' : this.picture.saidOf(at);
    return said && this.otherRun + said;
  }

  // Tries all edits of the recorded run's input, if these are few. What was tried of another run stays until that is no more shown.
  async follow() {
    if (this.of && !this.isStale) return;
    if (this.recorded) {
      this.restore();
      return;
    }
    const { plain, follow } = this.state(), asked = bytesAsked({ kind: 'bytes', values: 'all', step: follow }, '', plain.length);
    if (plain.length && mostEditsOf(asked) <= AT_ONCE) await this.begin(asked, { scenario: plain, step: follow, isEnd: true });
  }

  // Shows the picture of the recorded run again.
  restore() {
    this.sweep?.stop();
    this.sweep = null;
    this.show(false);
    Object.assign(this, this.recorded);
    this.draws(this.ended.swept);
    this.picture.more(true);
    this.showOf();
    this.tellEnd();
    this.told();
  }

  // How many of the edits break the run, as far as they are tried, in a sentence that is true of the run that is shown; and the same of
  // the unedited run at a step. Empty if nothing is known.
  get counted() {
    const { swept, outcomes } = this.picture;
    if (!swept?.edits) return '';
    return this.otherRun + counted(swept, outcomes, { isGoing: this.isGoing });
  }

  // The same of the recorded run, where the picture is of another one.
  get countedBefore() {
    if (!this.recorded || this.isRecorded) return '';
    const { swept } = this.recorded.ended;
    return counted(swept, new Outcomes(swept, this.state().lineOf, $input('goal').value), { isGoing: false });
  }

  // Tries the edits of a run up to a step, of the one that is shown where no other one is given.
  async begin(asked = this.asked, on = this.state()) {
    const { program } = this.state(), { scenario, step, isEnd } = on;
    this.sweep?.stop();
    if (!asked && $select('sweep-what').value === 'bytes' && scenario.length) return this.refuse(RANGE_WANTED);
    if (!asked) return this.refuse('There is nothing to sweep: no input, no function, or a step at which the run has ended.');
    this.most = mostEditsOf(asked);
    if (this.most > MOST_EDITS) {
      return this.refuse(`These ${asked.within ? 'may be' : 'are'} ${grouped(this.most)} edits, and this page makes`
        + ` ${grouped(MOST_EDITS)} at most. ` + 'Choose fewer values, a range of bytes, or use `replaycheck sweep`.');
    }
    const { files, left } = filesOf(scenario, program);
    const sweep = this.sweep = new Sweep(program, files, asked, this.idle, () => this.goesOn(sweep));
    this.of = { asked, scenario, step, isEnd: isEnd || asked.kind === 'steps', left };  // faults at steps are compared at the end
    this.draws(sweep.swept);
    this.showOf();
    this.show(true);
    this.told();
    try {
      await sweep.run(this.workers);
      if (sweep === this.sweep) this.end(sweep);
    } catch (fault) {
      if (sweep === this.sweep) this.fail(fault);
    }
    if (sweep === this.sweep) this.show(false);
    return undefined;
  }

  // Begins the picture of a sweep of the run that it is of.
  draws(swept) {
    const { program, lineOf } = this.state(), { asked, scenario } = this.of;
    const word = (at) => scenario.valueAt(at, lengthAt(asked, at), program.loaded) ?? 0;
    this.picture.begin(swept, asked.kind === 'bytes' ? (at) => scenario.byte(at) : word, lineOf, $input('goal').value);
  }

  goesOn(sweep) {
    if (sweep !== this.sweep) return;
    this.picture.more();
    $progress('sweep-done').value = sweep.swept.edits / this.most;
    if (!sweep.isStopped) say('sweep-far', this.farTold(sweep.swept));
    this.told();
  }

  // How many edits were made, and of how many, if that is known: of a function's steps it isn't.
  farTold({ edits, asked }) { return asked.within ? many(edits, 'edit') : `${grouped(edits)} of ${many(this.most, 'edit')}`; }

  end({ swept, memory }) {
    this.picture.more(true);
    this.ended = { swept, memory };
    const { of, ended } = this, { kind, values, part } = of.asked;
    if (swept.isWhole && this.isRecorded && kind === 'bytes' && values === 'all' && !part) this.recorded = { of, ended };
    this.tellEnd();
    this.told();
  }

  // The outcome of the edits, in a sentence or two.
  tellEnd() {
    const { swept, memory } = this.ended, { scenario, left } = this.of, { outcomes } = this.picture;
    const rate = Math.round(swept.edits / Math.max(1, swept.time) * 1000);
    const stood = editsOf(scenario).length;
    const of = stood ? `the run with ${many(stood, 'edit')}` : 'the unedited run';
    const parts = [
      swept.isWhole ? '' : `stopped after ${this.farTold(swept)}: `,
      outcomes.goal ? `${did(outcomes.reached, 'reaches', 'reach')} the goal “${outcomes.goal}”. ` : '',
      `${many(swept.edits, 'edit')} of ${of}: ${did(outcomes.fresh, 'makes', 'make')} a new error, leak or stop, `,
      `${grouped(outcomes.changed)} more end${outcomes.changed === 1 ? 's' : ''} in another way${upTo(swept)}.`,
      left.length ? ` Left out: ${left.join(', ')}.` : '',
    ];
    say('sweep-told', parts.join(''));
    $('sweep-told').title = `${milliseconds(swept.time)}, ${grouped(rate)} a second, ${size(memory)} a worker`;
  }

  // Another goal: the edits that are made stay, and what is said of them changes.
  showGoal() {
    if (!this.of) return;
    this.picture.seek($input('goal').value);
    if (this.ended?.swept === this.picture.swept) this.tellEnd();
    this.told();
  }
}

// How many of some edits do something.
const did = (count, one, more) => `${grouped(count)} of them ${count === 1 ? one : more}`;

// The places of a sweep of the words, or of the instructions of either length, that the code has.
function placesIn({ starts, lengths }) {
  const code = lengths && new Map(starts.map((at, index) => [at, { index, length: lengths.get(at) }]));
  return { first: starts[0], last: starts.at(-1), ...(code && { starts, code }) };
}

// What is asked of the bytes of an input of this length, or of a part of them, `A..B`, `A..` or `A`: null where it has no such bytes.
function bytesAsked(asked, part, length) {
  const [all, from, dots, to] = PART.exec(part) ?? [], first = Number(from ?? 0);
  const last = Math.min(dots && !to ? length : Number(to ?? from), length - 1);
  if (!part) return { ...asked, first: 0, last: length - 1, part };
  return all && first <= last ? { ...asked, first, last, part, name: first < last ? `bytes ${first}..${last}` : `byte ${first}` } : null;
}

const isSameRun = (a, b) => a.base === b.base && a.lines.join('\n') === b.lines.join('\n');
