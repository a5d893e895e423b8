// The line at the top: how the run ends, whichever step is looked at, how many edits break it, whether uninitialised memory has an
// influence, how the run is at the step, and the unedited run.
import { $, say } from '../common/dom.js';
import { grouped, hexWord, many, milliseconds } from '../common/numbers.js';
import { stateOf } from '../engine/report.js';
import { placeOf, worstOf } from '../engine/worst.js';
import { hasAtomics, nameOf, unitOf } from '../riscv/isa.js';

const STATES = {
  jump: () => 'jumped to where no memory is', break: () => 'met an EBREAK', illegal: (isa) => `met no instruction of ${nameOf(isa)}`,
  misaligned: (isa, address) => (hasAtomics(isa) && address % unitOf(isa) === 0
    ? 'met an atomic instruction whose address is no multiple of 4' : `jumped to an address that is no multiple of ${unitOf(isa)}`),
};
const CLEAN = /^clean (up )?to step (\d+): /, FIRST_USE = /^not clean: first use at step (\d+): /;

function stateWords({ name, rest, address }, isa) {
  if (name === 'exited') return `exited with ${rest}`;
  if (name === 'running') return `running at ${rest}`;
  return `stopped: ${STATES[rest.split(' ')[0]]?.(isa, address) ?? rest}, at ${hexWord(address)}`;
}

// What only this run has, in words: the one thing with its place, or how many errors and leaks.
function freshWords(fresh, lineOf) {
  const groups = fresh.map((it) => it.group), worst = worstOf(groups);
  if (!worst) return '';
  const told = `${worst.text}${placeOf(worst, lineOf)}`;
  if (groups.length === 1) return `${told} (new)`;
  const errors = groups.filter((it) => it.isError).length, leaks = groups.length - errors;
  const counts = [errors && many(errors, 'error'), leaks && many(leaks, 'leak')].filter(Boolean).join(' and ');
  return errors ? `${counts}, new, the worst: ${told}` : `${counts}, new`;
}

export class Verdict {
  lineOf;
  isa;
  use = null;
  bug = null;
  before;

  // `lineOf` tells the source line of an address; `isa` for which instruction set the run is; `showPicture` and `go` go to the picture
  // and to a step; `certify` has the program asked whether uninitialised memory has an influence.
  constructor({ lineOf, isa, showPicture, go, certify }) {
    this.lineOf = lineOf;
    this.isa = isa;
    $('counted').addEventListener('click', showPicture);
    $('certified').addEventListener('click', () => (this.use === null ? certify() : go(this.use)));
    $('bug-step').addEventListener('click', () => go(this.bug));
  }

  // Shows how a run ends beside the unedited one; `fresh` are the errors and leaks that only it has. `at` is its report at the step that is
  // looked at, where that isn't its end.
  show(end, unedited, { fresh, time, at = null }) {
    const [now, before] = [end, unedited].map((it) => this.inShort(it));
    this.before = before === now ? '' : `unedited: ${before}`;
    const worst = worstOf(end.groups.filter((it) => it.isError));
    const told = freshWords(fresh, this.lineOf) || (worst ? `${worst.text}${placeOf(worst, this.lineOf)}` : '');
    say('verdict', [told, now].filter(Boolean).join(' · '));
    $('verdict').className = this.howGood(end);
    $('verdict').title = `answered in ${milliseconds(time)}`;
    this.sayAt(at ? `at step ${grouped(at.step)}: ${this.inShort(at)}` : '');
  }

  // Shows how a run is at a step, until it is known how it ends.
  showSoFar(at) {
    say('verdict', `up to step ${grouped(at.step)}: ${this.inShort(at)}`);
    $('verdict').className = at.errors ? 'bad' : '';
    $('verdict').title = '';
    this.before = '';
    this.sayAt('');
  }

  // Offers to go to the step of the worst error, null where there is none.
  offerBug(step) {
    this.bug = step;
    say('bug-step', step === null ? '' : `go to step ${grouped(step)}, just before it`);
    $('bug-step').hidden = step === null;
  }

  sayAt(text) {
    say('verdict-at', text);
    $('verdict-at').hidden = !text;
  }

  // Shows how many edits break the run, and the same of the unedited one.
  count(now, before) {
    say('counted', now);
    $('counted').hidden = !now;
    say('before', [this.before, this.before && before].filter(Boolean).join(' · '));
  }

  // Shows whether memory that isn't initialised has an influence, by the program's line about it, which is empty until it is there.
  certify(line) {
    const [, step] = FIRST_USE.exec(line) ?? [];
    this.use = step === undefined ? null : Number(step);
    const [isClean, goesOn, until] = CLEAN.exec(line) ?? [];
    const upTo = goesOn ? ` up to step ${grouped(Number(until))}; the run goes on` : '';
    const told = isClean ? `uninitialised memory has no influence on it${upTo}`
      : this.use === null ? '' : `from step ${grouped(this.use)} on, what uninitialised or freed memory holds may change it`;
    this.sayCertified(told, this.use !== null, line);
  }

  // Offers to ask for that, where it isn't asked by itself, and says that it is being asked.
  offer() { this.sayCertified('does uninitialised memory matter?', true, 'asks the program, which may need some seconds'); }
  wait() { this.sayCertified('asking whether uninitialised memory matters', false, ''); }

  sayCertified(told, isButton, title) {
    say('certified', told);
    Object.assign($('certified'), { hidden: !told, disabled: !isButton, title });
  }

  // Shows that there is no report.
  clear(text) {
    say('verdict', text);
    Object.assign($('verdict'), { className: '', title: '' });
    this.before = '';
    this.sayAt('');
    this.offerBug(null);
    this.count('', '');
    this.certify('');
  }

  // A run that goes on where it should have ended is no good one, whatever it has reported so far.
  howGood(end) {
    const { name } = stateOf(end);
    if (end.errors || end.sums['definitely lost'].bytes || name === 'stopped') return 'bad';
    return name === 'running' ? 'open' : 'good';
  }

  // How the run stands, in one line.
  inShort(report) {
    const state = stateOf(report), line = state.address === null ? null : this.lineOf(state.address);
    const lost = report.sums['definitely lost'].bytes;
    const words = [
      stateWords(state, this.isa()) + (line ? ` (${line})` : ''),
      report.errors ? `${many(report.errors, 'error')} in ${many(report.contexts, 'place')}` : 'no errors',
      lost ? `${many(lost, 'byte')} lost` : '',
    ];
    return words.filter(Boolean).join(' · ');
  }
}
