// The step slider, with the landmarks of the run: the first step at which a report has read more, has other blocks, has ended; and the
// last one before it has one more error, which is the step of the instruction that raises it.
import { $, $button, $input, element, say } from '../common/dom.js';
import { grouped, many } from '../common/numbers.js';
import { parseReport } from '../engine/report.js';

const LEAST_GAP = 16, GRID = 160;
const MOST_LANDMARKS = 120;
const MOST_TIME = 4000;  // milliseconds
const LOOK_FIRST = 1024;
const NAMES = { read: 'input is read', heap: 'blocks of the heap change', error: 'an error', end: 'the end' };
const ABOVE = ['heap', 'read', 'error', 'end'];  // which landmarks lie over which, where they meet

// What tells landmarks apart in a report.
function signature(report) {
  const blocks = Object.values(report.sums).map(({ bytes, blocks }) => [bytes, blocks]);
  const total = [0, 1].map((i) => blocks.reduce((sum, it) => sum + it[i], 0)).join();
  return { read: report.read, heap: total, error: report.errors, end: !report.state.startsWith('running') };
}

// The first step at which a run has ended, or `most`. `isRunning` tells whether it runs at a step.
export async function endOf(isRunning, most) {
  let low = -1, high = Math.min(LOOK_FIRST, most);
  while (high < most && await isRunning(high)) [low, high] = [high, Math.min(most, high * 4)];
  if (high === most && await isRunning(most)) return most;
  while (high - low > 1) {
    const middle = Math.floor((low + high) / 2);
    if (await isRunning(middle)) low = middle;
    else high = middle;
  }
  return high;
}

const differing = (a, b) => Object.keys(NAMES).filter((it) => a[it] !== b[it]);

// Finds the landmarks of a run by reports at some steps, and then by halving where two of these differ.
export class Search {
  session;
  scenario;
  isStale;
  found;
  known = new Map();
  count = 0;
  begun = performance.now();

  constructor(session, scenario, isStale, found) {
    this.session = session;
    this.scenario = scenario;
    this.isStale = isStale;
    this.found = found;
  }

  async at(step) {
    if (this.isStale()) throw new Error('nobody wants it any more');
    if (!this.known.has(step)) {
      this.known.set(step, signature(parseReport(await this.session.report(this.scenario, step))));
    }
    return this.known.get(step);
  }

  get isOver() { return this.count >= MOST_LANDMARKS || performance.now() - this.begun > MOST_TIME; }

  async between(low, high) {
    const kinds = differing(await this.at(low), await this.at(high));
    if (!kinds.length || this.isOver) return;
    if (high - low === 1) {
      this.count += 1;
      const others = kinds.filter((it) => it !== 'error');
      if (kinds.includes('error')) this.found({ step: low, kinds: ['error'] });
      if (others.length) this.found({ step: high, kinds: others });
      return;
    }
    const middle = Math.floor((low + high) / 2);
    await this.between(low, middle);
    await this.between(middle, high);
  }

  // Ends with all that were found in time, or where nobody wants them any more.
  async run(last) {
    const gap = Math.max(LEAST_GAP, Math.ceil(last / GRID));
    try {
      await this.at(last);
      for (let low = 0; low < last && !this.isOver; low += gap) await this.between(low, Math.min(last, low + gap));
    } catch (fault) {
      if (!this.isStale()) throw fault;
    }
  }
}

export class Steps {
  go;
  most;
  last = 0;
  landmarks = [];
  follow;
  goesOn;
  step;

  // `go` takes the step that is chosen; the last one stands for the end of the run, however it is edited.
  constructor({ go }) {
    this.go = go;
    $('step').addEventListener('input', () => this.choose(Number($input('step').value)));
    $('step-number').addEventListener('change', () => this.choose(Number($input('step-number').value)));
    $('step-back').addEventListener('click', () => this.choose(this.shown - 1));
    $('step-on').addEventListener('click', () => this.choose(this.shown + 1));
    $('landmark-back').addEventListener('click', () => this.jump((it) => it.step < this.shown, -1));
    $('landmark-on').addEventListener('click', () => this.jump((it) => it.step > this.shown, 0));
  }

  // Shows a run of so many steps. It is looked at up to `follow`, and steps are given up to `most`.
  open(last, follow, most) {
    this.last = last;
    this.most = most;
    this.follow = follow;
    this.goesOn = false;
    this.landmarks = [];
    $input('step').max = `${last}`;
    $input('step-number').max = `${this.most}`;
    this.show(follow);
    this.draw();
  }

  // The slider ends where the run that is shown ends, or, where it goes on, at the last step that is looked at.
  showEnd({ last, goesOn }) {
    this.last = last;
    this.goesOn = goesOn;
    $input('step').max = `${last}`;
    this.show(this.step);
    this.draw();
  }

  get shown() { return Math.min(this.step, this.last); }

  choose(step) {
    const wanted = Math.max(0, Math.min(this.most, Math.round(step) || 0));
    this.go(wanted === this.last ? this.follow : wanted);
  }

  jump(is, index) {
    const found = this.landmarks.filter(is).at(index);
    if (found) this.choose(found.step);
  }

  show(step) {
    this.step = step;
    $input('step').value = `${this.shown}`;
    if (document.activeElement !== $('step-number')) $input('step-number').value = `${step === this.follow ? this.last : step}`;
    const end = this.goesOn ? ', still running' : ', the end';
    say('step-told', `of ${many(this.last, 'step')}${this.step === this.follow ? end : ''}`);
    $('step').setAttribute('aria-valuetext', `step ${grouped(this.shown)} of ${grouped(this.last)}`);
  }

  clear() {
    this.landmarks = [];
    this.draw();
  }

  add(landmark) {
    this.landmarks.push(landmark);
    this.landmarks.sort((a, b) => a.step - b.step);
    this.draw();
  }

  draw() {
    const marks = this.landmarks.flatMap(({ step, kinds }) => kinds.map((kind) => ({ step, kind })))
      .sort((a, b) => ABOVE.indexOf(a.kind) - ABOVE.indexOf(b.kind));
    $('landmarks').replaceChildren(...marks.map(({ step, kind }) => {
      const told = `step ${grouped(step)}: ${NAMES[kind]}`;
      const made = element('button', { className: `landmark ${kind}`, title: told, 'aria-label': told, onclick: () => this.choose(step) });
      made.style.left = `${100 * Math.min(1, step / Math.max(1, this.last))}%`;
      return made;
    }));
    this.explain(marks);
  }

  // What the landmarks are, and how many of each.
  explain(marks) {
    const counts = Object.entries(NAMES).map(([kind, name]) => [kind, name, marks.filter((it) => it.kind === kind).length]);
    $('landmark-key').replaceChildren(...counts.filter(([, , count]) => count).map(([kind, name, count]) => element('li', {},
      element('span', { className: `landmark ${kind}` }), `${name}${count > 1 ? ` (${count})` : ''}`)));
    for (const it of ['landmark-back', 'landmark-on']) $button(it).disabled = !marks.length;
  }
}
