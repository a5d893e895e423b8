// What is opened: files by their roles, the program over them, its sessions, and the reports of its unedited run.
import { Elf } from '../debuginfo/elf.js';
import { Lines } from '../debuginfo/lines.js';
import { Variables } from '../debuginfo/variables.js';
import { parseReport } from '../engine/report.js';
import { Scenario } from '../engine/scenario.js';
import { Session } from '../engine/sessions.js';
import { endOf } from '../run/steps.js';
import { boardAdvice } from './boards.js';
import { polledOffer } from './polled.js';
import { offersFor } from './start-file.js';
import { unseenHeap } from './unseen-heap.js';

const BEYOND = 4096;  // steps after the end of the unedited run, and three times as many as it has
const MOST_BEFORE = 500;  // reports of the unedited run that are kept

// Whether a run goes on at the step of a report.
export const isRunning = (report) => report.state.startsWith('running');

export class Opened {
  program;
  files;
  target;
  /** @type {Elf} */ elf;
  base;
  /** @type {Scenario} */ plain;
  before = new Map();
  /** @type {Lines} */ lines;
  lineOf;
  /** @type {Variables} */ variables;
  /** @type {Session} */ session;
  /** @type {Session} */ unedited;
  /** @type {Session} */ search;
  last;
  follow;
  heap;
  board;
  offers;

  // `base` is the input as it is read, a value of its own for each opening: scenarios over it are of these files and of this
  // target.
  constructor(files, module, base, { target, limit, again, lines, makeWorker }) {
    const elf = new Elf(files.program.bytes), lineTable = new Lines(elf);
    this.offers = offersFor(elf, target);
    elf.leaveOut(target.stack);
    const given = Object.fromEntries(Object.entries(files).map(([role, it]) => [role, it.bytes]));
    this.program = { module, files: given, target, base, elf, limit, again, makeWorker, loaded: (at, length) => elf.loaded(at, length) };
    this.files = files;
    this.target = target;
    this.elf = elf;
    this.base = base;
    this.plain = new Scenario(base);
    this.lines = lineTable;
    this.lineOf = remembered((address) => lineTable.lineOf(address));
    this.variables = new Variables(elf);
    this.session = new Session(this.program, lines);
    this.unedited = new Session(this.program);
    this.search = new Session(this.program);
  }

  get isa() { return this.target.isa; }
  get sessions() { return [this.session, this.unedited, this.search]; }

  // Runs the unedited program: a file that can't be used, and memory that runs out, are faults here.
  async run() {
    await this.session.report(this.plain, 0);
    this.last = await endOf(async (step) => isRunning(await this.reportBefore(step)), this.target.furthest);
    this.follow = Math.min(this.target.furthest, 4 * this.last + BEYOND);
    this.heap = await unseenHeap(this.program, this.last);
    const { elf, target, files } = this, given = { elf, target, name: files.program.name, input: files.input?.name };
    const report = await this.reportBefore(this.last), polled = polledOffer(this, report);
    this.board = boardAdvice(given, report);
    if (polled) this.offers.push(polled);
    return this;
  }

  // Where the run of a scenario ends, and whether it still runs there: one that is longer is shown up to `follow`.
  async endOf(scenario) {
    const { last } = this;
    if (scenario === this.plain) return { last, goesOn: await this.isCut() };
    const runsAt = async (step) => isRunning(parseReport(await this.search.report(scenario, step)));
    if (await runsAt(this.follow)) return { last: this.follow, goesOn: true };
    return { last: await endOf(runsAt, this.follow), goesOn: false };
  }

  // Whether the unedited run still runs at the last step that there is.
  async isCut() { return this.last === this.target.furthest && isRunning(await this.reportBefore(this.last)); }

  async reportBefore(step) {
    const { before, plain, unedited } = this;
    if (!before.has(step)) {
      const report = parseReport(await unedited.report(plain, step));
      if (before.size >= MOST_BEFORE) before.clear();
      before.set(step, report);
    }
    return before.get(step);
  }

  stop() {
    for (const it of [this.session, this.unedited]) it.stop();
  }

  close() {
    for (const it of this.sessions) it.close();
  }
}

function remembered(tell) {
  const known = new Map();
  return (address) => {
    if (!known.has(address)) known.set(address, tell(address));
    return known.get(address);
  };
}
