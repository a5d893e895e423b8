// The page: holds the scenario and the step, asks sessions for reports, and has the parts of the page show them.
import { $, $button, $input, say, speaks } from './common/dom.js';
import { grouped, hexByte, hexWord, many } from './common/numbers.js';
import { Roving } from './common/roving.js';
import { inBatches } from './engine/batches.js';
import { History } from './engine/history.js';
import { parseMemory } from './engine/looks.js';
import { parseReport } from './engine/report.js';
import { loadModule, makeWorker } from './engine/resources.js';
import { NoEdit } from './engine/scenario.js';
import { meetsRegion, notLoaded, sentence } from './engine/sentences.js';
import { Refused } from './engine/sessions.js';
import { isSameTarget, targetIn, targetLines } from './engine/targets.js';
import { ERROR_KINDS, LEAK_KINDS, MODULE_SUM } from './facts.js';
import { Opened, isRunning } from './files/opened.js';
import { Opening } from './files/opening.js';
import { Bytes } from './panels/bytes.js';
import { Code } from './panels/code.js';
import { Edits } from './panels/edits.js';
import { FileNotes } from './panels/file-notes.js';
import { Linked } from './panels/linked.js';
import { Machine } from './panels/machine.js';
import { Output } from './panels/output.js';
import { ReportPanel } from './panels/report-panel.js';
import { SourcePanel } from './panels/source-panel.js';
import { Tabs } from './panels/tabs.js';
import { TypedInput } from './panels/typed-input.js';
import { Stale, VariablesPanel } from './panels/variables-panel.js';
import { Verdict } from './panels/verdict.js';
import { WholeRun } from './panels/whole-run.js';
import { unitOf } from './riscv/isa.js';
import { Search, Steps } from './run/steps.js';
import { Strip } from './run/strip.js';
import { SweepPanel } from './sweep/sweep-panel.js';

const words = new URLSearchParams(location.search);
const LIMIT = Number(words.get('memory')) || 1 << 30;  // bytes that a session may take
const WORKERS = Number(words.get('workers')) || navigator.hardwareConcurrency || 2;
const SHORT_RUN = 100000;  // steps of a run whose edits are all made as it is opened
const QUIET = 300;  // milliseconds after an edit, before landmarks are searched and the link is changed
const LONG = 600;  // milliseconds after which work is told, with a button that stops it
const PARTS = ['step', 'strip', 'input', 'edits', 'source', 'output', 'state'];
// Parts that are one stop of the Tab key each, and what a row is in them.
const ROVING = [['examples', 'nav'], ['landmarks', 'div'], ['legend-rows'], ['chips', 'li'], ['report', 'li, p'], ['code-rows'],
  ['source-rows'], ['output-lines', 'li'], ['calls', 'li'], ['variable-rows'], ['global-rows'], ['registers', 'li'], ['bits', '#bits'],
  ['memory-rows'], ['block-rows']];
const CHANGES_NOTHING = /^(?:#.*|report|worked|)$/;  // lines of a text that are no edits
const BEYOND_STEPS = 5;  // the number with which a session refuses a step

// Whether text is typed into an element, which has undo of its own.
const isText = (it) => it instanceof HTMLTextAreaElement || (it instanceof HTMLInputElement && !/^(?:range|checkbox)$/.test(it.type));

// The program's module can't be loaded, in words.
class NotLoaded extends Error {}

class App {
  turn = 0;
  left = 0;
  isTravelling = false;
  /** @type {?Opened} */ opened = null;
  /** @type {?History} */ history = null;
  sources = new Map();
  /** @type {SourcePanel} */ source;
  /** @type {Opening} */ opening;
  /** @type {Bytes} */ bytes;
  /** @type {Code} */ code;
  /** @type {Machine} */ machine;
  /** @type {VariablesPanel} */ variables;
  /** @type {ReportPanel} */ reports;
  /** @type {Verdict} */ verdict;
  /** @type {Steps} */ steps;
  /** @type {Strip} */ strip;
  /** @type {Edits} */ edits;
  /** @type {Tabs} */ tabs;
  /** @type {FileNotes} */ notes;
  /** @type {Linked} */ linked;
  /** @type {Output} */ output;
  /** @type {WholeRun} */ whole;
  /** @type {SweepPanel} */ sweeps;
  wanted;
  /** @type {?Opened} */ judged;
  scenario;
  shown;
  marked;
  step;
  isWanted;
  isBusy;
  timer;

  constructor() {
    const edit = (scenario, series) => this.edit(scenario, series);
    const refuse = (text, how) => this.notice(text, how), make = (...edit) => this.make(...edit);
    this.tabs = new Tabs({ opens: (name) => this.opensTab(name) });
    this.source = new SourcePanel({ visit: (address) => this.code.visit(address), refuse, drawn: () => this.linked?.mark() });
    this.opening = new Opening({ open: (files, how) => this.open(files, how), refuse, source: this.source, tabs: this.tabs });
    this.notes = new FileNotes({ opening: this.opening, lines: () => this.lines, tell: (text, it) => this.notice(text, 'good', it),
      patch: (all) => edit(all.reduce((now, { at, value, length }) => now.withPatch(at, value, length), this.scenario)) });
    this.bytes = new Bytes({ edit, tell: (at) => this.byteTold(at), moved: () => this.sweeps?.picture.draw() });
    new TypedInput({ use: (bytes) => this.edit(this.scenario.withInput(bytes)), refuse });
    const alter = (line) => this.edit(this.scenario.after(line));
    this.code = new Code({ edit, alter, refuse, shows: (address) => this.source.visit(address),
      opens: () => this.tabs.open('code'), drawn: () => this.linked?.mark() });
    this.machine = new Machine({ look: (step, lines) => this.opened.session.replies(this.shown.scenario, step, lines),
      search: (scenario, step, lines) => this.opened.search.replies(scenario, step, lines), again: () => this.showState(), alter, refuse,
      go: (step) => this.go(step), showPc: (pc, step) => this.showPlace(pc, step), visit: (address) => this.code.visit(address),
      functionAt: (address) => this.opened.elf.functionAt(address), lineOf: (address) => this.opened.lineOf(address),
      rests: () => this.showVariables(), opens: () => this.tabs.open('memory') });
    this.variables = new VariablesPanel({ show: (address) => this.machine.choose(address, address), fail: (fault) => this.unread(fault) });
    this.reports = new ReportPanel({ lineOf: (address) => this.opened.lineOf(address), visit: (address) => this.code.visit(address),
      suppress: (text) => this.edit(this.scenario.withSuppression(text)), kinds: { errors: ERROR_KINDS, leaks: LEAK_KINDS } });
    const showPicture = () => { $('picture').scrollIntoView({ block: 'center' }); $('picture').focus({ preventScroll: true }); };
    this.verdict = new Verdict({ lineOf: (address) => this.opened.lineOf(address), isa: () => this.opened.isa, go: (step) => this.go(step),
      certify: () => this.certifyLong(), showPicture });
    this.steps = new Steps({ go: (step) => this.go(step) });
    this.whole = new WholeRun(this, words.has('still'));
    this.output = new Output({ go: (step) => this.steps.choose(step) });
    this.strip = new Strip({ choose: (step) => this.steps.choose(step), explain: (fault) => sentence(fault, LIMIT),
      known: () => this.whole.showOutput(), drew: () => this.sweeps?.picture.followStrip() });
    this.edits = new Edits({ edit, clear: () => this.edit(this.opened.plain), use: (text) => this.use(text), refuse,
      tell: (text) => this.notice(text, 'good'),
      link: async () => new URL(await this.opening.link(this.lines), location.href).href,
      text: () => [...targetLines(this.opened.target), ...this.lines, ''].join('\n') });
    const state = () => ({ program: this.opened.program, lineOf: this.opened.lineOf, scenario: this.scenario, step: this.step,
      plain: this.opened.plain, range: this.code.range, name: this.code.shown?.name,
      instructionsIn: (...ends) => this.code.instructionsIn(...ends), isEnd: this.step === this.opened.follow,
      at: this.steps.shown, end: this.steps.last, follow: this.opened.follow });
    this.sweeps = new SweepPanel({ state, make, refuse, fail: (fault) => this.notice(sentence(fault, LIMIT)),
      told: () => this.showCounts(), makeWorker, workers: WORKERS, ends: (count) => this.bytes.ends(count),
      pointed: (at) => this.bytes.point(at), links: (address) => this.linked?.pointed(address), axis: this.strip.drawing });
    this.linked = new Linked({ placeAt: (address) => this.opened?.lines.placeAt(address), pathOf: () => this.source.path,
      point: (isThere) => this.sweeps.picture.pointOut(isThere) });
    for (const it of ROVING) new Roving(...it);
    this.listen();
    say('sum', `The program’s module: SHA-256 ${MODULE_SUM}`);
    $('unstarted').remove();
  }

  listen() {
    $('undo').addEventListener('click', () => this.travel(-1));
    $('redo').addEventListener('click', () => this.travel(1));
    $('stop-report').addEventListener('click', () => { for (const it of [this.opened, this.judged]) it?.stop(); });
    addEventListener('hashchange', () => this.opening.follow(location.hash));
    addEventListener('pagehide', () => this.keep());
    addEventListener('keydown', (event) => {
      const key = event.key.toLowerCase();
      if (!(event.ctrlKey || event.metaKey) || isText(event.target) || (key !== 'z' && key !== 'y')) return;
      this.travel(key === 'y' || event.shiftKey ? 1 : -1);
      event.preventDefault();
    });
  }

  // What stands at the top of the page until the next edit: what went wrong, or a `good` thing; and what is offered, a button and what
  // is said after it.
  notice(text, how = 'bad', offered = []) {
    if (offered.length) $('notice').replaceChildren(text, ' ', ...offered);
    else say('notice', text);
    $('notice').className = how;
    $('notice').hidden = !text;
  }

  // ---- opening

  // Opens files, and uses lines of a session. What can't be used leaves all as it was. Gives whether they were opened; others
  // may be opened meanwhile: then these aren't.
  async open(files, how) {
    const { lines = [], example = null, target } = how;
    const base = files.input?.bytes.slice() ?? new Uint8Array();
    const opened = await this.judge(files, base, how);
    if (!opened) return false;
    const scenario = this.keptOver(opened);
    this.sources.set(base, { files, example, target });
    this.replace(opened, example);
    if (this.history) this.history.add(scenario);
    else this.history = new History(scenario);
    await this.begin(scenario, lines);
    return true;
  }

  // Runs files before anything is given up for them: null where they can't be used, which a line says, or are no longer wanted.
  async judge(files, base, how) {
    const wanted = this.wanted = Symbol('wanted');
    this.judged?.close();
    try {
      const module = await loadModule().catch((fault) => { throw new NotLoaded(notLoaded(fault)); });
      if (wanted !== this.wanted) return null;
      const { target } = how, lines = Number(words.get('lines')) || undefined;
      const shape = { target, limit: LIMIT, again: words.has('again'), lines, makeWorker };
      const opened = this.judged = new Opened(files, module, base, shape);
      await this.told('The program runs', opened.run());
      if (wanted === this.wanted) return opened;
      opened.close();
    } catch (fault) {
      if (wanted !== this.wanted) return null;
      if (fault instanceof NotLoaded) this.unusable(fault.message);
      else this.unusable(sentence(fault, LIMIT), meetsRegion(fault) ? this.notes.elsewhere(files, how) : undefined);
    }
    return null;
  }

  unusable(text, { more, offered } = { more: '', offered: [] }) {
    this.judged?.close();
    this.judged = null;
    if (!this.opened) this.failed();
    this.notice([text, more].filter(Boolean).join(' '), 'bad', offered);
  }

  // The edits that stand, over other files of the same program: those that don't fit are left out, and a line says so.
  keptOver(opened) {
    if (this.opened?.files.program !== opened.files.program) return opened.plain;
    const isSame = this.opened.files.supp === opened.files.supp;
    const { scenario, left } = this.scenario.over(opened.base, isSame, unitOf(opened.isa), opened.program.loaded);
    this.left = left;
    return scenario.lines.length ? scenario : opened.plain;
  }

  // Shows other files in the place of those that are open.
  replace(opened, example) {
    const { history } = this;
    this.close();
    this.opened = opened;
    this.judged = null;
    this.history = history;
    this.isTravelling = false;
    this.opening.hold(opened.files, example, opened.target);
  }

  // Ends what goes on with the files that are open.
  close() {
    clearTimeout(this.timer);
    this.opened?.close();
    this.sweeps.close();
    this.strip.close();
    this.opened = null;
    this.scenario = null;
    this.history = null;
    this.shown = null;
    this.marked = null;
    this.whole.clear();
    this.notice('');
    this.showTravel();
    $('main').inert = true;
    return this.turn += 1;
  }

  // Shows that there is no report. What was open before can be had again by Undo.
  failed() {
    const { history } = this;
    this.close();
    this.history = history;
    this.showTravel();
    this.verdict.clear('No report.');
    this.showParts(false);
  }

  showParts(are) {
    for (const it of PARTS) $(`${it}-part`).hidden = !are;
    $('start').hidden = are;
    $('main').inert = false;
    $('example-told').hidden = !are || !this.opening.example;
    this.notes.show(are ? this.opened : null);
  }

  async begin(scenario, lines = []) {
    const { opened, left } = this, { files, last, follow } = opened;
    this.scenario = scenario;
    this.step = follow;
    this.left = 0;
    say('example-told', this.opening.example?.about ?? '');
    if (this.opening.example) $input('goal').value = this.opening.example.goal ?? '';
    this.showParts(true);
    const title = [files.program, files.input].filter(Boolean).map((it) => it.name).join(' with ');
    document.title = `${title} — replaycheck`;
    say('open-name', title);
    this.steps.open(last, follow, opened.target.furthest);
    this.strip.open(opened);
    this.source.open(opened, this.opening.ownSources);
    this.variables.open(opened.variables);
    this.output.clear();
    this.code.open(opened, scenario);
    this.machine.open();
    if (lines.length) this.use(lines.join('\n'));
    const [edited] = [...this.scenario.changes.keys()].sort((a, b) => a - b);
    if (edited !== undefined) this.bytes.pick(edited);
    const were = left === 1 ? 'was' : 'were';
    if (left) this.notice(`${many(left, 'edit')} didn’t fit and ${were} left out. Undo brings back what was open.`);
    await this.refresh();
  }

  // Waits for work, which is told where it is long, with the time that it takes.
  async told(what, work) {
    const begun = performance.now();
    const timer = setInterval(() => {
      const time = performance.now() - begun;
      if (time > LONG) say('work', `${what}: ${many(Math.round(time / 1000), 'second')}`);
      $('stop-report').hidden = time <= LONG;
    }, LONG / 3);
    try {
      return await work;
    } finally {
      clearInterval(timer);
      say('work', '');
      $('stop-report').hidden = true;
    }
  }

  // ---- the scenario

  edit(scenario, series) {
    this.notice('');
    this.opening.edited();
    this.history.add(scenario, series);
    this.show(scenario);
  }

  show(scenario) {
    this.scenario = scenario;
    this.showScenario();
    this.refresh();
  }

  // Has the parts show what they edit, before there is a report of it.
  showScenario() {
    const { scenario } = this;
    this.bytes.show(scenario, this.shown?.report.read ?? 0);
    this.code.show(scenario);
    this.edits.show(scenario, Math.min(this.step, this.steps.last));
    this.strip.follow(scenario);
    this.sweeps.showOf();
    this.showCounts();
    this.showTravel();
  }

  // Shows what is known of the edits of the run.
  showCounts() {
    speaks('byte-told', false);
    this.bytes.tellOf(this.bytes.here);
    if (this.shown) this.verdict.count(this.sweeps.counted, this.sweeps.countedBefore);
  }

  showTravel() {
    $button('undo').disabled = !this.history?.canUndo;
    $button('redo').disabled = !this.history?.canRedo;
  }

  // Goes back or on in the history, in which other files may have been open.
  async travel(by) {
    if (!this.history?.travel(by)) return;
    if (this.isTravelling) this.wanted = null;  // to files of before, which are wanted no more
    this.notice('');
    this.bytes.beginSeries();
    const scenario = this.history.now;
    this.isTravelling = scenario.base !== this.opened?.base;
    if (!this.isTravelling) this.show(scenario);
    else if (!await this.openAgain(scenario) && this.history?.now === scenario) this.history.travel(-by);
    this.showTravel();
  }

  // Opens the files that a scenario is of. Gives whether that could be done.
  async openAgain(scenario) {
    const { files, example, target } = this.sources.get(scenario.base);
    const opened = await this.judge(files, scenario.base, { example, target });
    if (!opened) return false;
    this.replace(opened, example);
    await this.begin(scenario.lines.length ? scenario : opened.plain);
    return true;
  }

  go(step) {
    this.step = step;
    this.steps.show(step);
    this.strip.at(this.steps.shown);
    this.refresh();
  }

  // Makes an edit of the picture, over the run that it is of: of an instruction by its length in bytes, of a step by its line.
  make(kind, at, value, how) {
    const scenario = this.sweeps.isRecorded ? this.opened.plain : this.scenario;
    if (kind === 'steps') this.edit(scenario.after(how));
    else this.edit(kind === 'bytes' ? scenario.withByte(at, value) : scenario.withPatch(at, value, how));
    if (kind === 'steps') return;
    if (kind === 'bytes') this.bytes.pick(at);
    else this.code.visit(at, false);
  }

  // Makes the lines of a text the scenario; for another target, which a line may name, the files are opened again.
  use(text) {
    const said = targetIn(text), { plain, follow, target } = this.opened;
    if (said && !this.opening.check(said)) return;
    if (said && !isSameTarget(said.target, target)) {
      this.opening.again(said.target, text.split('\n'));
      return;
    }
    let scenario = plain, step = follow;
    try {
      for (const line of text.split('\n').map((it) => it.replace(/\r$/, ''))) {
        const goto = /^goto (\d+|0[xX][0-9a-fA-F]+)$/.exec(line);
        if (goto && Number(goto[1]) > target.furthest) throw new Refused(line, BEYOND_STEPS);
        if (goto) step = Number(goto[1]);
        else if (!CHANGES_NOTHING.test(line)) scenario = scenario.after(line);
      }
    } catch (fault) {
      if (!(fault instanceof NoEdit || fault instanceof Refused)) throw fault;
      this.notice(sentence(fault, LIMIT));
      return;
    }
    this.step = step;
    this.steps.show(step);
    this.edit(scenario);
  }

  // The scenario as lines, with its step where it isn't the end.
  get lines() {
    return [...(this.step === this.opened.follow ? [] : [`goto ${this.step}`]), ...this.scenario.lines];
  }

  // ---- reports

  // Shows the report of what is wanted last: of what is wanted meanwhile, all but the last is left out.
  refresh() {
    this.isWanted = true;
    this.isBusy ??= this.answer();
    return this.isBusy;
  }

  async answer() {
    await null;  // so that `isBusy` is set before this ends
    try {
      while (this.isWanted) {
        this.isWanted = false;
        if (this.scenario) await this.ask();
      }
    } finally {
      this.isBusy = null;
    }
  }

  async ask() {
    const { scenario, step, turn, opened } = this, begun = performance.now();
    try {
      const { lines } = this.machine, all = opened.session.replies(scenario, step, ['report', ...lines]);
      const [[text, ...looks], unedited] = await this.told('The report is made', Promise.all([all, opened.reportBefore(step)]));
      if (turn !== this.turn) return;
      this.shown = { scenario, step, report: parseReport(text), unedited, lines, looks, time: performance.now() - begun };
      this.display();
    } catch (fault) {
      if (turn === this.turn && scenario === this.scenario && step === this.step) this.refused(fault);
    }
  }

  // Goes back to what was shown last, where a report can't be had.
  refused(fault) {
    const told = sentence(fault, LIMIT), { plain, follow } = this.opened;
    if (!this.shown && this.scenario === plain) {
      this.failed();
      this.notice(told);
      return;
    }
    const { scenario, step } = this.shown ?? { scenario: plain, step: follow };
    this.history.backTo(scenario);
    this.steps.show(this.step = step);
    this.scenario = scenario;
    if (this.shown) this.display();
    else this.isWanted = true;
    this.notice(told);
  }

  display() {
    const { step, report, unedited, time } = this.shown;
    const isLast = step === this.opened.follow, runsOn = isRunning(report);
    const at = `at step ${grouped(report.step)}`, where = isLast ? (runsOn ? `${at}, still running` : 'at the end of the run') : at;
    this.reports.show(report, unedited, where);
    this.verdict.certify('');
    this.whole.showVerdict();
    this.strip.at(this.steps.shown);
    this.showScenario();
    this.whole.lookAtNew();
    this.verdict.offerBug(null);
    this.showState();
    clearTimeout(this.timer);
    this.timer = setTimeout(() => this.settle(), QUIET);
  }

  // Shows calls, registers and memory: at the step that is looked at, or, where that is the end, before the worst error, whose line comes
  // into view.
  async showState() {
    const { turn, shown, whole } = this, { bug } = whole;
    try {
      if (!bug) {
        await this.machine.show(shown);
        return;
      }
      const at = await whole.stateAt(bug, shown);
      if (shown !== this.shown || turn !== this.turn) return;
      this.verdict.offerBug(at.isBug ? at.step : null);
      const isDone = this.machine.show(at);
      whole.visitBug(bug, shown);
      await isDone;
    } catch (fault) {
      const isWanted = shown === this.shown && shown.scenario === this.scenario && shown.step === this.step;
      if (turn === this.turn && isWanted) this.notice(sentence(fault, LIMIT));
    }
  }

  // Shows where the run is: its code and its line.
  showPlace(pc, step) {
    this.code.showPc(pc, step);
    this.source.follow(pc, step);
  }

  showVariables() {
    const { shown, seen } = this.machine, { session } = this.opened;
    const look = inBatches(async (lines) => {
      await session.rest();
      const isThere = shown.isBug ? this.step === this.opened.follow : shown.step === this.step;
      if (!isThere || shown.scenario !== this.scenario) throw new Stale();  // or the session would have to go back
      return session.replies(shown.scenario, shown.step, lines);
    });
    this.variables.show(seen.pc, seen.registers, async (address, length) => {
      const bytes = parseMemory(await look(`look memory ${hexWord(address)} ${length}`));
      return { bytes: bytes.map((it) => it.value), undefined: bytes.map((it) => it.undef) };
    });
  }

  // Tells a fault of a look, unless what was looked at is no longer wanted.
  unread(fault) {
    if (this.shown?.scenario === this.scenario && this.shown?.step === this.step) this.notice(sentence(fault, LIMIT));
  }

  // Asks the program whether uninitialised memory has an influence on what is shown, where that isn't done by itself.
  certifyLong() {
    this.verdict.wait();
    this.certify(this.opened.search);
  }

  // The same, by a session.
  async certify(session) {
    const { shown } = this;
    try {
      const [line] = await session.replies(shown.scenario, shown.step, ['look certify']);
      if (shown === this.shown && shown.scenario === this.scenario && shown.step === this.step) this.verdict.certify(line.trimEnd());
    } catch {
      // Memory that runs out, or a run that is no longer wanted: then nothing is said of it.
    }
  }

  // What is done when nobody edits for a moment: whether uninitialised memory matters, the link, the sweep of the run that is shown now,
  // its end, and its landmarks.
  async settle() {
    const { scenario, opened, turn } = this;
    if (opened.last <= SHORT_RUN) this.certify(opened.session);
    else this.verdict.offer();
    if (!await this.showLink()) return;
    if (!this.opening.wanted) this.keep();
    if (opened.last <= SHORT_RUN && !words.has('still')) this.sweeps.follow();
    if (this.marked === scenario) return;
    this.marked = scenario;
    this.steps.clear();
    const isStale = () => turn !== this.turn || this.marked !== scenario;
    try {
      const end = await opened.endOf(scenario);
      if (isStale()) return;
      this.steps.showEnd(end);
      this.strip.show(scenario, end.last);
      await new Search(opened.search, scenario, isStale, (it) => this.steps.add(it)).run(end.last);
    } catch (fault) {
      if (!isStale()) this.notice(sentence(fault, LIMIT));
    }
  }

  // Has the page's address lead to what is shown. Gives whether it is still open then.
  async showLink() {
    const { turn } = this, link = await this.opening.link(this.lines);
    if (turn !== this.turn) return false;
    if (!this.opening.wanted) history.replaceState(null, '', link);
    return true;
  }

  // A tab is opened: what it has is drawn where it can be seen now.
  opensTab(name) {
    if (name === 'code') this.code.reveal();
    if (this.shown) this.showLink();
  }

  // Keeps the scenario for the next visit, once something is open that no link or storage waits for.
  keep() {
    if (this.opened && this.shown && !this.opening.wanted) this.opening.keep(this.lines);
  }

  // What is told of a byte.
  byteTold(at) {
    const value = this.scenario.byte(at), was = this.scenario.base[at];
    const before = this.scenario.isEdited(at) && was !== undefined ? `, unedited ${hexByte(was)}` : '';
    return `byte ${at}: ${hexByte(value)}${before}. ${this.sweeps.saidOf(at)}`;
  }
}

const app = new App();
globalThis.replaycheck = app;  // for tests
if (location.hash.length > 1) app.opening.follow(location.hash);
else if (!words.has('empty')) app.opening.first();
