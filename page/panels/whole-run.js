// What the page says of the whole run, whichever step is looked at: the line at the top, what the report says of lines, the output; and the
// worst error, to which the page goes by itself.
import { $ } from '../common/dom.js';
import { hexWord } from '../common/numbers.js';
import { bytesIn } from '../engine/looks.js';
import { compared, parseReport } from '../engine/report.js';
import { messagesOf, ownFrame, worstOf } from '../engine/worst.js';
import { isRunning } from '../files/opened.js';
import { MOST_BYTES } from './output.js';

export class WholeRun {
  page;
  isStill;
  ended = null;
  written = null;
  visited = null;
  lookedAt = '';

  // `page` has what is open and shown, and the panels; `isStill` says that it goes nowhere by itself.
  constructor(page, isStill) {
    this.page = page;
    this.isStill = isStill;
  }

  clear() {
    this.ended = null;
    this.written = null;
    this.visited = null;
  }

  // The line at the top is of the run up to its end, whichever step is looked at.
  async showVerdict() {
    const { page } = this, { shown, opened } = page, { scenario, step, report, unedited, time } = shown;
    const tell = (end, before, at) => {
      const fresh = compared(end, before).filter((it) => it.how === 'new');
      page.verdict.show(end, before, { fresh, time, at });
      page.source.tell(messagesOf(end.groups, opened.lineOf));
      this.readOutput(scenario, end.written);
      page.showCounts();
    };
    if (step === opened.follow || !isRunning(report)) {
      this.ended = { scenario, report };
      tell(report, unedited, null);
      return;
    }
    if (this.ended?.scenario !== scenario) page.verdict.showSoFar(report);
    try {
      const [end, before] = await Promise.all([this.reportAtEnd(scenario), opened.reportBefore(opened.follow)]);
      if (shown === page.shown && shown.scenario === page.scenario) tell(end, before, report);
    } catch {
      // Memory that runs out before the end, or a run that is no longer wanted: then the line is of the step.
    }
  }

  // Reads what a run writes, and what the unedited one does.
  async readOutput(scenario, length) {
    const { page } = this, { opened } = page, { plain, follow } = opened;
    const read = (session, of) => session.replies(of, follow, [`look output 0 ${MOST_BYTES}`]);
    if (this.written?.scenario === scenario) {
      this.showOutput();
      return;
    }
    try {
      const isEdited = scenario.lines.length > 0, { search, unedited } = opened;
      const [[now], before] = await Promise.all([read(isEdited ? search : unedited, isEdited ? scenario : plain),
        isEdited ? read(unedited, plain) : null]);
      if (opened !== page.opened || scenario !== page.scenario) return;
      this.written = { scenario, length, bytes: bytesIn(now), before: before && bytesIn(before[0]) };
      this.showOutput();
    } catch {
      // Memory that runs out, or a run that is no longer wanted: then what was written stays.
    }
  }

  // Shows what was read of the output, with the steps of its writes once these are known.
  showOutput() {
    const { written, page } = this, { scenario, step } = page;
    if (!written || written.scenario !== scenario) return;
    const writes = page.strip.writesOf(scenario);
    page.output.show({ ...written, writes, step: step === page.opened.follow ? null : step });
  }

  // The report of a scenario where its run ends, or is looked at no further.
  async reportAtEnd(scenario) {
    const { opened } = this.page;
    if (scenario === opened.plain) return opened.reportBefore(opened.follow);
    if (this.ended?.scenario !== scenario) {
      this.ended = { scenario, report: parseReport(await opened.search.report(scenario, opened.follow)) };
    }
    return this.ended.report;
  }

  // The error, leak or stop to which the page goes by itself, where the end of a run is looked at: the worst that is new, or else the worst
  // at all. Null where there is none, or where one wants nothing to be done.
  get bug() {
    const { isStill, page } = this, { step, report } = page.shown;
    if (isStill || step !== page.opened.follow) return null;
    const errors = (groups) => worstOf(groups.filter((it) => it.isError)) ?? worstOf(groups);
    const fresh = page.reports.groups.filter((it) => it.how === 'new').map((it) => it.group);
    return errors(fresh) ?? errors(report.groups);
  }

  // What is shown of a run before its instruction raises an error: that of the end where it can't be found, or where it is a leak.
  async stateAt({ isError, trace }, shown) {
    if (!isError || !trace.length) return shown;
    const { scenario } = shown, { search, session, follow } = this.page.opened, { lines } = this.page.machine;
    const [found] = await search.replies(scenario, 0, [`look next error ${hexWord(trace[0].address)} 1 ${follow}`]);
    const [, step] = /^step (\d+)\n?$/.exec(found) ?? [];
    if (step === undefined) return shown;
    return { ...shown, step: Number(step), isBug: true, lines, looks: await session.replies(scenario, Number(step), lines) };
  }

  // Has the line of the worst error in view, once, where nobody works in the code.
  visitBug({ trace }, shown) {
    const { page } = this, frame = ownFrame(trace, page.opened.lineOf), isFree = !$('code-panel').contains(document.activeElement);
    if (frame && isFree && this.visited !== shown) page.code.visit(frame.address, false);
    this.visited = shown;
  }

  // Shows the code at the first error that is new, once, where nobody works there.
  lookAtNew() {
    const { page } = this;
    if (this.bug) return;
    const group = page.reports.groups.find((it) => it.how === 'new')?.group, key = group?.key ?? '';
    const isFree = !$('code-panel').contains(document.activeElement);
    if (key && key !== this.lookedAt && isFree && group.trace.length) page.code.visit(group.trace[0].address, false);
    this.lookedAt = key;
  }
}
