// Sessions with the proved program in workers, each of which follows the page from one scenario and step to another.
import { Scenario, linesBetween } from './scenario.js';

// A session answers 100,000 lines, so another one takes over before that.
const MOST_LINES = 90000;

// The program refuses a line, by a number.
export class Refused extends Error {
  line;
  number;

  constructor(line, number) {
    super(`${line}: refused ${number}`);
    this.line = line;
    this.number = number;
  }
}

// The program has ended, or its worker has.
export class Ended extends Error {
  status;
  said;

  constructor({ status = undefined, said = undefined, text }) {
    super(said || text);
    this.status = status;
    this.said = said;
  }
}

// The work was stopped.
export class Stopped extends Error {}

// The scenario has more lines than a session answers.
export class TooManyLines extends Error {}

// A worker that is asked one thing or several, with their answers as promises. `onPart` takes what comes before an answer.
export class Helper {
  worker;
  waiting = new Map();
  next = 1;

  constructor(makeWorker) {
    this.worker = makeWorker();
    this.worker.onmessage = ({ data }) => this.told(data);
    this.worker.onerror = (event) => this.fail(new Ended({ text: event.message || 'the worker could not be started' }));
  }

  told({ id, value, fault, part }) {
    const it = this.waiting.get(id);
    if (part) it?.onPart(part);
    if (!it || part) return;
    this.waiting.delete(id);
    if (fault) it.fail(new Ended(fault));
    else it.done(value);
  }

  ask(does, given, onPart) {
    return new Promise((done, fail) => {
      const id = this.next++;
      this.waiting.set(id, { done, fail, onPart });
      this.worker.postMessage({ id, does, ...given });
    });
  }

  fail(fault) {
    for (const it of this.waiting.values()) it.fail(fault);
    this.waiting.clear();
  }

  stop() {
    this.worker.terminate();
    this.fail(new Stopped());
  }
}

// A session that is asked about a scenario at a step, and keeps what it was led to.
export class Session {
  program;
  mostLines;
  /** @type {?Helper} */ helper = null;
  isClosed = false;
  memory = 0;
  sessions = 0;
  busy = Promise.resolve();
  said;
  at;

  constructor(program, mostLines = MOST_LINES) {
    this.program = program;
    this.mostLines = mostLines;
  }

  stop() {
    this.helper?.stop();
    this.helper = null;
  }

  // Ends it for good: what still waits to be asked is not asked any more.
  close() {
    this.isClosed = true;
    this.stop();
  }

  async begin() {
    this.stop();
    const { module, files, target, limit, again, makeWorker } = this.program;
    this.helper = new Helper(makeWorker);
    this.said = 0;
    this.sessions++;
    this.at = { scenario: new Scenario(this.program.base), step: 0 };
    await this.ask('begin', { module, files, target, limit, again });
  }

  // Asks the worker; one that fails is left.
  async ask(does, given) {
    try {
      return await this.helper.ask(does, given);
    } catch (fault) {
      this.stop();
      throw fault;
    }
  }

  // The report of a scenario at a step, as the program writes it.
  async report(scenario, step) {
    return (await this.replies(scenario, step, ['report']))[0];
  }

  // The replies to lines that ask about a scenario at a step.
  replies(scenario, step, asked) {
    const answer = this.busy.then(() => this.lead(scenario, step, asked));
    this.busy = answer.catch(() => {});
    return answer;
  }

  // Waits until nothing that was asked is unanswered.
  async rest() {
    for (let busy = null; busy !== this.busy;) await (busy = this.busy);
  }

  async lead(scenario, step, asked) {
    if (this.isClosed) throw new Stopped();
    let lines = this.helper && linesBetween(this.at.scenario, scenario, this.program.loaded);
    const more = asked.length + 1;
    if (!lines || this.said + lines.length + more > this.mostLines) {
      await this.begin();
      lines = scenario.lines;
      if (lines.length + more > this.mostLines) throw new TooManyLines();
    }
    if (step !== this.at.step) lines = [...lines, `goto ${step}`];
    const replies = await this.say([...lines, ...asked]);
    this.at = { scenario, step };
    return replies.slice(-asked.length);
  }

  // The replies to lines. Where one is refused the next ones are those of a new session.
  async say(lines) {
    this.said += lines.length;
    const answer = await this.ask('ask', { lines });
    this.memory = answer.memory;
    const refused = answer.replies.findIndex((it) => it.startsWith('refused '));
    if (refused < 0) return answer.replies;
    this.stop();
    throw new Refused(lines[refused], Number(answer.replies[refused].split(' ')[1]));
  }
}
