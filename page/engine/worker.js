// What runs the proved program beside the page: a session that is asked lines, or a part of a sweep.
import { Run, canWait, fileWords, sessionWords } from './program.js';
import { Replies } from './replies.js';
import { SweepTable } from './sweep-table.js';

const encoder = new TextEncoder();
const decoder = new TextDecoder();
const POST_EVERY = 100;  // milliseconds
const COMMAND = 'look';  // what answers the lines of a session, and looks
const ASKS = /^(?:report|worked|look .*)$/;  // lines that change nothing
const GOTO = /^goto /;
let session = null;

class Fault extends Error {
  status;
  said;

  constructor(status, said) {
    super(said);
    this.status = status;
    this.said = said;
  }
}

const text = (lines) => encoder.encode(lines.map((line) => `${line}\n`).join(''));

// A session that waits in `read` while nobody asks.
class Waiting {
  lines = [];
  wake = null;
  asked = [];
  /** @type {Replies} */ replies;
  /** @type {Run} */ run;
  ended;

  constructor({ module, files, target, limit }) {
    this.replies = new Replies();
    const ask = () => this.lines.shift() ?? new Promise((wake) => { this.wake = wake; });
    const tell = (bytes) => this.told(decoder.decode(bytes));
    const words = ['replaycheck', COMMAND, ...sessionWords(files, target)];
    this.run = new Run(module, { words, files, limit, ask, tell, waits: true });
    this.run.start().then((status) => this.end(new Fault(status, this.run.said)), (fault) => this.end(fault));
  }

  told(written) {
    for (const reply of this.replies.add(written)) {
      const [first] = this.asked;
      first.replies.push(reply);
      if (first.replies.length < first.count) continue;
      this.asked.shift();
      first.done(first.replies);
    }
  }

  end(fault) {
    this.ended = fault;
    for (const it of this.asked.splice(0)) it.fail(fault);
  }

  ask(lines) {
    if (this.ended) return Promise.reject(this.ended);
    return new Promise((done, fail) => {
      this.asked.push({ count: lines.length, replies: [], done, fail });
      this.replies.ask(lines);
      const wake = this.wake;
      this.wake = null;
      if (wake) wake(text(lines));
      else this.lines.push(text(lines));
    });
  }

  get memory() {
    return this.run.memory;
  }
}

// Where the browser can't let it wait, each question is a session of its own, with all lines before it.
class Again {
  begun;
  before = [];
  memory = 0;

  constructor(begun) {
    this.begun = begun;
  }

  async ask(lines) {
    const { module, files, target, limit } = this.begun;
    const replies = new Replies();
    const written = [];
    replies.ask([...this.before, ...lines]);
    let given = text([...this.before, ...lines]);
    const ask = () => [given, given = null][0];
    const tell = (bytes) => { written.push(...replies.add(decoder.decode(bytes))); };
    const run = new Run(module, { words: ['replaycheck', COMMAND, ...sessionWords(files, target)], files, limit, ask, tell });
    const status = run.start();
    this.memory = run.memory;
    if (status) throw new Fault(status, run.said);
    this.before = withoutPassed([...this.before, ...lines.filter((line) => !ASKS.test(line))]);
    return written.slice(-lines.length);
  }
}

// Lines without the steps that were chosen before the last one.
function withoutPassed(lines) {
  const last = lines.findLastIndex((it) => GOTO.test(it));
  return lines.filter((it, index) => index === last || !GOTO.test(it));
}

// Lines that look at a run, all at once.
function look({ module, files, target, limit, lines }) {
  const written = [];
  let given = text(lines);
  const ask = () => [given, given = null][0];
  const tell = (bytes) => { written.push(decoder.decode(bytes)); };
  const run = new Run(module, { words: ['replaycheck', COMMAND, ...sessionWords(files, target)], files, limit, ask, tell });
  const status = run.start();
  if (status) throw new Fault(status, run.said);
  return { told: written.join('') };
}

// A part of a sweep. What comes of edits is posted while it is written.
function sweep({ id, module, files, target, limit, words }) {
  const table = new SweepTable();
  let last = performance.now();
  const post = () => {
    const part = table.take();
    postMessage({ id, part }, { transfer: [part.edits.buffer] });
    last = performance.now();
  };
  const tell = (bytes) => {
    table.add(decoder.decode(bytes));
    if (performance.now() - last >= POST_EVERY) post();
  };
  const all = ['replaycheck', 'sweep', ...fileWords(files, target), ...words];
  const run = new Run(module, { words: all, files, limit, ask: () => null, tell });
  const status = run.start();
  post();
  if (status || !table.isWhole) throw new Fault(status, run.said);
  return { memory: run.memory };
}

const DOES = {
  begin: (asked) => {
    session = canWait && !asked.again ? new Waiting(asked) : new Again(asked);
  },
  ask: async ({ lines }) => ({ replies: await session.ask(lines), memory: session.memory }),
  look,
  sweep,
};

onmessage = async ({ data }) => {
  try {
    postMessage({ id: data.id, value: await DOES[data.does](data) });
  } catch (fault) {
    const { status, said = '' } = fault;
    postMessage({ id: data.id, fault: { status, said, text: String(fault) } });
  }
};
