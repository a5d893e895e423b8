// The state of the run at the step that is shown: calls, registers, memory, blocks. What changed since the step before is marked once the
// step rests. Each value can be asked for, and changed by a line of the scenario.
import { $, say } from '../common/dom.js';
import { grouped, hexWord } from '../common/numbers.js';
import { parseMemory, parseRegisters, parseStack } from '../engine/looks.js';
import { HEAP_NAMES } from '../facts.js';
import { Blocks, changedBlocks, parseBlocks, readBlocks } from './blocks.js';
import { LastWriter, sentenceOf } from './last-writer.js';
import { GRAIN, Memory, SEEN, knownOf } from './memory.js';
import { Registers } from './registers.js';
import { Stack, moved } from './stack.js';

const HIGHEST = 2 ** 32;
const STACK = 2;  // the register at whose bytes the memory begins, until an address is chosen
const REST = 80;  // milliseconds without another step, after which the step before is looked at too
const BLOCKS = 'look blocks 0', CALLS_HEAP = /^\d+ heap /;

const memoryLine = (at, length = SEEN) => `look memory ${hexWord(at)} ${length}`;
const differ = (a, b) => a.value !== b.value || a.undef !== b.undef;
// The places at which two lists differ.
const differing = (a, b) => new Set(b.flatMap((it, i) => (differ(a[i], it) ? [i] : [])));

export class Machine {
  look;
  search;
  again;
  go;
  showPc;
  functionAt;
  lineOf;
  rests;
  opens;
  chosen = null;
  at = 0;
  step = 0;
  seen = null;
  bytes = [];
  /** @type {Registers} */ registers;
  /** @type {Memory} */ memory;
  /** @type {Stack} */ stack;
  /** @type {Blocks} */ blocks;
  shown;
  rested;
  names;
  wanted;
  timer;
  asked;
  cameFrom;

  // `look` promises the replies to lines at a step of what is shown, and `search` those of another session; `again` has all shown anew;
  // `alter` takes a line that alters the run at its step, `refuse` a sentence, `go` a step; `showPc` has the code show where the run is,
  // and `visit` goes there; `functionAt` and `lineOf` tell the function and the source line of an address. `rests` is told that
  // the step rests; `opens` has the tab of the memory opened.
  constructor({ look, search, again, alter, refuse, go, showPc, visit, functionAt, lineOf, rests, opens }) {
    this.look = look;
    this.search = search;
    this.again = again;
    this.go = go;
    this.showPc = showPc;
    this.functionAt = functionAt;
    this.lineOf = lineOf;
    this.rests = rests;
    this.opens = opens;
    const ask = (what, place) => this.ask(what, place), show = (address) => this.choose(address, address);
    this.registers = new Registers({ alter, refuse, ask });
    this.memory = new Memory({ alter, refuse, ask, choose: (address) => this.choose(address) });
    this.stack = new Stack({ nameOf: (address) => this.nameOf(address), lineOf, visit });
    this.blocks = new Blocks({ callerOf: (trace) => this.callerOf(trace), show });
    $('pc').addEventListener('click', () => visit(this.seen.pc));
    $('asked-back').addEventListener('click', () => this.go(this.cameFrom));
  }

  open() {
    clearTimeout(this.timer);
    this.chosen = null;
    this.at = 0;
    this.seen = null;
    this.bytes = [];
    this.shown = null;
    this.rested = null;
    this.names = new Map();
    for (const it of [this.registers, this.memory, this.stack, this.blocks]) it.clear();
    this.tellAsked('');
  }

  // The lines that are asked with the report, so that what follows a step that is dragged is in one answer.
  get lines() { return ['look registers', 'look stack', BLOCKS, memoryLine(this.at)]; }

  nameOf(address) {
    if (!this.names.has(address)) this.names.set(address, this.functionAt(address)?.name ?? '???');
    return this.names.get(address);
  }

  // The function of a trace that called the heap, and its source line.
  callerOf(trace) {
    const at = trace.find((it) => !HEAP_NAMES.includes(this.nameOf(it))) ?? trace[0];
    if (at === undefined) return '';
    const line = this.lineOf(at);
    return `${this.nameOf(at)}${line ? ` (${line})` : ''}`;
  }

  // Shows what holds at a step, by the replies to its lines: `looks` of `shown`, to `asked` lines.
  async show(shown) {
    const wanted = this.wanted = Symbol('wanted'), [registers, stack, blocks, memory] = shown.looks;
    clearTimeout(this.timer);
    const seen = parseRegisters(registers);
    if (shown.scenario !== this.shown?.scenario) this.tellAsked('');
    this.shown = shown;
    this.step = shown.step;
    this.seen = seen;
    this.rested = null;
    this.showPc(seen.pc, shown.step);
    const sp = seen.registers[STACK].value, at = Math.min(this.chosen ?? sp - sp % GRAIN, HIGHEST - SEEN);
    const line = memoryLine(at), text = shown.lines.at(-1) === line ? memory : (await this.look(shown.step, [line]))[0];
    if (wanted !== this.wanted) return;
    this.bytes = parseMemory(text);
    this.at = at;
    this.render(parseStack(stack), blocks);
    this.timer = setTimeout(() => this.rest(() => wanted !== this.wanted), REST);
  }

  render(frames, blocks) {
    const { seen, step, at, bytes } = this;
    const where = `before step ${grouped(step)}${this.shown.isBug ? ', the worst error’s' : ''}`;
    say('machine-told', seen.runs ? `${where}: running at` : `${seen.state}, so nothing changes any more`);
    $('pc').hidden = !seen.runs;
    if (seen.runs) say('pc', hexWord(seen.pc));
    this.registers.show(seen, step);
    this.memory.show({ at, bytes, step, runs: seen.runs });
    $('memory-stack').setAttribute('aria-pressed', `${this.chosen === null}`);
    this.stack.show(frames);
    const { blocks: first, next } = parseBlocks(blocks);
    if (next === null) this.blocks.show({ blocks: first, isWhole: true }, step);
    else this.blocks.wait(true);
  }

  // What is shown once the step rests: what changed since the step before, all blocks, and what others show then.
  async rest(isStale) {
    const { step, shown, seen, at, bytes } = this, { frames } = this.stack;
    const lookAt = async (line) => (await this.look(step, [line]))[0];
    this.rests();
    try {
      const [registers, stack, memory] = step ? await this.look(step - 1, ['look registers', 'look stack', memoryLine(at)]) : [];
      if (isStale()) return;
      const before = registers && parseRegisters(registers);
      this.registers.mark(before ? differing(before.registers, seen.registers) : new Set());
      this.memory.mark(before ? differing(parseMemory(memory), bytes) : new Set());
      this.stack.rest(before ? moved(parseStack(stack), frames, (it) => this.nameOf(it)) : '', grouped(step - 1));
      await this.restBlocks(lookAt, isStale);
      if (!isStale()) this.rested = shown;
    } catch {
      // Memory that runs out, or a run that is no longer wanted: then nothing is marked.
    }
  }

  async restBlocks(lookAt, isStale) {
    const { step, shown } = this, read = (look, first) => readBlocks(look, first, isStale);
    const first = shown.looks[2], now = await read(lookAt, first);
    if (isStale() || !now) return;
    if (parseBlocks(first).next !== null) this.blocks.show(now, step);
    if (!step || !CALLS_HEAP.test(await lookAt(`look calls ${step - 1} ${step}`)) || isStale()) return;
    const lookBefore = async (line) => (await this.look(step - 1, [line]))[0];
    const before = await read(lookBefore, await lookBefore(BLOCKS));
    if (!isStale() && before) this.blocks.mark(changedBlocks(before.blocks, now.blocks));
  }

  // Shows memory from an address on, null for where the stack is, and picks a byte of it.
  choose(address, byte = null) {
    this.chosen = address;
    if (byte !== null) {
      this.memory.picked = byte;
      this.opens();
      $('memory').scrollIntoView({ block: 'nearest' });
    }
    this.again();
  }

  // ---- questions

  // Goes to the step that was the last to write a place, or to change what is known of it: before the step that is shown, or before
  // another one, from which on a search has found nothing.
  async ask(what, place, before = null) {
    const { shown, step, seen } = this, known = place.byte === undefined ? '' : knownOf(this.bytes[place.byte - this.at]);
    const asked = this.asked = Symbol('asked'), from = before === null ? { step, runs: seen.runs } : { step: before, runs: true };
    this.tellAsked('Searching…');
    if (place.byte !== undefined) this.chosen = this.at;
    let found = null;
    try {
      const look = (at, lines) => this.search(shown.scenario, at, lines);
      found = await new LastWriter({ look, scenario: shown.scenario }).last(what, place, from);
    } catch {
      // Memory that runs out, or a run that is no longer wanted.
    }
    if (asked !== this.asked) return;
    if (shown !== this.shown) this.tellAsked('');
    else if (!found) this.tellAsked('The search was stopped.');
    else this.tellFound(found, sentenceOf(found, what, place, known), () => this.ask(what, place, found.from));
  }

  // Says what a search has found, and goes there. Where it found nothing up to where it ended, it may go `further`.
  tellFound({ step, from }, told, further) {
    const leads = step !== null && step !== this.step;
    this.tellAsked(told, leads ? this.step : null);
    $('asked-further').hidden = step !== null || from === 0;
    $('asked-further').onclick = further;
    if (leads) this.go(step);
  }

  tellAsked(text, from = null) {
    if (!text) this.asked = null;
    this.cameFrom = from;
    say('asked-told', text);
    $('asked-further').hidden = true;
    $('asked-back').hidden = from === null;
    if (from !== null) say('asked-back', `back to step ${grouped(from)}`);
  }
}
