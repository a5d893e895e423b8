// A function's instructions, of which each can be skipped or made another word, or another half if it has 16 bits.
import { $, $input, $select, element, focusHeld, focused, heldName } from '../common/dom.js';
import { grouped, hexWord, hexadecimal, numberOf } from '../common/numbers.js';
import { setLine, skipLine } from '../engine/scenario.js';
import { disassembledHalf } from '../riscv/halves.js';
import { disassembled, targetOf } from '../riscv/instructions.js';
import { HALF, NOTHING, USUAL, WORD, hasHalves, lengthOf, nameOf, unitOf } from '../riscv/isa.js';

const MOST_ROWS = 1500;
// What a text is where there are instructions of 16 bits: a half has four digits at most, a word more.
const HALF_DIGITS = /^0[xX][0-9a-fA-F]{4}$/, SHORT_DIGITS = /^(?:0[xX][0-9a-fA-F]{1,4}|[0-9]{1,5})$/;

export class Code {
  edit;
  alter;
  refuse;
  shows;
  opens;
  drawn;
  isa = USUAL;
  shown = null;
  at = null;
  writing = null;
  pc = null;
  step = 0;
  /** @type {Map<number, HTMLTableRowElement>} */ rows = new Map();
  frame = null;
  elf;
  lineOf;
  scenario;
  lengths;

  // `edit` takes the scenario after an edit, `alter` a line that alters the run at its step; `refuse` a sentence. `shows` is told the
  // address whose function is shown; `opens` has the tab of the code opened; `drawn` is told of rows that were made anew.
  constructor({ edit, alter, refuse, shows, opens, drawn }) {
    this.edit = edit;
    this.alter = alter;
    this.refuse = refuse;
    this.shows = shows;
    this.opens = opens;
    this.drawn = drawn;
    $('function').addEventListener('change', () => this.visit(Number($select('function').value)));
  }

  // Shows `main` of a program for an instruction set, or its first function.
  open({ elf, lineOf, isa }, scenario) {
    this.elf = elf;
    this.lineOf = lineOf;
    this.isa = isa;
    this.scenario = scenario;
    this.shown = null;
    this.at = null;
    this.writing = null;
    this.pc = null;
    this.rows = new Map();
    $('function').replaceChildren(...elf.functions.map((it) => element('option', { value: it.address }, it.name)));
    $('code-rows').replaceChildren();
    const first = elf.functions.find((it) => it.name === 'main') ?? elf.functions[0];
    if (first) this.visit(first.address, false);
  }

  // Shows the function that has an address, with that row in view; `scrolls` where one asked for it.
  visit(address, scrolls = true) {
    if (!this.turnTo(address)) {
      if (scrolls) this.refuse(`The program has no code at ${hexWord(address)}.`);
      return;
    }
    if (scrolls) {
      this.opens();
      $('code-panel').scrollIntoView({ block: 'nearest' });
    }
    this.reveal();
    this.shows(address);
  }

  // Has the row that is marked in view, or else the one where the run is.
  reveal() {
    const row = [...this.rows.values()].find((it) => it.classList.contains('at')) ?? this.rows.get(this.pc);
    if (row) $('code').scrollTop = row.offsetTop - $('code').clientHeight / 2;
  }

  // Shows the function that has an address, if there is one, and marks the row at an address, or none.
  turnTo(address, at = address) {
    const found = this.elf.functionAt(address);
    if (!found) return false;
    this.at = at;
    this.writing = null;
    this.shown = found;
    $select('function').value = `${found.address}`;
    this.render();
    return true;
  }

  // The words, or the instructions of either length, that are shown; null where no function is. `starts` are their addresses.
  get range() {
    if (!this.shown) return null;
    const unit = unitOf(this.isa), begin = (this.shown.address & -unit) >>> 0;
    const count = Math.ceil(this.shown.size / unit);
    return hasHalves(this.isa) ? this.instructionsIn(begin, begin + unit * (count - 1))
      : { begin, starts: Array.from({ length: Math.min(MOST_ROWS, count) }, (_, i) => begin + WORD * i) };
  }

  // The instructions from one address on that begin at another one or before it, by their lengths: a half that isn't loaded, and
  // the first half of a longer instruction without its second, are passed over.
  instructionsIn(begin, last) {
    const starts = [], lengths = new Map();
    for (let at = begin; at <= last && starts.length < MOST_ROWS;) {
      const half = this.valueAt(at, HALF), length = half === null ? HALF : lengthOf(this.isa, half);
      const isThere = this.valueAt(at, length) !== null;
      if (isThere) {
        starts.push(at);
        lengths.set(at, length);
      }
      at += isThere ? length : HALF;
    }
    return { begin, starts, lengths };
  }

  // What is at an address in the run that is shown, null where nothing is loaded.
  valueAt(at, length) { return this.scenario.valueAt(at, length, (...it) => this.elf.loaded(...it)); }

  show(scenario) {
    const isSame = this.scenario?.patches === scenario.patches;
    this.scenario = scenario;
    if (this.shown && !isSame) this.render();
  }

  // Where the run is before a step, null where it has ended. Another step leads to the function that it is in, unless one works here.
  showPc(pc, step) {
    const before = this.pc, isStep = step !== this.step, follows = pc !== null && isStep && $input('code-follows').checked && !this.isHeld;
    this.pc = pc;
    this.step = step;
    const leaves = follows && !this.rows.has(pc) && this.elf.functionAt(pc)?.address !== this.shown?.address;
    if (!(leaves && this.turnTo(pc, null)) && (pc !== before || isStep)) for (const it of new Set([before, pc])) this.renderRow(it);
    if (follows) this.frame ??= requestAnimationFrame(() => this.showRow());
  }

  // Whether the focus is among the rows.
  get isHeld() { return $('code-rows').contains(document.activeElement); }

  // Has the row where the run is in view, without moving the page.
  showRow() {
    const { scrollTop, clientHeight } = $('code'), row = this.rows.get(this.pc);
    this.frame = null;
    if (row && (row.offsetTop < scrollTop + row.clientHeight || row.offsetTop + row.clientHeight > scrollTop + clientHeight)) {
      $('code').scrollTop = row.offsetTop - clientHeight / 2;
    }
  }

  render() {
    const { starts, lengths } = this.range;
    const held = heldName();
    this.lengths = lengths;
    this.rows = new Map();
    for (const at of starts) {
      const row = this.row(at, lengths?.get(at) ?? WORD);
      if (row) this.rows.set(at, row);
    }
    $('code-rows').replaceChildren(...this.rows.values());
    focusHeld($('code-rows'), held);
    this.drawn();
  }

  // Makes the row at an address anew, if it is shown.
  renderRow(address) {
    const row = this.rows.get(address), held = row?.contains(focused()) ? heldName() : undefined;
    if (!row) return;
    const made = this.row(address, this.lengths?.get(address) ?? WORD);
    this.rows.set(address, made);
    row.replaceWith(made);
    focusHeld(made, held);
    this.drawn();
  }

  row(address, length) {
    const value = this.valueAt(address, length);
    if (value === null) return null;
    const isPatched = this.scenario.patchesOf(address, length).length > 0;
    const text = length === HALF ? disassembledHalf(value, address) : disassembled(value, address, this.isa);
    const isNow = address === this.pc, isAt = address <= this.at && this.at < address + length;
    const names = [isAt && 'at', isPatched && 'patched', isNow && 'now'].filter(Boolean).join(' ');
    const made = element('tr', { className: names },
      element('td', {}, ...this.edits(address, length, isPatched)), element('td', {}, `${isNow ? '▸ ' : ''}${hexWord(address)}`),
      element('td', {}, this.instruction(text)), element('td', { className: 'quiet' }, this.lineOf(address) ?? ''),
      element('td', { className: 'quiet' }, hexadecimal(value, 2 * length)));
    made.dataset.address = `${address}`;
    return made;
  }

  instruction(text) {
    const there = this.elf.nameAt(targetOf(text));
    return `${text ?? `no instruction of ${nameOf(this.isa)}`}${there ? ` <${there}>` : ''}`;
  }

  edits(address, length, isPatched) {
    // The name by which focus comes back to the button when the rows are made anew.
    const button = (held, what, told, does) => {
      const made = element('button', { onclick: does, 'aria-label': `${told} ${hexWord(address)}` }, what);
      made.dataset.held = `${held} ${address}`;
      return made;
    };
    if (this.writing === address) return [this.field(address, length)];
    const skip = () => this.edit(this.scenario.withPatch(address, NOTHING[length], length));
    const what = length === HALF ? 'half' : 'word';
    const putBack = () => this.edit(this.scenario.withoutPatches(address, length));
    const first = isPatched ? button('first', 'put back', `put back the ${what} at`, putBack)
      : button('first', 'skip', 'skip the instruction at', skip);
    const all = [first, ' ', button('word', `${what}…`, `another ${what} at`, () => this.write(address))];
    if (address !== this.pc) return all;
    const told = `in step ${grouped(this.step)} alone, leave out the instruction at`;
    return [...all, ' ', button('here', 'skip here', told, () => this.alter(this.lineThatSkips(length)))];
  }

  // The line `skip` goes on by four bytes.
  lineThatSkips(length) {
    return length === WORD ? skipLine(this.step) : setLine(this.step, 'pc', this.pc + length);
  }

  // Has a field for the word at an address, or none.
  write(address) {
    this.writing = address;
    this.render();
    if (address !== null) $input('new-word').select();
  }

  field(address, length) {
    const value = this.valueAt(address, length), what = length === HALF ? 'half' : 'word';
    const key = (event) => {
      if (event.key === 'Escape') this.write(null);
      else if (event.key === 'Enter') this.set(address, length, event.target.value.trim());
      else return;
      event.preventDefault();  // or Enter would press the button that has the focus now
    };
    const made = element('input', { id: 'new-word', value: hexadecimal(value, 2 * length), onkeydown: key, spellcheck: false,
      'aria-label': `new ${what} at ${hexWord(address)}, Enter sets it` });
    made.dataset.held = `word ${address}`;
    return made;
  }

  // Sets the instruction of this length at an address to that of a text, of either length.
  set(address, length, text) {
    const value = numberOf(text);
    if (value === null) {
      const such = length === HALF ? 'A half is a number such as 0x0001' : 'A word is a number such as 0x00000013';
      this.refuse(`${such}, and not “${text}”. \`replaycheck word\` prints an instruction’s.`);
      return;
    }
    const isHalf = length === HALF ? SHORT_DIGITS.test(text) && value < 1 << 16 : hasHalves(this.isa) && HALF_DIGITS.test(text);
    this.write(null);
    this.edit(this.scenario.withPatch(address, value, isHalf ? HALF : WORD));
  }
}
