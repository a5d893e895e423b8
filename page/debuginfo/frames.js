// Where a function's frame is: the rule by which .debug_frame or .eh_frame gives the frame's address at an instruction, from a register.
import { attempt } from './dwarf.js';
import { ADDRESS_SIZE, LONG_LENGTH, Reader, Unknown } from './reader.js';

const COMMON = { '.debug_frame': 0xffffffff, '.eh_frame': 0 };  // what an entry has that is common to several functions
const MOST_FUNCTIONS = 200000, MOST_OPERATIONS = 20000, MOST_REMEMBERED = 64;
const ABSOLUTE = 0x00, RELATIVE = 0x1b, UNSIGNED = 0x03;  // how .eh_frame writes an address: 4 bytes each, RELATIVE to its own place
const ADVANCE = 1, SAVED_AT = 2;  // operations that have a number in their low six bits, by the high two
const OP = {
  nothing: 0x00, go: 0x01, advance1: 0x02, advance2: 0x03, advance4: 0x04, remember: 0x0a, restore: 0x0b, frame: 0x0c, register: 0x0d,
  offset: 0x0e, expression: 0x0f, scaledFrame: 0x12, scaledOffset: 0x13,
};
// What the operations take that say where a register is saved, which isn't needed here: unsigned numbers, signed ones, blocks.
const OTHERS = new Map([[0x05, 'uu'], [0x06, 'u'], [0x07, 'u'], [0x08, 'u'], [0x09, 'uu'], [0x10, 'ub'], [0x11, 'us'], [0x14, 'uu'],
  [0x15, 'us'], [0x16, 'ub'], [0x2d, ''], [0x2e, 'u'], [0x2f, 'uu']]);

// An address of .eh_frame, written as its entry's text says.
function encoded(reader, encoding, section) {
  const { at } = reader, value = reader.word();
  if (encoding === ABSOLUTE || encoding === UNSIGNED) return value;
  if (encoding !== RELATIVE) throw new Unknown(`an address written as ${encoding}`);
  return (value + section.address + at - section.begin) >>> 0;
}

// What is common to several functions: how operations scale their numbers, and the operations with which each begins.
function commonAt(elf, at) {
  const reader = new Reader(elf, at), length = reader.word(), end = reader.at + length;
  reader.word();
  const version = reader.byte(), text = reader.string();
  if (text && !text.startsWith('z')) throw new Unknown(`frames with ${text}`);
  if (version >= 4 && reader.half() !== ADDRESS_SIZE) throw new Unknown('addresses of another size');  // and no segment
  const [codeScale, dataScale] = [reader.unsigned(), reader.signed()];
  if (version === 1) reader.byte();
  else reader.unsigned();
  let encoding = ABSOLUTE;
  if (text) {
    const next = reader.unsigned() + reader.at;
    for (const letter of text.slice(1)) {
      if (letter === 'R') encoding = reader.byte();
      else if (letter !== 'S') break;
    }
    reader.at = next;
  }
  return { codeScale, dataScale, encoding, hasMore: text !== '', at: reader.at, end };
}

export class Frames {
  elf;
  functions = [];
  commons = new Map();

  constructor(elf) {
    this.elf = elf;
    for (const name of Object.keys(COMMON)) attempt(() => this.readSection(name));
    this.functions.sort((a, b) => a.begin - b.begin);
  }

  readSection(name) {
    const section = this.elf.section(name);
    if (!section) return;
    for (let at = section.begin; at < section.begin + section.size;) {
      const reader = new Reader(this.elf, at), length = reader.word(), end = reader.at + length;
      if (!length || length >= LONG_LENGTH) break;  // .eh_frame ends with a zero
      const idAt = reader.at, id = reader.word();
      if (id !== COMMON[name]) {
        const common = this.common(name === '.eh_frame' ? idAt - id : section.begin + id);
        if (common) attempt(() => this.functions.push(functionAt(reader, common, section, end)));
        if (this.functions.length > MOST_FUNCTIONS) throw new RangeError('more functions than any program has');
      }
      at = end;
    }
  }

  common(at) {
    if (!this.commons.has(at)) this.commons.set(at, attempt(() => commonAt(this.elf, at)));
    return this.commons.get(at);
  }

  // The rule for the frame's address at an instruction: a register and an offset from it, or an expression; null where there is none.
  ruleAt(pc) {
    let low = 0, high = this.functions.length;
    while (low < high) {
      const middle = (low + high) >> 1;
      if (this.functions[middle].begin <= pc) low = middle + 1;
      else high = middle;
    }
    const found = this.functions[low - 1];
    return found && pc < found.end ? attempt(() => new Rules(this.elf, found).at(pc)) : null;
  }
}

function functionAt(reader, common, section, end) {
  const begin = encoded(reader, common.encoding, section), size = reader.word();
  if (common.hasMore) {
    const more = reader.unsigned();
    reader.block(more);
  }
  return { begin, end: begin + size, common, operations: { at: reader.at, end } };
}

// The operations of a function, carried out up to an instruction.
class Rules {
  elf;
  common;
  operations;
  location;
  rule = null;
  remembered = [];
  left = MOST_OPERATIONS;

  constructor(elf, { begin, common, operations }) {
    this.elf = elf;
    this.common = common;
    this.operations = operations;
    this.location = begin;
  }

  at(pc) {
    this.carryOut(this.common, pc);
    this.carryOut(this.operations, pc);
    return this.rule;
  }

  carryOut({ at, end }, pc) {
    const reader = new Reader(this.elf, at);
    while (reader.at < end && this.location <= pc) {
      if (!this.left--) throw new RangeError('more operations than any function has');
      const code = reader.byte(), low = code & 63;
      if (code >> 6 === ADVANCE) this.location += low * this.common.codeScale;
      else if (code >> 6 === SAVED_AT) reader.unsigned();
      else if (code < 64) this.operation(code, reader);
    }
  }

  operation(code, reader) {
    const { codeScale, dataScale } = this.common, { register, offset } = this.rule ?? {};
    switch (code) {
      case OP.nothing: break;
      case OP.go: this.location = reader.word(); break;
      case OP.advance1: this.location += reader.byte() * codeScale; break;
      case OP.advance2: this.location += reader.half() * codeScale; break;
      case OP.advance4: this.location += reader.word() * codeScale; break;
      case OP.remember: this.remember(); break;
      case OP.restore: this.rule = this.remembered.pop() ?? null; break;
      case OP.frame: this.rule = { register: reader.unsigned(), offset: reader.unsigned() }; break;
      case OP.scaledFrame: this.rule = { register: reader.unsigned(), offset: reader.signed() * dataScale }; break;
      case OP.register: this.rule = { register: reader.unsigned(), offset: offset ?? 0 }; break;
      case OP.offset: this.rule = { register, offset: reader.unsigned() }; break;
      case OP.scaledOffset: this.rule = { register, offset: reader.signed() * dataScale }; break;
      case OP.expression: this.rule = { expression: reader.block(reader.unsigned()) }; break;
      default: this.passOver(code, reader);
    }
  }

  remember() {
    if (this.remembered.push(this.rule) > MOST_REMEMBERED) throw new RangeError('more rules than are remembered');
  }

  passOver(code, reader) {
    if (!OTHERS.has(code)) throw new Unknown(`operation ${code} of a frame`);
    for (const kind of OTHERS.get(code)) {
      if (kind === 'u') reader.unsigned();
      else if (kind === 's') reader.signed();
      else reader.block(reader.unsigned());
    }
  }
}
