// Where a variable is, by an expression of DWARF: pieces of memory, of registers and of computed numbers, at the step that is shown.
import { Reader, Unknown } from './reader.js';

// The place is one that isn't shown here, such as a value at the call of the function.
export class Elsewhere extends Error {}

const MOST_OPERATIONS = 400, MOST_VALUES = 64;
const WORD = 4;  // bytes of a register
const REGISTERS = 32;
const OP = {
  address: 0x03, load: 0x06, duplicate: 0x12, drop: 0x13, over: 0x14, swap: 0x16, plusNumber: 0x23, literal: 0x30, register: 0x50,
  based: 0x70, registerX: 0x90, frame: 0x91, basedX: 0x92, piece: 0x93, loadSize: 0x94, nothing: 0x96, frameAddress: 0x9c, bytes: 0x9e,
  value: 0x9f, addressX: 0xa1, oldAddressX: 0xfb,
};
// How an operation writes a number.
const NUMBERS = new Map(Object.entries({
  0x08: (it) => it.byte(), 0x09: (it) => it.signedByte(), 0x0a: (it) => it.half(), 0x0b: (it) => it.half() << 16 >> 16,
  0x0c: (it) => it.word(), 0x0d: (it) => it.word(), 0x10: (it) => it.unsigned(), 0x11: (it) => it.signed(),
}).map(([code, does]) => [Number(code), does]));
const shifted = (does, beyond) => (a, b) => (b < 32 ? does(a, b) : beyond(a));
const TWO = new Map(Object.entries({
  0x1a: (a, b) => a & b, 0x1b: (a, b) => (b ? Math.trunc((a | 0) / (b | 0)) : NaN), 0x1c: (a, b) => a - b,
  0x1d: (a, b) => (b ? a % b : NaN), 0x1e: (a, b) => Math.imul(a, b), 0x21: (a, b) => a | b, 0x22: (a, b) => a + b,
  0x24: shifted((a, b) => a << b, () => 0),
  0x25: shifted((a, b) => a >>> b, () => 0), 0x26: shifted((a, b) => a >> b, (a) => a >> 31), 0x27: (a, b) => a ^ b,
  0x29: (a, b) => a === b, 0x2a: (a, b) => (a | 0) >= (b | 0), 0x2b: (a, b) => (a | 0) > (b | 0), 0x2c: (a, b) => (a | 0) <= (b | 0),
  0x2d: (a, b) => (a | 0) < (b | 0), 0x2e: (a, b) => a !== b,
}).map(([code, does]) => [Number(code), does]));
const ONE = new Map([[0x19, (a) => Math.abs(a | 0)], [0x1f, (a) => -a], [0x20, (a) => ~a]]);

// An expression at one step. `context` has the `registers`, `read`, which promises bytes of memory with their undefined bits,
// `frameAddress`, `frameBase` and `addressOf` a number in the unit's table.
export class Expression {
  /** @type {Reader} */ reader;
  end;
  context;
  values = [];
  pieces = [];
  place = null;

  constructor(elf, { at, length }, context) {
    this.reader = new Reader(elf, at);
    this.end = at + length;
    this.context = context;
  }

  // The pieces of the value; none where the expression is empty.
  async pieced() {
    await this.carryOut();
    if (this.pieces.length) return this.pieces;
    const place = this.place ?? this.memory();
    return place ? [{ ...place, length: Infinity }] : [];
  }

  // The number that an expression of an address comes to; where it names a register, what that has.
  async number() {
    await this.carryOut();
    if (this.place?.kind === 'register') return this.registerValue(this.place.number).value;
    return this.pop().value;
  }

  memory() {
    if (!this.values.length) return null;
    const { value, isUndefined } = this.pop();
    return { kind: 'memory', address: value, isUndefined };
  }

  async carryOut() {
    for (let count = 0; this.reader.at < this.end; count++) {
      if (count >= MOST_OPERATIONS || this.values.length > MOST_VALUES) throw new Elsewhere();
      if (this.place && this.reader.elf.bytes[this.reader.at] !== OP.piece) throw new Elsewhere();
      await this.operation(this.reader.byte());
    }
  }

  push(value, isUndefined = false) {
    if (!Number.isFinite(Number(value))) throw new Elsewhere();
    this.values.push({ value: Number(value) >>> 0, isUndefined });
  }

  pop() {
    if (!this.values.length) throw new Elsewhere();
    return this.values.pop();
  }

  registerValue(number) {
    if (number >= REGISTERS) throw new Elsewhere();  // of floating point
    const { value, undef } = this.context.registers[number];
    return { value, isUndefined: undef !== 0 };
  }

  async operation(code) {
    const { reader, context } = this;
    if (code >= OP.literal && code < OP.register) this.push(code - OP.literal);
    else if (code >= OP.register && code < OP.based) this.place = { kind: 'register', number: code - OP.register };
    else if (code >= OP.based && code < OP.registerX) this.based(code - OP.based);
    else if (NUMBERS.has(code)) this.push(NUMBERS.get(code)(reader));
    else if (TWO.has(code) || ONE.has(code)) this.compute(code);
    else if (code === OP.frame) this.push(await context.frameBase() + reader.signed());
    else if (code === OP.frameAddress) this.push(await context.frameAddress());
    else if (code === OP.load) await this.load(WORD);
    else if (code === OP.loadSize) await this.load(reader.byte());
    else this.other(code);
  }

  other(code) {
    const { reader, context } = this;
    switch (code) {
      case OP.address: this.push(reader.word()); break;
      case OP.addressX: case OP.oldAddressX: this.push(context.addressOf(reader.unsigned())); break;
      case OP.registerX: this.place = { kind: 'register', number: reader.unsigned() }; break;
      case OP.basedX: this.based(reader.unsigned()); break;
      case OP.plusNumber: this.plus(reader.unsigned()); break;
      case OP.duplicate: this.again(1); break;
      case OP.over: this.again(2); break;
      case OP.drop: this.pop(); break;
      case OP.swap: this.values.push(this.pop(), this.pop()); break;
      case OP.nothing: break;
      case OP.value: this.place = { kind: 'number', ...this.pop() }; break;
      case OP.bytes: this.given(reader.block(reader.unsigned())); break;
      case OP.piece: this.piece(reader.unsigned()); break;
      default: throw new Elsewhere();
    }
  }

  based(number) {
    const { value, isUndefined } = this.registerValue(number);
    this.push(value + this.reader.signed(), isUndefined);
  }

  plus(number) {
    const { value, isUndefined } = this.pop();
    this.push(value + number, isUndefined);
  }

  again(from) {
    if (this.values.length < from) throw new Elsewhere();
    this.values.push(this.values.at(-from));
  }

  compute(code) {
    const last = this.pop();
    if (ONE.has(code)) {
      this.push(ONE.get(code)(last.value), last.isUndefined);
      return;
    }
    const first = this.pop();
    this.push(TWO.get(code)(first.value, last.value), first.isUndefined || last.isUndefined);
  }

  async load(length) {
    if (length < 1 || length > WORD) throw new Elsewhere();
    const at = this.pop(), { bytes, undefined: undefs } = await this.context.read(at.value, length);
    const value = [...bytes].reduceRight((sum, it) => sum * 256 + it, 0);
    this.push(value, at.isUndefined || [...undefs].some((it) => it !== 0));
  }

  given({ at, length }) { this.place = { kind: 'bytes', begin: at, size: length }; }

  piece(length) {
    this.pieces.push({ ...(this.place ?? this.memory() ?? { kind: 'none' }), length });
    this.place = null;
    if (this.pieces.length > MOST_VALUES) throw new Unknown('more pieces than a value has');
  }
}

const LOST = { value: 0, undef: 0, isLost: true };

// What a variable has, by the pieces in which it is.
export class Content {
  elf;
  pieces;
  registers;
  read;

  constructor(elf, pieces, { registers, read }) {
    this.elf = elf;
    this.pieces = pieces;
    this.registers = registers;
    this.read = read;
  }

  // The address, if all is in memory from there on; else null.
  get address() {
    const [first, ...more] = this.pieces;
    return first?.kind === 'memory' && !more.length ? first.address : null;
  }

  // Bytes from an offset on: each with its value and its undefined bits, which are null where it is inaccessible; `isLost` where it
  // isn't anywhere.
  async bytes(offset, length) {
    const found = [];
    let begin = 0;
    for (const piece of this.pieces) {
      const from = Math.max(offset, begin), to = Math.min(offset + length, begin + piece.length);
      if (from < to) found.push(...await this.of(piece, from - begin, to - from));
      begin += piece.length;
    }
    while (found.length < length) found.push(LOST);
    return found;
  }

  async of(piece, offset, length) {
    if (piece.kind === 'memory') {
      const { bytes, undefined: undefs } = await this.read((piece.address + offset) >>> 0, length);
      return Array.from(bytes, (value, i) => ({ value, undef: piece.isUndefined ? 255 : undefs[i] }));
    }
    return Array.from({ length }, (_, i) => this.byteOf(piece, offset + i));
  }

  byteOf(piece, at) {
    const byte = (word) => word >>> 8 * at & 255;
    if (piece.kind === 'none') return LOST;
    if (piece.kind === 'bytes') return at < piece.size ? { value: this.elf.bytes[piece.begin + at], undef: 0 } : LOST;
    if (at >= WORD || piece.number >= REGISTERS) throw new Elsewhere();
    if (piece.kind === 'number') return { value: byte(piece.value), undef: piece.isUndefined ? 255 : 0 };
    const { value, undef } = this.registers[piece.number];
    return { value: byte(value), undef: byte(undef) };
  }
}
