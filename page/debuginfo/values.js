// Values as text, in gdb's words: by a variable's type and its bytes. A text is in parts, each of which says whether its bits are defined.
import { hexWord } from '../common/numbers.js';
import { AT, TAG, isBlock, once } from './dwarf.js';
import { Reader } from './reader.js';
import { dimensionsOf, isPointer, isReference, plain, sizeOf, typeOf } from './types.js';

export const OPTIMIZED_OUT = '<optimized out>';
const MOST_ELEMENTS = 24, MOST_AGGREGATES = 4;  // elements that are shown: of numbers and letters, and of what has fields itself
const MOST_FIELDS = 40, MOST_SHOWN = 600, MOST_LETTERS = 20000;  // fields of one structure; values and letters of a variable's text
const MOST_SCALAR = 16;  // bytes of one number
const DEEPEST = 6;  // arrays in arrays
const ENCODING = { address: 1, boolean: 2, float: 4, signed: 5, signedLetter: 6, unsignedLetter: 8, letter: 0x10 };
const ESCAPES = new Map([[7, 'a'], [8, 'b'], [9, 't'], [10, 'n'], [11, 'v'], [12, 'f'], [13, 'r'], [0x5c, '\\']]);
const MANTISSA = new Map([[4, (1n << 23n) - 1n], [8, (1n << 52n) - 1n]]);  // bits of a float, by its bytes
const PLUS_NUMBER = 0x23;  // the operation by which old files say where a member is
const ANYWHERE = '{...}';

const HOW = { lost: 'lost', inaccessible: 'inaccessible', undefined: 'undefined' };

// A letter within quotes.
function letterOf(code, quote) {
  if (code === quote.charCodeAt(0)) return `\\${quote}`;
  if (ESCAPES.has(code)) return `\\${ESCAPES.get(code)}`;
  return code >= 32 && code < 127 ? String.fromCharCode(code) : `\\${code.toString(8).padStart(3, '0')}`;
}

// The number of bytes, the lowest first.
const numberIn = (bytes) => bytes.reduceRight((sum, it) => sum * 256n + BigInt(it.value), 0n);

// What is known of some bits of bytes, of which `mask` has those that count.
function knownOf(bytes, mask = (1n << BigInt(8 * bytes.length)) - 1n) {
  if (bytes.some((it) => it.isLost)) return { how: HOW.lost };
  if (bytes.some((it) => it.undef === null)) return { how: HOW.inaccessible };
  const bits = numberIn(bytes.map(({ undef }) => ({ value: undef }))) & mask;
  return bits ? { how: HOW.undefined, bits } : { how: '' };
}

export class Values {
  read;
  nameAt;
  parts = [];
  shown = 0;
  length = 0;

  // `read` promises bytes of memory, and `nameAt` tells the function that has an address.
  constructor({ read, nameAt }) {
    this.read = read;
    this.nameAt = nameAt;
  }

  add(text, known = { how: '' }) {
    const last = this.parts.at(-1);
    this.length += text.length;
    if (last?.how === known.how && !last.bits && !known.bits) last.text += text;
    else this.parts.push({ text, how: known.how, ...(known.bits && { bits: `0x${known.bits.toString(16)}` }) });
  }

  get isFull() { return this.shown > MOST_SHOWN || this.length > MOST_LETTERS; }

  // Adds the value of a type that a content has at an offset. `depth` is the number of structures around it, and `nested` that of arrays.
  async show(type, content, offset = 0, depth = 0, nested = 0) {
    const it = plain(type);
    this.shown++;
    if (!it) this.add('void');
    else if (it.tag === TAG.array) await this.array(it, content, offset, depth, nested);
    else if ([TAG.structure, TAG.classType, TAG.union].includes(it.tag)) await this.structure(it, content, offset, depth, nested);
    else await this.scalar(it, content, offset, { depth, nested });
  }

  // ---- one number

  async scalar(type, content, offset, where) {
    const size = sizeOf(type);
    if (!size || size > MOST_SCALAR) {
      this.add(ANYWHERE);
      return;
    }
    const bytes = await content.bytes(offset, size), known = knownOf(bytes);
    if (known.how === HOW.lost) this.add(OPTIMIZED_OUT, known);
    else if (isPointer(type)) await this.pointer(type, numberIn(bytes), known);
    else if (isReference(type)) await this.reference(type, numberIn(bytes), known, where);
    else this.add(textOf(type, numberIn(bytes), size), known);
  }

  async pointer(type, value, known) {
    const address = Number(value), target = plain(typeOf(type));
    const isCode = target?.tag === TAG.functionType, name = isCode && this.nameAt(address);
    this.add(`0x${value.toString(16)}${name ? ` <${name}>` : ''}`, known);
    if (known.how || !address || !isLetter(target)) return;
    const bytes = await this.textAt(address);
    if (!bytes) return;
    this.add(' ');
    this.letters(bytes);
  }

  // The bytes of a text up to its zero, as far as they are shown; null where the first is inaccessible.
  async textAt(address) {
    const most = Math.min(MOST_ELEMENTS + 1, 2 ** 32 - address), { bytes, undefined: undefs } = await this.read(address, most);
    const found = Array.from(bytes, (value, i) => ({ value, undef: undefs[i] })), end = found.findIndex((it) => it.undef === null);
    if (end === 0) return null;
    return end < 0 ? found : found.slice(0, end);
  }

  // Adds the address to which a reference leads, and what is there, unless the reference is in a structure.
  async reference(type, value, known, { depth, nested }) {
    this.add(`@0x${value.toString(16)}`, known);
    const target = typeOf(type), address = Number(value);
    if (known.how || depth > 0 || nested > DEEPEST || !sizeOf(target)) return;
    this.add(': ');
    await this.show(target, { bytes: (at, length) => this.bytesOf(address + at, length) }, 0, depth, nested + 1);
  }

  async bytesOf(address, length) {
    const { bytes, undefined: undefs } = await this.read(address >>> 0, length);
    return Array.from(bytes, (value, i) => ({ value, undef: undefs[i] }));
  }

  // ---- many

  // Adds letters in quotes, up to a zero; the zero, too, where it isn't defined.
  letters(bytes) {
    const zero = bytes.findIndex((it) => it.value === 0);
    const shown = zero < 0 ? bytes : bytes.slice(0, zero + (bytes[zero].undef === 0 ? 0 : 1));
    this.add('"');
    for (const it of shown.slice(0, MOST_ELEMENTS)) this.add(letterOf(it.value, '"'), { how: knownOf([it]).how });
    this.add(`"${shown.length > MOST_ELEMENTS ? '...' : ''}`);
  }

  async array(type, content, offset, depth, nested) {
    const counts = dimensionsOf(type), element = typeOf(type), size = sizeOf(element);
    if (!size || counts.includes(null) || !counts.length || nested + counts.length > DEEPEST) this.add(ANYWHERE);
    else await this.dimension(counts, { element, size }, content, { offset, depth, nested });
  }

  async dimension(counts, it, content, where) {
    const [count, ...more] = counts, { element, size } = it, { offset, depth, nested } = where;
    const isInner = !more.length, target = plain(element);
    const letters = isInner && isLetter(target) ? await content.bytes(offset, Math.min(count, MOST_ELEMENTS + 1)) : [];
    if (letters.length && !letters.some((it) => it.isLost)) {
      this.letters(letters);
      return;
    }
    const isWhole = isInner && target && [TAG.base, TAG.enumeration, TAG.pointer].includes(target.tag);
    const shown = Math.min(count, isWhole ? MOST_ELEMENTS : MOST_AGGREGATES), step = more.reduce((product, n) => product * n, size);
    this.add('{');
    let i = 0;
    for (; i < shown && !this.isFull; i++) {
      if (i) this.add(', ');
      const next = offset + step * i;
      if (!isInner) await this.dimension(more, it, content, { offset: next, depth, nested: nested + 1 });
      else if (isByte(target)) await this.byte(content, next);
      else await this.show(element, content, next, depth, nested + 1);
    }
    this.add(i < count ? '...}' : '}');
  }

  // A byte that is no letter, in an array.
  async byte(content, offset) {
    const bytes = await content.bytes(offset, 1), known = knownOf(bytes);
    this.shown++;
    this.add(known.how === HOW.lost ? OPTIMIZED_OUT : `0x${bytes[0].value.toString(16).padStart(2, '0')}`, known);
  }

  async structure(type, content, offset, depth, nested) {
    if (depth > 0 || nested > DEEPEST) {
      this.add(ANYWHERE);
      return;
    }
    const all = once(type, 'members', (it) => it.children.filter(isMember)), members = all.slice(0, MOST_FIELDS);
    this.add('{');
    for (const [i, member] of members.entries()) {
      if (i) this.add(', ');
      if (this.isFull) break;
      const name = member.unit.name(member);
      if (member.tag === TAG.inheritance) this.add(`<${typeOf(member)?.unit.name(typeOf(member)) ?? '?'}> = `);
      else if (name) this.add(`${name} = `);
      await this.member(member, content, offset, { depth: depth + 1, nested: nested + 1 });
    }
    this.add(all.length > members.length || this.isFull ? '...}' : '}');
  }

  // Adds what a member has. The fields of a base class are shown as if they were the class's own.
  async member(member, content, offset, { depth, nested }) {
    const at = placeOf(member), bits = member.unit.number(member, AT.bitSize), type = typeOf(member);
    if (at === null) this.add(ANYWHERE);
    else if (member.tag === TAG.inheritance) await this.show(type, content, offset + at, depth - 1, nested);
    else if (bits === undefined) await this.show(type, content, offset + at, depth, nested);
    else await this.bitField(member, bits, content, 8 * (offset + at), type);
  }

  async bitField(member, count, content, from, type) {
    const it = plain(type), { unit } = member, size = sizeOf(it);
    const inOrder = unit.number(member, AT.dataBitOffset), fromTop = unit.number(member, AT.bitOffset);
    if (!it || !size || size > 8 || count < 1 || count > 64) {
      this.add(ANYWHERE);
      return;
    }
    const old = fromTop === undefined ? 0 : 8 * (unit.number(member, AT.byteSize) ?? size) - fromTop - count;
    const begin = from + (inOrder ?? old);
    const first = Math.floor(begin / 8), shift = BigInt(begin % 8), mask = (1n << BigInt(count)) - 1n;
    const bytes = await content.bytes(first, Math.ceil((begin % 8 + count) / 8)), known = knownOf(bytes, mask << shift);
    const value = numberIn(bytes) >> shift & mask;
    if (known.how === HOW.lost) this.add(OPTIMIZED_OUT, known);
    else this.add(textOf(it, value, size, count), known.bits ? { ...known, bits: known.bits >> shift } : known);
  }
}

// Whether an entry is a part of each value of a structure.
function isMember(entry) {
  const isOne = entry.tag === TAG.member || entry.tag === TAG.inheritance;
  return isOne && !entry.fields.has(AT.external) && !entry.fields.has(AT.declaration);
}

// The offset of a member in its structure, null where it isn't a number.
function placeOf(member) {
  const field = member.fields.get(AT.memberLocation);
  if (!field) return 0;
  if (!isBlock(field)) return member.unit.number(member, AT.memberLocation);
  const reader = new Reader(member.unit.elf, field.value.at);
  return reader.byte() === PLUS_NUMBER ? reader.unsigned() : null;
}

const encodingOf = (type) => (type?.tag === TAG.base ? type.unit.number(type, AT.encoding) : undefined);
const isLetter = (type) => type?.tag === TAG.base && type.unit.name(type) === 'char' && type.unit.number(type, AT.byteSize) === 1;
const isByte = (type) => [ENCODING.signedLetter, ENCODING.unsignedLetter].includes(encodingOf(type)) && sizeOf(type) === 1;

// The text of a number of a type, of which `count` bits are there.
function textOf(type, value, size, count = 8 * size) {
  if (type.tag === TAG.enumeration) return enumText(type, value, count);
  const encoding = encodingOf(type), isSigned = encoding === ENCODING.signed || encoding === ENCODING.signedLetter;
  const number = isSigned ? BigInt.asIntN(count, value) : value;
  if (encoding === ENCODING.boolean) return value > 1n ? String(value) : value ? 'true' : 'false';
  if (encoding === ENCODING.float) return floatText(value, size);
  if (encoding === ENCODING.letter && size > 1) return `${number} ${size === 2 ? 'u' : 'U'}'${wideLetter(Number(value))}'`;
  if (size === 1 && (isByte(type) || encoding === ENCODING.letter)) return `${number} '${letterOf(Number(value), "'")}'`;
  if (type.tag !== TAG.base) return `0x${value.toString(16)}`;
  return encoding === ENCODING.address ? hexWord(Number(value)) : String(number);
}

const wideLetter = (code) => (code < 127 ? letterOf(code, "'") : code <= 0x10ffff ? String.fromCodePoint(code) : '?');

// The enumerators of a type: their names by value, whether one is negative, and whether each is one bit.
function enumeratorsOf(type) {
  const names = new Map();
  for (const it of type.children.filter(({ tag }) => tag === TAG.enumerator)) {
    const value = BigInt(Math.trunc(it.unit.number(it, AT.constValue) ?? 0));
    if (!names.has(value)) names.set(value, it.unit.name(it) ?? '?');
  }
  const values = [...names.keys()];
  return { names, isSigned: values.some((it) => it < 0n), areBits: values.length > 0 && values.every((it) => it >= 0n && !(it & it - 1n)) };
}

// The name of an enumerator, or names of such as are single bits, or the number.
function enumText(type, value, count) {
  const { names, isSigned, areBits } = once(type, 'enumerators', enumeratorsOf);
  const number = isSigned ? BigInt.asIntN(count, value) : value;
  if (names.has(number)) return names.get(number);
  if (!value || !areBits) return String(number);
  const parts = [...names].filter(([it]) => it & value), rest = parts.reduce((left, [it]) => left & ~it, value);
  return `(${[...parts.map(([, name]) => name), ...(rest ? [`unknown: 0x${rest.toString(16)}`] : [])].join(' | ')})`;
}

function floatText(value, size) {
  const view = new DataView(new ArrayBuffer(8));
  if (size === 4) view.setUint32(0, Number(value));
  else if (size === 8) view.setBigUint64(0, value);
  else return `0x${value.toString(16)}`;
  const number = size === 4 ? view.getFloat32(0) : view.getFloat64(0);
  if (Number.isNaN(number)) return `${value >> BigInt(8 * size - 1) ? '-' : ''}nan(0x${(value & MANTISSA.get(size)).toString(16)})`;
  if (!Number.isFinite(number)) return number < 0 ? '-inf' : 'inf';
  return String(size === 4 ? Number(number.toPrecision(9)) : number);
}
