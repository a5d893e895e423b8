// What a board's start file takes for granted that the page can give it: its own stack as the stack's region, and bytes at the addresses
// from which it copies them.
import { hexWord, listed, many } from '../common/numbers.js';
import { LOADED, PROGRAM_HEADER, hasRoom } from '../debuginfo/elf.js';
import { heapOf, isStack, meets, stackText } from '../engine/targets.js';
import { MOST_STACK, STACK_NAMES, STACK_STEP } from '../facts.js';

const ALLOCATED = 2, ADDRESSES = 2 ** 32;
const PROGRAM_TABLE = 28, PROGRAM_COUNT = 44, WORD = 4;  // where a file's header has its program headers, and how many these are

/** @returns {[number, number]} */
const rangeOf = ({ address, size }) => [address, address + size];
const stepped = (address) => Math.ceil(address / STACK_STEP) * STACK_STEP;

// Up to where memory below the end of a stack is something else's. Null if that is between the stack pointer's first place and the end.
function lowest({ segments, sections, objects }, top, end) {
  const parts = segments.filter((it) => it.size)
    .map(({ address, inFile, size }) => [address, address + (end <= address + size ? inFile : size)]);
  for (const { address, size, flags } of sections) {
    if (flags & ALLOCATED && size && address + size < top) parts.push([address, address + size]);
  }
  for (const { address, size } of objects) {
    const high = address + size;
    if (size) parts.push([address, address < top && top <= high ? address : high]);
  }
  if (parts.some(([low, high]) => low < end && top < high)) return null;
  return Math.max(0, ...parts.filter(([low]) => low < end).map(([, high]) => high));
}

// Where symbols are by which linker scripts call the end of the stack; none in a damaged file.
function addressesIn(elf) {
  try {
    return elf.addressesOf(STACK_NAMES);
  } catch (fault) {
    if (fault instanceof RangeError) return new Map();
    throw fault;
  }
}

// The stack that a symbol of the file ends: its name, where it ends, and the region that can be the stack's; null if there is none.
export function ownStack(elf) {
  const ends = addressesIn(elf), name = STACK_NAMES.find((it) => ends.get(it)), top = ends.get(name), end = stepped(top ?? 0);
  if (!name) return null;
  const low = lowest(elf, top, end);
  if (low === null) return null;
  /** @type {[number, number]} */
  const region = [Math.max(stepped(low), end - MOST_STACK, 0), end];
  const isMet = elf.segments.some((it) => it.size && meets(rangeOf(it), region) && !hasRoom(it, region));
  return isStack(region) && !isMet ? { name, top, region } : null;
}

// The segments whose bytes the linker script puts to other addresses, where nothing is loaded and something can be.
export function unloaded(elf, target) {
  const contents = elf.segments.filter((it) => it.inFile), taken = elf.segments.filter((it) => it.size).map(rangeOf);
  const found = [], isUsed = contents.some((it) => it.physical);
  for (const it of contents.sort((a, b) => a.physical - b.physical)) {
    const range = [it.physical, it.physical + it.inFile], last = found.at(-1);
    const isFree = ![...taken, heapOf(target), target.stack].some((other) => meets(range, other));
    if (isUsed && it.physical !== it.address && range[1] <= ADDRESSES && isFree && !(last && range[0] < last.physical + last.inFile)) {
      found.push(it);
    }
  }
  return found;
}

// A file with more segments, which load bytes that it has at their physical addresses, too.
export function loadedToo(bytes, segments) {
  const view = new DataView(bytes.buffer, bytes.byteOffset), from = view.getUint32(PROGRAM_TABLE, true);
  const count = view.getUint16(PROGRAM_COUNT, true), at = Math.ceil(bytes.length / WORD) * WORD, old = count * PROGRAM_HEADER;
  const made = new Uint8Array(at + old + segments.length * PROGRAM_HEADER), to = new DataView(made.buffer);
  made.set(bytes);
  made.set(bytes.subarray(from, from + old), at);
  segments.forEach(({ offset, physical, inFile, rights, align }, i) => {
    [LOADED, offset, physical, physical, inFile, inFile, rights, align].forEach((value, field) => {
      to.setUint32(at + old + i * PROGRAM_HEADER + WORD * field, value, true);
    });
  });
  to.setUint32(PROGRAM_TABLE, at, true);
  to.setUint16(PROGRAM_COUNT, count + segments.length, true);
  return made;
}

/**
 * What is offered for a file: of each what it is, a button's label, and what it changes: the target, or the segments that are loaded too.
 * @param {import('../debuginfo/elf.js').Elf} elf
 * @returns {{ text: string, label: string, change?: Object, segments?: Object[], edits?: Object[] }[]}
 */
export function offersFor(elf, target) {
  const offers = [], own = ownStack(elf), segments = unloaded(elf, target), [begin, end] = target.stack;
  if (own && !(begin < own.top && own.top <= end) && !meets(own.region, heapOf(target))) {
    offers.push({ text: `The start file has its stack below ${hexWord(own.top)} (${own.name}), and the page has it elsewhere: a push `
      + 'outside any segment is an error, and uninitialised values on that stack aren’t found.',
      label: `Put the stack at ${stackText(own.region)}`, change: { stack: own.region } });
  }
  if (segments.length) {
    const told = segments.map((it) => `${many(it.inFile, 'byte')} for ${hexWord(it.address)} to ${hexWord(it.physical)}`);
    offers.push({ text: `The linker script puts ${listed(told, 'and')}, from where a start file copies them. Nothing is loaded there, so `
      + 'they would be 0.', label: 'Load them there, too', segments });
  }
  return offers;
}
