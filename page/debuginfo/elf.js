// What the page shows of a program's file beside its reports: functions, words, sections. The program itself judges the file.
const MAGIC = 0x464c457f;
const HEADER = 52;
const SYMBOL_TABLE = 2, SYMBOL = 16;  // the kind of a section, and the bytes of a symbol
const LABEL = 0, OBJECT = 1, FUNCTION = 2;
export const LOADED = 1;  // the kind of a segment that is loaded
export const PROGRAM_HEADER = 32;  // the bytes of a program header
const LONGEST_NAME = 4096, MOST_NAMED = 1 << 26;  // bytes of one name, and of all
const decoder = new TextDecoder();

// Whether a range is within the part of a segment that has no bytes in the file.
export const hasRoom = ({ address, inFile, size }, [begin, end]) => address + inFile <= begin && end <= address + size;

// What a segment has before and after a range for which it has room.
function partsBeside(segment, [begin, end]) {
  const { address, size } = segment, before = { ...segment, size: begin - address };
  return [before, { ...segment, address: end, inFile: 0, size: address + size - end }].filter((it) => it.size);
}

export class Elf {
  bytes;
  view;
  segments = [];
  sections = [];
  functions = [];
  functionNames = new Set();
  labelNames = new Set();
  objects = [];
  left = MOST_NAMED;
  flags = 0;
  names;

  constructor(bytes) {
    this.bytes = bytes;
    this.view = new DataView(bytes.buffer, bytes.byteOffset, bytes.byteLength);
    try {
      this.read();
    } catch (fault) {
      if (!(fault instanceof RangeError)) throw fault;  // a damaged file: what was read until there
    }
    this.functions.sort((a, b) => a.address - b.address);
    this.names = new Map(this.functions.map((it) => [it.address, it.name]));
  }

  half(at) { return this.view.getUint16(at, true); }
  word(at) { return this.view.getUint32(at, true); }

  // The text at a place, up to its zero. A file whose texts are longer than any program's is read no further.
  string(at) {
    const bytes = this.bytes.subarray(at, at + LONGEST_NAME), end = bytes.indexOf(0);
    const text = end < 0 ? bytes : bytes.subarray(0, end);
    this.left -= text.length;
    if (this.left < 0) throw new RangeError('names without an end');
    return decoder.decode(text);
  }

  read() {
    if (this.word(0) !== MAGIC || this.bytes.length < HEADER) return;
    const [segments, sections] = [this.word(28), this.word(32)];
    this.flags = this.word(36);
    const [segmentSize, segmentCount, sectionSize, sectionCount, names] = [42, 44, 46, 48, 50].map((at) => this.half(at));
    for (let i = 0; i < segmentCount; i++) this.readSegment(segments + i * segmentSize);
    for (let i = 0; i < sectionCount; i++) {
      const at = sections + i * sectionSize;
      const [name, kind, flags, address, begin, size, link] = [0, 1, 2, 3, 4, 5, 6].map((field) => this.word(at + 4 * field));
      this.sections.push({ name, kind, flags, address, begin, size, link });
    }
    const strings = this.sections[names]?.begin ?? this.bytes.length;
    for (const it of this.sections) it.name = this.string(strings + it.name);
    const symbols = this.sections.find((it) => it.kind === SYMBOL_TABLE);
    if (symbols) this.readSymbols(symbols);
  }

  readSegment(at) {
    const [kind, offset, address, physical, inFile, size, rights, align] = [0, 1, 2, 3, 4, 5, 6, 7].map((it) => this.word(at + 4 * it));
    if (kind === LOADED) this.segments.push({ offset, address, physical, inFile, size, rights, align });
  }

  // Leaves out the stack's region where a segment has room for it: nothing is loaded there.
  leaveOut(range) {
    this.segments = this.segments.flatMap((it) => (hasRoom(it, range) ? partsBeside(it, range) : [it]));
  }

  readSymbols(table) {
    const strings = this.sections[table.link]?.begin ?? this.bytes.length;
    const seen = new Set();
    for (let at = table.begin; at + SYMBOL <= Math.min(table.begin + table.size, this.bytes.length); at += SYMBOL) {
      const [place, address, size] = [this.word(at), this.word(at + 4), this.word(at + 8)];
      const kind = this.bytes[at + 12] & 15, isDefined = place > 0 && this.half(at + 14) > 0;
      if (isDefined && kind === OBJECT) this.objects.push({ address, size });
      if (!isDefined || (kind !== FUNCTION && kind !== LABEL)) continue;
      const name = this.string(strings + place);
      (kind === FUNCTION ? this.functionNames : this.labelNames).add(name);
      if (kind !== FUNCTION || !size || seen.has(address)) continue;
      seen.add(address);
      this.functions.push({ name, address, size });
    }
  }

  // The addresses of the symbols that have one of some names, the first of each name.
  addressesOf(names) {
    const table = this.sections.find((it) => it.kind === SYMBOL_TABLE), found = new Map();
    const strings = this.sections[table?.link]?.begin ?? this.bytes.length, end = table ? table.begin + table.size : 0;
    for (let at = table?.begin ?? 0; at + SYMBOL <= Math.min(end, this.bytes.length); at += SYMBOL) {
      const name = this.half(at + 14) > 0 ? this.string(strings + this.word(at)) : '';
      if (names.includes(name) && !found.has(name)) found.set(name, this.word(at + 4));
    }
    return found;
  }

  // The name of the function that begins at an address.
  nameAt(address) { return this.names.get(address); }

  section(name) { return this.sections.find((it) => it.name === name); }

  // The function that has an address; without one of that name, the code around it.
  functionAt(address) {
    const found = this.functions.find((it) => it.address <= address && address < it.address + it.size);
    if (found) return found;
    const segment = this.segmentAt(address);
    if (!segment) return null;
    const begin = Math.max(segment.address, address - address % 4 - 64);
    return { name: '???', address: begin, size: Math.min(128, segment.address + segment.size - begin) };
  }

  segmentAt(address) {
    return this.segments.find((it) => it.address <= address && address < it.address + it.size);
  }

  // Whether some word that is loaded from the file is one of these, at a multiple of `unit`.
  hasWord(words, unit) {
    return this.segments.some(({ offset, address, inFile }) => {
      const end = Math.min(offset + inFile, this.bytes.length) - 3;
      for (let at = offset + (-address & unit - 1); at < end; at += unit) if (words.includes(this.word(at))) return true;
      return false;
    });
  }

  // Where loaded bytes from an address on stand in the file, -1 if they aren't in it as a whole.
  offsetOf(address, length = 4) {
    const it = this.segmentAt(address);
    return it && address + length - it.address <= it.inFile ? it.offset + address - it.address : -1;
  }

  // The word, or the half of two bytes, that is loaded at an address, null where there is none.
  loaded(address, length = 4) {
    const segment = this.segmentAt(address);
    if (!segment || address + length > segment.address + segment.size) return null;
    let word = 0;
    for (let i = length - 1; i >= 0; i--) {
      const inSegment = address + i - segment.address;
      word = word * 256 + (inSegment < segment.inFile ? this.bytes[segment.offset + inSegment] ?? 0 : 0);
    }
    return word;
  }
}
