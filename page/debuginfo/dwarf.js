// The debugging information of a file: what .debug_info says of functions, variables and types, in DWARF 2 to 5. Units are read as they are
// wanted. Nothing proves it, and how much of it is read is bounded.
import { ADDRESS_SIZE, FORM, LONG_LENGTH, Reader, STRINGS, Unknown, textIn } from './reader.js';

export const TAG = {
  array: 0x01, classType: 0x02, enumeration: 0x04, parameter: 0x05, block: 0x0b, member: 0x0d, pointer: 0x0f, reference: 0x10,
  structure: 0x13, functionType: 0x15, typedef: 0x16, union: 0x17, moreParameters: 0x18, inheritance: 0x1c, inlined: 0x1d,
  subrange: 0x21, base: 0x24, catchBlock: 0x25, constant: 0x26, enumerator: 0x28, subprogram: 0x2e, tryBlock: 0x32, variable: 0x34,
  volatile: 0x35, restrict: 0x37, rvalueReference: 0x42, atomic: 0x47,
};
export const AT = {
  location: 0x02, name: 0x03, byteSize: 0x0b, bitOffset: 0x0c, bitSize: 0x0d, lowPc: 0x11, highPc: 0x12, language: 0x13, constValue: 0x1c,
  upperBound: 0x2f, origin: 0x31, count: 0x37, memberLocation: 0x38, declaration: 0x3c, encoding: 0x3e,
  external: 0x3f, frameBase: 0x40, specification: 0x47, type: 0x49, ranges: 0x55, dataBitOffset: 0x6b, stringsBase: 0x72,
  addressBase: 0x73, rangesBase: 0x74, listsBase: 0x8c,
};
const WANTED = new Set(Object.values(AT));
const SIZES = {  // bytes of the forms of one length
  addr: 4, data1: 1, data2: 2, data4: 4, data8: 8, data16: 16, flag: 1, ref1: 1, ref2: 2, ref4: 4, ref8: 8, refAddr: 4, refSup4: 4,
  refSup8: 8, refSig8: 8, strp: 4, strpSup: 4, lineStrp: 4, secOffset: 4, strx1: 1, strx2: 2, strx3: 3, strx4: 4, addrx1: 1, addrx2: 2,
  addrx3: 3, addrx4: 4, flagPresent: 0,
};
const SIZE_OF = new Map(Object.entries(SIZES).map(([name, size]) => [FORM[name], size]));
const BLOCKS = new Map([[FORM.block1, 1], [FORM.block2, 2], [FORM.block4, 4], [FORM.block, 0], [FORM.exprloc, 0]]);  // 0: of any length
const COUNTED = new Set([FORM.udata, FORM.refUdata, FORM.strx, FORM.addrx, FORM.loclistx, FORM.rnglistx]);
const WITHIN = new Set([FORM.ref1, FORM.ref2, FORM.ref4, FORM.ref8, FORM.refUdata]);  // references within the unit
const STRING_INDEX = new Set([FORM.strx, FORM.strx1, FORM.strx2, FORM.strx3, FORM.strx4]);
const ADDRESS_INDEX = new Set([FORM.addrx, FORM.addrx1, FORM.addrx2, FORM.addrx3, FORM.addrx4]);
const COMPILE = 1, PARTIAL = 3;  // kinds of a unit that are read
const USUAL_BASE = 8;  // where the first entry of a table of version 5 is, if a unit doesn't say
const LONGEST_NAME = 256;
const MOST_UNITS = 50000;
const MOST_FIELDS = 5000000;  // of all that is read of a file
const MOST_LINKS = 8;  // references from one entry to the next one that has what is wanted

// One unit: its entries, each with its tag, its fields that are wanted, and the entries in it.
class Unit {
  dwarf;
  elf;
  version;
  abbreviations;
  first;
  at;
  end;
  entries = null;
  table;
  root;

  // A unit is between two places of the file, by what its head says.
  constructor(dwarf, { version, abbreviations, first, at, end }) {
    this.dwarf = dwarf;
    this.elf = dwarf.elf;
    this.version = version;
    this.abbreviations = abbreviations;
    this.first = first;
    this.at = at;
    this.end = end;
  }

  // Reads the unit's own entry only.
  begin() {
    const reader = new Reader(this.elf, this.first);
    this.table = this.dwarf.tableAt(this.abbreviations);
    this.root = this.entry(reader);
    return this;
  }

  // Reads all entries, once; of a damaged unit those until there.
  read() {
    if (!this.entries) {
      this.entries = new Map();
      attempt(() => this.readEntries());
    }
    return this;
  }

  readEntries() {
    const reader = new Reader(this.elf, this.first), within = [];
    do {
      const entry = this.entry(reader);
      if (!entry) within.pop();
      else {
        this.entries.set(entry.at, entry);
        if (within.length) within.at(-1).children.push(entry);
        else this.root = entry;
        if (entry.hasChildren) within.push(entry);
      }
    } while (within.length && reader.at < this.end);
  }

  // The next entry, null at the end of those of one parent.
  entry(reader) {
    const { at } = reader, code = reader.unsigned();
    this.dwarf.spend(1);
    if (!code) return null;
    const known = this.table.get(code);
    if (!known) throw new Unknown(`abbreviation ${code}`);
    this.dwarf.spend(known.fields.length);
    const { tag, hasChildren } = known;
    const entry = { unit: this, at, tag, hasChildren, children: [], fields: new Map(), ranges: null, called: undefined };
    for (const { name, form, value } of known.fields) {
      const field = fieldOf(reader, form, value);
      if (WANTED.has(name)) entry.fields.set(name, field);
    }
    return entry;
  }

  // ---- what fields have

  // The entry to which a field of another one refers, or undefined.
  reference(entry, name) {
    const field = entry.fields.get(name);
    if (!field) return undefined;
    const { form, value } = field;
    if (WITHIN.has(form)) return this.read().entries.get(this.at + value);
    return form === FORM.refAddr ? this.dwarf.entryAt(value) : undefined;
  }

  // The field of an entry, or that of the entry of which it is an instance, with the unit in which it is.
  found(entry, name) {
    for (let it = entry, links = 0; it && links < MOST_LINKS; links++) {
      if (it.fields.has(name)) return { entry: it, unit: it.unit, field: it.fields.get(name) };
      it = it.unit.reference(it, AT.origin) ?? it.unit.reference(it, AT.specification);
    }
    return null;
  }

  // What an entry is called, or null. Each name is read once.
  name(entry) {
    if (entry.called === undefined) {
      const found = this.found(entry, AT.name), text = found && attempt(() => found.unit.text(found.field));
      entry.called = text && text.length > LONGEST_NAME ? `${text.slice(0, LONGEST_NAME)}…` : text;
    }
    return entry.called;
  }

  text({ form, value, at }) {
    if (form === FORM.string) return this.elf.string(at);
    if (STRINGS.has(form)) return textIn(this.elf, STRINGS.get(form), value);
    if (!STRING_INDEX.has(form)) return null;
    const base = this.number(this.root, AT.stringsBase) ?? USUAL_BASE;
    const offset = this.wordOf('.debug_str_offsets', base + 4 * value);
    return offset === null ? null : textIn(this.elf, '.debug_str', offset);
  }

  // A number or an address, undefined where there is none.
  number(entry, name) {
    const field = entry.fields.get(name);
    if (!field || BLOCKS.has(field.form)) return undefined;
    return ADDRESS_INDEX.has(field.form) ? this.address(field.value) : field.value;
  }

  // The address with a number in the unit's table.
  address(index) {
    const base = this.number(this.root, AT.addressBase) ?? USUAL_BASE;
    const found = this.wordOf('.debug_addr', base + ADDRESS_SIZE * index);
    if (found === null) throw new RangeError('an address beyond the table');
    return found;
  }

  wordOf(section, offset) {
    const found = this.elf.section(section);
    return found && offset + 4 <= found.size ? this.elf.word(found.begin + offset) : null;
  }

  get language() { return this.number(this.root, AT.language) ?? 0; }
}

function fieldOf(reader, form, constant) {
  const size = SIZE_OF.get(form), { at } = reader;
  if (form === FORM.implicitConst) return { form, value: constant, at };
  if (size !== undefined) return { form, value: form === FORM.flagPresent ? 1 : reader.fixed(size), at };
  if (BLOCKS.has(form)) {
    const length = BLOCKS.get(form) ? reader.fixed(BLOCKS.get(form)) : reader.unsigned();
    return { form, value: reader.block(length), at };
  }
  if (COUNTED.has(form)) return { form, value: reader.unsigned(), at };
  if (form === FORM.sdata) return { form, value: reader.signed(), at };
  if (form === FORM.string) {
    while (reader.byte());
    return { form, value: null, at };
  }
  if (form !== FORM.indirect) throw new Unknown(`form ${form}`);
  const next = reader.unsigned();
  if (next === FORM.indirect || next === FORM.implicitConst) throw new Unknown(`form ${next}, indirect`);
  return fieldOf(reader, next);
}

// Whether a field has an expression rather than an offset of a list.
export const isBlock = ({ form }) => BLOCKS.has(form);
export const isIndex = ({ form }) => form === FORM.loclistx || form === FORM.rnglistx;
export const isAddress = ({ form }) => form === FORM.addr || ADDRESS_INDEX.has(form);

// All units of a file.
export class Dwarf {
  elf;
  left = MOST_FIELDS;
  tables = new Map();
  info;
  units = [];

  constructor(elf) {
    this.elf = elf;
    this.info = elf.section('.debug_info');
    attempt(() => this.readUnits());
  }

  spend(count) {
    this.left -= count;
    if (this.left < 0) throw new RangeError('more debugging information than is read');
  }

  readUnits() {
    if (!this.info) return;
    const { begin, size } = this.info, sectionEnd = Math.min(begin + size, this.elf.bytes.length);
    for (let at = begin; at < sectionEnd && this.units.length < MOST_UNITS;) {
      const reader = new Reader(this.elf, at), length = reader.word(), end = reader.at + length;
      if (length >= LONG_LENGTH || end > sectionEnd) break;
      const head = headOf(reader);
      this.spend(1);
      if (head) attempt(() => this.units.push(new Unit(this, { ...head, at, end }).begin()));
      at = end;
    }
  }

  // The entry at an offset of .debug_info, in any unit.
  entryAt(offset) {
    const at = this.info.begin + offset;
    return this.units.find((it) => it.at <= at && at < it.end)?.read().entries.get(at);
  }

  // The abbreviations at an offset: of each number the tag, whether entries are in it, and the fields.
  tableAt(offset) {
    if (this.tables.has(offset)) return this.tables.get(offset);
    const section = this.elf.section('.debug_abbrev');
    if (!section || offset >= section.size) throw new Unknown('no abbreviations');
    const reader = new Reader(this.elf, section.begin + offset), table = new Map();
    for (let code = reader.unsigned(); code; code = reader.unsigned()) {
      const it = { tag: reader.unsigned(), hasChildren: reader.byte() === 1, fields: [] };
      for (;;) {
        const name = reader.unsigned(), form = reader.unsigned();
        this.spend(1);
        const value = form === FORM.implicitConst ? reader.signed() : undefined;
        if (!name && !form) break;
        it.fields.push({ name, form, value });
      }
      table.set(code, it);
    }
    this.tables.set(offset, table);
    return table;
  }
}

// What the head of a unit says, null where it is of a kind that isn't read.
function headOf(reader) {
  const version = reader.half();
  if (version < 2 || version > 5) return null;
  const kind = version >= 5 ? reader.byte() : COMPILE;
  let abbreviations, size;
  if (version >= 5) [size, abbreviations] = [reader.byte(), reader.word()];
  else [abbreviations, size] = [reader.word(), reader.byte()];
  if (size !== ADDRESS_SIZE || (kind !== COMPILE && kind !== PARTIAL)) return null;
  return { version, abbreviations, first: reader.at };
}

const known = new WeakMap();

// What a function returns of an entry, which is asked once for each `what`.
export function once(entry, what, does) {
  if (!known.has(entry)) known.set(entry, new Map());
  const all = known.get(entry);
  if (!all.has(what)) all.set(what, does(entry));
  return all.get(what);
}

// What a function returns; `otherwise` where the file is damaged, or has something newer than is read here.
export function attempt(does, otherwise = null) {
  try {
    return does();
  } catch (fault) {
    if (!(fault instanceof RangeError || fault instanceof Unknown)) throw fault;
    return otherwise;
  }
}
