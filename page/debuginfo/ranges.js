// Where an entry of debugging information holds: the addresses of a function or a block, and the place of a variable at an address. Lists
// of both are in sections of their own, one kind up to version 4 and another one in version 5.
import { AT, isAddress, isBlock, isIndex } from './dwarf.js';
import { Reader, Unknown } from './reader.js';

const MOST = 10000;  // rows of one list that are read
const HIGHEST = 0xffffffff;
const END = 0, BASE_INDEX = 1, INDEXES = 2, INDEX_LENGTH = 3, OFFSETS = 4;  // what a row of version 5 has
const RANGE_ROWS = { base: 5, addresses: 6, addressLength: 7 };
const PLACE_ROWS = { always: 5, base: 6, addresses: 7, addressLength: 8, views: 9 };
const [OLD_RANGES, RANGES] = ['.debug_ranges', '.debug_rnglists'], [OLD_PLACES, PLACES] = ['.debug_loc', '.debug_loclists'];

// Where a list begins, to which a field refers by an offset or by a number.
function startOf(unit, field, section, base) {
  const found = unit.elf.section(section);
  if (!found) throw new Unknown(`no ${section}`);
  if (!isIndex(field)) return found.begin + field.value;
  const table = unit.number(unit.root, base) ?? 12;
  const offset = unit.wordOf(section, table + 4 * field.value);
  if (offset === null) throw new RangeError('a list beyond the table');
  return found.begin + table + offset;
}

// The rows of a list up to version 4: from an address, up to another one, and the place of an expression.
function* oldRows(unit, field, section, hasPlaces) {
  const reader = new Reader(unit.elf, startOf(unit, field, section));
  let base = unit.number(unit.root, AT.lowPc) ?? 0;
  for (let i = 0; i < MOST; i++) {
    const [begin, end] = [reader.word(), reader.word()];
    if (begin === HIGHEST) base = end;
    else if (!begin && !end) return;
    else yield { begin: base + begin, end: base + end, place: hasPlaces ? reader.block(reader.half()) : null };
  }
}

// The rows of a list of version 5.
function* newRows(unit, start, kinds, hasPlaces) {
  const reader = new Reader(unit.elf, start), place = () => (hasPlaces ? reader.block(reader.unsigned()) : null);
  const index = () => unit.address(reader.unsigned());
  let base = unit.number(unit.root, AT.lowPc) ?? 0;
  for (let i = 0; i < MOST; i++) {
    const kind = reader.byte();
    let begin, end;
    if (kind === END) return;
    if (kind === BASE_INDEX) base = index();
    else if (kind === kinds.base) base = reader.word();
    else if (kind === kinds.views) reader.unsigned(), reader.unsigned();
    else {
      if (kind === INDEXES) [begin, end] = [index(), index()];
      else if (kind === INDEX_LENGTH) end = (begin = index()) + reader.unsigned();
      else if (kind === OFFSETS) [begin, end] = [base + reader.unsigned(), base + reader.unsigned()];
      else if (kind === kinds.addresses) [begin, end] = [reader.word(), reader.word()];
      else if (kind === kinds.addressLength) end = (begin = reader.word()) + reader.unsigned();
      else if (kind === kinds.always) [begin, end] = [0, HIGHEST];
      else throw new Unknown(`a row ${kind} of a list`);
      yield { begin, end, place: place() };
    }
  }
}

// The addresses of a function, a block or a unit, as pairs; null where none are given.
export function rangesOf(entry) {
  const { unit } = entry, low = unit.number(entry, AT.lowPc), high = entry.fields.get(AT.highPc), list = entry.fields.get(AT.ranges);
  if (list) return entry.ranges ?? listed(entry, list);
  if (low === undefined || !high) return null;
  const value = unit.number(entry, AT.highPc);
  return [[low, isAddress(high) ? value : low + value]];
}

// Reads a list of addresses once: one that can't be read is empty from then on.
function listed(entry, list) {
  const { unit } = entry;
  entry.ranges = [];
  unit.dwarf.spend(1);
  const rows = unit.version < 5 ? oldRows(unit, list, OLD_RANGES, false)
    : newRows(unit, startOf(unit, list, RANGES, AT.rangesBase), RANGE_ROWS, false);
  const ranges = [...rows].map(({ begin, end }) => [begin, end]);
  unit.dwarf.spend(ranges.length);
  entry.ranges = ranges;
  return ranges;
}

export const isWithin = (ranges, address) => ranges.some(([begin, end]) => begin <= address && address < end);

// The expression of a place that an entry's field has at an address; null where there is none at that address, or none at all.
export function expressionAt(entry, name, address) {
  const field = entry.fields.get(name), { unit } = entry;
  if (!field) return null;
  if (isBlock(field)) return field.value;
  const rows = unit.version < 5 ? oldRows(unit, field, OLD_PLACES, true)
    : newRows(unit, startOf(unit, field, PLACES, AT.listsBase), PLACE_ROWS, true);
  let usual = null;
  for (const { begin, end, place } of rows) {
    if (end === HIGHEST && !begin) usual = place;
    else if (begin <= address && address < end) return place;
  }
  return usual;
}
