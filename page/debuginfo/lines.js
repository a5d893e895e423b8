// Source lines of addresses, from the rows of .debug_line: versions 2 to 5 of DWARF. Nothing proves them.
import { Reader, Unknown } from './reader.js';

const COPY = 1, ADVANCE_PC = 2, ADVANCE_LINE = 3, SET_FILE = 4, CONST_ADD_PC = 8, FIXED_ADVANCE_PC = 9;
const END_SEQUENCE = 1, SET_ADDRESS = 2;
const PATH = 1, FOLDER = 2;
const MOST_ROWS = 2000000;

// A table of folders or files, as version 5 has it: each path, and the number of its folder.
function pathsOf(reader) {
  const kinds = Array.from({ length: reader.byte() }, () => [reader.unsigned(), reader.unsigned()]);
  if (!kinds.length) throw new Unknown('paths of no form');
  return Array.from({ length: reader.unsigned() }, () => {
    const it = { path: '?', folder: 0 };
    for (const [kind, form] of kinds) {
      const value = reader.form(form);
      if (kind === PATH) it.path = value;
      else if (kind === FOLDER) it.folder = value;
    }
    return it;
  });
}

// The paths of an older version, which count from 1. Those of files have more fields.
function oldPathsOf(reader, areFiles) {
  const paths = [{ path: areFiles ? '?' : '', folder: 0 }];
  while (reader.elf.bytes[reader.at]) {
    const path = reader.string(), [folder] = areFiles ? [reader.unsigned(), reader.unsigned(), reader.unsigned()] : [0];
    paths.push({ path, folder });
  }
  reader.at++;
  return paths;
}

// The paths of files, each with its folder and that of the unit before it, as far as they are known.
function whole(folders, files) {
  const under = (folder, path) => (folder && folder !== '?' && !path.startsWith('/') ? `${folder}/${path}` : path);
  const places = folders.map(({ path }, i) => (i ? under(folders[0].path, path) : path));
  return files.map(({ path, folder }) => under(places[folder], path));
}

function head(reader) {
  const end = reader.word() + reader.at;
  const version = reader.half();
  if (version < 2 || version > 5) throw new Unknown(`version ${version}`);
  if (version >= 5) reader.at += 2;
  const program = reader.word() + reader.at;
  const least = reader.byte();
  if (version >= 4) reader.at++;
  reader.at++;
  const [base, range, first] = [reader.signedByte(), reader.byte(), reader.byte()];
  const fields = [0, ...Array.from({ length: first - 1 }, () => reader.byte())];
  const [folders, files] = version < 5 ? [oldPathsOf(reader, false), oldPathsOf(reader, true)] : [pathsOf(reader), pathsOf(reader)];
  return { end, program, least, base, range, first, fields, paths: whole(folders, files) };
}

// The rows of one unit.
function* rowsOf(reader, it) {
  reader.at = it.program;
  let address = 0, file = 1, line = 1;
  const row = (isEnd) => ({ address, line, isEnd, path: it.paths[file] ?? '?' });
  while (reader.at < it.end) {
    const code = reader.byte();
    if (code >= it.first) {
      address += Math.floor((code - it.first) / it.range) * it.least;
      line += it.base + (code - it.first) % it.range;
      yield row(false);
    } else if (code === 0) {
      const next = reader.unsigned() + reader.at, kind = reader.byte();
      if (kind === END_SEQUENCE) {
        yield row(true);
        [address, file, line] = [0, 1, 1];
      } else if (kind === SET_ADDRESS) address = reader.word();
      reader.at = next;
    } else if (code === COPY) yield row(false);
    else if (code === ADVANCE_PC) address += reader.unsigned() * it.least;
    else if (code === ADVANCE_LINE) line += reader.signed();
    else if (code === SET_FILE) file = reader.unsigned();
    else if (code === CONST_ADD_PC) address += Math.floor((255 - it.first) / it.range) * it.least;
    else if (code === FIXED_ADVANCE_PC) address += reader.half();
    else for (let i = 0; i < it.fields[code]; i++) reader.unsigned();
  }
}

function allRows(elf) {
  const section = elf.section('.debug_line');
  const rows = [];
  if (!section) return rows;
  const reader = new Reader(elf, section.begin);
  try {
    while (reader.at < section.begin + section.size) {
      const it = head(reader);
      for (const row of rowsOf(reader, it)) {
        if (rows.push(row) > MOST_ROWS) throw new RangeError('more rows than any program has');
      }
      if (it.end < reader.at) break;
      reader.at = it.end;
    }
  } catch (fault) {
    if (!(fault instanceof RangeError || fault instanceof Unknown)) throw fault;  // damaged or newer: the lines until there
  }
  return rows;
}

// The name of a file without its folders.
export const nameIn = (path) => path.replace(/.*\//, '');

// The lines of a program's sources: where an address comes from.
export class Lines {
  rows;
  all;

  constructor(elf) {
    this.rows = allRows(elf).filter((it) => it.address).map((it, order) => ({ ...it, order }));
    this.rows.sort((a, b) => a.address - b.address || b.isEnd - a.isEnd || a.order - b.order);
  }

  // How many rows begin at an address or before it.
  countTo(address) {
    let low = 0, high = this.rows.length;
    while (low < high) {
      const middle = (low + high) >> 1;
      if (this.rows[middle].address <= address) low = middle + 1;
      else high = middle;
    }
    return low;
  }

  // The path and the line of an address, or null.
  placeAt(address) {
    const found = this.rows[this.countTo(address) - 1];
    return found && !found.isEnd && found.line ? { path: found.path, line: found.line } : null;
  }

  // The path and the line of the first row of an address: where a function begins, if it is the function's.
  openingAt(address) {
    const found = this.rows[this.countTo(address - 1)];
    return found?.address === address && !found.isEnd && found.line ? { path: found.path, line: found.line } : this.placeAt(address);
  }

  // The place of an address as text, such as `station.c:34`.
  lineOf(address) {
    const place = this.placeAt(address);
    return place && `${nameIn(place.path)}:${place.line}`;
  }

  // The paths of all files of which there is a line.
  get paths() {
    this.all ??= new Set(this.rows.map((it) => it.path));
    return this.all;
  }

  // The lines of a file that have code from one address on, below another one, each with its first address.
  linesIn(path, begin, end) {
    const found = new Map();
    for (let i = this.countTo(begin - 1); i < this.rows.length && this.rows[i].address < end; i++) {
      const { address, line, isEnd, path: other } = this.rows[i];
      if (!isEnd && other === path && !found.has(line)) found.set(line, address);
    }
    return found;
  }
}

// A function that tells the place of an address, such as `station.c:34`, or null.
export function sourceLines(elf) {
  const lines = new Lines(elf);
  return (address) => lines.lineOf(address);
}
