// ELF files that are written by hand, for tests: sections of given bytes, without segments or symbols.
import { readFileSync } from 'node:fs';
import { Elf } from '../elf.js';

const HEADER = 52, ROW = 40;  // bytes of the file's header, and of a section's

export const example = (name) => new Elf(new Uint8Array(readFileSync(new URL(`../../../examples/${name}`, import.meta.url))));
export const half = (value) => [value & 255, value >>> 8 & 255];
export const word = (value) => [...half(value & 0xffff), ...half(value >>> 16)];
export const text = (it) => [...new TextEncoder().encode(it), 0];

// The bytes of a file with sections, by their names.
export function bytesOf(sections) {
  const names = ['', ...Object.keys(sections), '.shstrtab'];
  const strings = names.flatMap(text), contents = [[], ...Object.values(sections), strings];
  const header = [0x7f, 0x45, 0x4c, 0x46, ...Array(28).fill(0), ...word(0), ...word(0), ...half(HEADER), ...half(32), ...half(0),
    ...half(ROW), ...half(names.length), ...half(names.length - 1)];
  const body = [], rows = [];
  let name = 0;
  contents.forEach((content, i) => {
    rows.push(...word(name), ...word(1), ...word(0), ...word(0), ...word(HEADER + body.length), ...word(content.length),
      ...Array(4).fill(word(0)).flat());
    body.push(...content);
    name += text(names[i]).length;
  });
  header.splice(32, 4, ...word(HEADER + body.length));
  return Uint8Array.from([...header, ...body, ...rows]);
}

export const elfOf = (sections) => new Elf(bytesOf(sections));
