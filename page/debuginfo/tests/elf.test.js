import assert from 'node:assert/strict';
import test from 'node:test';
import { Elf, hasRoom } from '../elf.js';
import { bytesOf, elfOf, example } from './files.js';

test('a file has its sections by their names', () => {
  const elf = elfOf({ first: [1, 2, 3], second: [4] });
  assert.deepEqual([...elf.bytes.subarray(elf.section('second').begin).subarray(0, 1)], [4]);
  assert.equal(elf.section('first').size, 3);
  assert.equal(elf.section('third'), undefined);
});

test('functions are those of the symbols, in the order of their addresses', () => {
  const elf = example('firmware/station.elf'), main = elf.functions.find((it) => it.name === 'main');
  assert.deepEqual([main.address, main.size], [0x1062c, 140]);
  assert.equal(elf.functionAt(0x1062c + 136).name, 'main');
  assert.equal(elf.functionAt(0x1062c + 140).name, 'memcpy');
  assert.equal(elf.nameAt(0x101bc), 'set_name');
  assert.ok(elf.functions.every((it, i) => i === 0 || elf.functions[i - 1].address < it.address));
  assert.equal(elf.functionAt(0xdead0000), null);
});

test('loaded words are those of the file, and bytes that the file doesn’t have are 0', () => {
  const elf = example('packet.elf'), [segment] = elf.segments;
  assert.equal(elf.loaded(segment.address), elf.word(elf.offsetOf(segment.address)));
  assert.equal(elf.loaded(segment.address + segment.size), null);
  assert.equal(elf.offsetOf(segment.address + segment.inFile), -1);
  const station = example('firmware/station.elf'), { address, size } = station.segments.find((it) => it.size > it.inFile + 4);
  assert.equal(station.loaded(address + size - 4), 0);
});

test('a segment has room where it has no bytes of the file', () => {
  const segment = { address: 0x1000, inFile: 0x10, size: 0x40 };
  assert.deepEqual([[0x1010, 0x1040], [0x100f, 0x1040], [0x1010, 0x1041]].map((it) => hasRoom(segment, it)), [true, false, false]);
});

test('a file that is cut off anywhere has what was read until there', () => {
  const whole = bytesOf({ data: [1, 2, 3] });
  for (let length = 0; length < whole.length; length++) assert.ok(new Elf(whole.slice(0, length)).sections.length <= 3);
  const { bytes } = example('firmware/station.elf');
  for (let length = 0; length < bytes.length; length += 997) assert.ok(new Elf(bytes.slice(0, length)).functions.length <= 29);
});
