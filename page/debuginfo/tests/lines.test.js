import assert from 'node:assert/strict';
import test from 'node:test';
import { Lines, nameIn } from '../lines.js';
import { elfOf, example, half, text, word } from './files.js';

const LENGTHS = [0, 1, 1, 1, 1, 0, 0, 0, 1];  // operands of the standard operations 1 to 9

// A unit of version 3, whose special operations begin at 10, with line_base -3 and line_range 12.
function unitOf(program) {
  const tables = [...text('lib'), 0, ...text('one.c'), 0, 0, 0, ...text('two.h'), 1, 0, 0, 0];
  const head = [1, 1, 0xfd, 12, 10, ...LENGTHS, ...tables];
  const body = [...half(3), ...word(head.length), ...head, ...program];
  return [...word(body.length), ...body];
}
const at = (address) => [0, 5, 2, ...word(address)], END = [0, 1, 1];
const special = (lines, bytes) => 10 + (lines + 3) + 12 * bytes;

test('special operations move the address and the line', () => {
  const lines = new Lines(elfOf({ '.debug_line': unitOf([...at(0x10000), special(4, 0), special(1, 4), special(-3, 8), 2, 4, ...END]) }));
  assert.deepEqual([0x10000, 0x10003, 0x10004, 0x1000c, 0x1000f].map((it) => lines.lineOf(it)),
    ['one.c:5', 'one.c:5', 'one.c:6', 'one.c:3', 'one.c:3']);
});

test('there is no line before the first row, or after the end of a sequence', () => {
  const lines = new Lines(elfOf({ '.debug_line': unitOf([...at(0x10000), special(4, 0), 2, 4, ...END]) }));
  assert.deepEqual([0xffff, 0x10000, 0x10004].map((it) => lines.lineOf(it)), [null, 'one.c:5', null]);
});

test('another file has its folder before its name', () => {
  const lines = new Lines(elfOf({ '.debug_line': unitOf([...at(0x10000), 4, 2, special(8, 0), 2, 4, ...END]) }));
  assert.deepEqual(lines.placeAt(0x10000), { path: 'lib/two.h', line: 9 });
  assert.equal(nameIn('lib/two.h'), 'two.h');
});

test('a unit of a newer version has no lines, and those before it stay', () => {
  const unit = unitOf([...at(0x10000), special(4, 0), 2, 4, ...END]), newer = [...word(6), ...half(6), 0, 0, 0, 0];
  assert.equal(new Lines(elfOf({ '.debug_line': [...unit, ...newer] })).lineOf(0x10000), 'one.c:5');
  assert.equal(new Lines(elfOf({ '.debug_line': newer })).rows.length, 0);
});

test('the lines of an example are those of its source', () => {
  const lines = new Lines(example('firmware/station.elf')), path = '../firmware/station.c';
  assert.equal(lines.lineOf(0x101bc), 'station.c:29');
  assert.ok(lines.paths.has(path));
  const found = [...lines.linesIn(path, 0x101bc, 0x101bc + 128).keys()].sort((a, b) => a - b);
  assert.deepEqual(found, [29, 30, 31, 32, 33, 34, 35, 36, 37, 38]);
});
