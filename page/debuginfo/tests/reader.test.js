import assert from 'node:assert/strict';
import test from 'node:test';
import { FORM, Reader, Unknown, textIn } from '../reader.js';
import { elfOf, text, word } from './files.js';

const readerOf = (bytes) => {
  const elf = elfOf({ data: bytes });
  return new Reader(elf, elf.section('data').begin);
};

// Source: DWARF 5, section 7.6, tables 7.7 and 7.8.
const UNSIGNED = [[2, [0x02]], [127, [0x7f]], [128, [0x80, 0x01]], [129, [0x81, 0x01]], [12857, [0xb9, 0x64]]];
const SIGNED = [[2, [0x02]], [-2, [0x7e]], [127, [0xff, 0x00]], [-127, [0x81, 0x7f]], [128, [0x80, 0x01]], [-128, [0x80, 0x7f]],
  [129, [0x81, 0x01]], [-129, [0xff, 0x7e]]];

test('packed numbers are those of the standard', () => {
  for (const [value, bytes] of UNSIGNED) assert.equal(readerOf(bytes).unsigned(), value);
  for (const [value, bytes] of SIGNED) assert.equal(readerOf(bytes).signed(), value);
});

test('a packed number beyond 32 bits keeps its value', () => {
  assert.equal(readerOf([0xff, 0xff, 0xff, 0xff, 0xff, 0xff, 0x01]).unsigned(), 2 ** 43 - 1);
  assert.equal(readerOf([0x80, 0x80, 0x80, 0x80, 0x80, 0x40]).signed(), -(2 ** 41));
});

test('numbers of a fixed length are read in turn, the lowest byte first', () => {
  const reader = readerOf([0xfe, 0x34, 0x12, ...word(0x89abcdef), 1, 0, 0, 0, 0, 1, 0, 0, ...Array(16).fill(9), 7]);
  assert.deepEqual([reader.signedByte(), reader.half(), reader.word(), reader.fixed(8), reader.fixed(16), reader.byte()],
    [-2, 0x1234, 0x89abcdef, 2 ** 40 + 1, 0, 7]);
});

test('texts end with a zero, and a text of another section has its offset', () => {
  const elf = elfOf({ data: [...text('one'), ...text('two')], '.debug_str': [...text('first'), ...text('second')] });
  const reader = new Reader(elf, elf.section('data').begin);
  assert.deepEqual([reader.string(), reader.string()], ['one', 'two']);
  assert.equal(textIn(elf, '.debug_str', 6), 'second');
  assert.equal(textIn(elf, '.debug_str', 13), null);
  assert.equal(textIn(elf, '.debug_line_str', 0), null);
});

test('what a file has that is newer is Unknown, and what ends too early a RangeError', () => {
  assert.throws(() => readerOf([0]).form(FORM.refSig8), Unknown);
  assert.throws(() => readerOf([1]).block(1000), RangeError);
  assert.throws(() => { const reader = readerOf([]); for (;;) reader.word(); }, RangeError);
});
