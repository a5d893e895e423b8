import assert from 'node:assert/strict';
import test from 'node:test';
import { Frames } from '../frames.js';
import { elfOf, text, word } from './files.js';

// What is common: version 3, code scale 1, data scale -4, return address in x1; the frame is at sp.
const COMMON = [...word(0xffffffff), 3, ...text(''), 1, 0x7c, 1, 0x0c, 2, 0];

function sectionOf(operations) {
  const common = [...word(COMMON.length), ...COMMON];
  const entry = [...word(0), ...word(0x10000), ...word(40), ...operations];
  return [...common, ...word(entry.length), ...entry];
}
const ruleAt = (operations, pc) => new Frames(elfOf({ '.debug_frame': sectionOf(operations) })).ruleAt(pc);

test('a frame’s rule is that of the last operation at an instruction or before it', () => {
  const operations = [0x40 | 4, 0x0e, 32, 0x40 | 8, 0x0c, 8, 0];
  assert.deepEqual(ruleAt(operations, 0x10000), { register: 2, offset: 0 });
  assert.deepEqual(ruleAt(operations, 0x10004), { register: 2, offset: 32 });
  assert.deepEqual(ruleAt(operations, 0x1000b), { register: 2, offset: 32 });
  assert.deepEqual(ruleAt(operations, 0x1000c), { register: 8, offset: 0 });
});

test('where registers are saved is passed over, and a remembered rule comes back', () => {
  const operations = [0x80 | 8, 2, 0x05, 9, 3, 0x0a, 0x0e, 16, 0x40 | 4, 0x0b];
  assert.deepEqual(ruleAt(operations, 0x10000), { register: 2, offset: 16 });
  assert.deepEqual(ruleAt(operations, 0x10004), { register: 2, offset: 0 });
});

test('outside of a function, or with an operation that isn’t known, there is none', () => {
  assert.equal(ruleAt([], 0xfffc), null);
  assert.equal(ruleAt([], 0x10000 + 40), null);
  assert.equal(ruleAt([0x3f], 0x10000), null);
});
