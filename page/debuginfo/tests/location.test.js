import assert from 'node:assert/strict';
import test from 'node:test';
import { Content, Elsewhere, Expression } from '../location.js';
import { elfOf, word } from './files.js';

const REGISTERS = Array.from({ length: 32 }, (_, i) => ({ value: 0x1000 * i, undef: i === 5 ? 0xff00 : 0 }));
const CONTEXT = {
  registers: REGISTERS,
  // Each byte of memory is the low byte of its address; that of 0x50 has an undefined bit, and 0x60 and on are inaccessible.
  read: async (address, length) => ({ bytes: Array.from({ length }, (_, i) => address + i & 255),
    undefined: Array.from({ length }, (_, i) => (address + i >= 0x60 && address + i < 0x70 ? null : address + i === 0x50 ? 1 : 0)) }),
  frameBase: async () => 0x8000, frameAddress: async () => 0x9000, addressOf: (index) => 0x4000 + index,
};

function expressionOf(bytes) {
  const elf = elfOf({ data: bytes }), { begin } = elf.section('data');
  return { elf, it: new Expression(elf, { at: begin, length: bytes.length }, CONTEXT) };
}
const numberOf = (bytes) => expressionOf(bytes).it.number();
const piecesOf = (bytes) => expressionOf(bytes).it.pieced();

// Operations, and the number that each comes to. Source: DWARF 5, section 2.5.
const NUMBERS = [
  ['an address', [0x03, ...word(0x12345678)], 0x12345678],
  ['literals, added', [0x30 + 17, 0x30 + 5, 0x22], 22],
  ['a byte with a sign', [0x09, 0xff], 0xffffffff],
  ['a half with a sign', [0x0b, 0x00, 0x80], 0xffff8000],
  ['a register with an offset', [0x70 + 2, 0x78], 0x2000 - 8],
  ['from the frame’s base', [0x91, 0x70], 0x8000 - 16],
  ['the frame’s address', [0x9c], 0x9000],
  ['an offset', [0x9c, 0x23, 0x80, 0x01], 0x9080],
  ['a word of memory', [0x03, ...word(0x20), 0x06], 0x23222120],
  ['a half of memory', [0x03, ...word(0x20), 0x94, 2], 0x2120],
  ['the second is over the first', [0x31, 0x32, 0x14, 0x22], 3],
  ['swapped, and one less the other', [0x31, 0x35, 0x16, 0x1c], 4],
  ['a signed division', [0x09, 0xf6, 0x33, 0x1b], 0xfffffffd],
  ['a shift by more bits than there are', [0x35, 0x08, 40, 0x24], 0],
  ['an arithmetic shift', [0x09, 0x80, 0x32, 0x26], 0xffffffe0],
  ['a signed comparison', [0x09, 0xff, 0x31, 0x2d], 1],
  ['an address of the unit’s table', [0xa1, 3], 0x4003],
];

test('an expression comes to the number that the standard says', async () => {
  for (const [label, bytes, value] of NUMBERS) assert.equal(await numberOf(bytes), value, label);
});

test('a place is memory, a register, a number or bytes of the file', async () => {
  const [memory] = await piecesOf([0x91, 0x70]), [register] = await piecesOf([0x50 + 10]), [number] = await piecesOf([0x37, 0x9f]);
  assert.deepEqual([memory.kind, memory.address], ['memory', 0x7ff0]);
  assert.deepEqual([register.kind, register.number], ['register', 10]);
  assert.deepEqual([number.kind, number.value], ['number', 7]);
  const [bytes] = await piecesOf([0x9e, 2, 0xaa, 0xbb]);
  assert.deepEqual([bytes.kind, bytes.size], ['bytes', 2]);
});

test('pieces make a value, and one that is nowhere is lost', async () => {
  const { elf, it } = expressionOf([0x50 + 3, 0x93, 4, 0x03, ...word(0x50), 0x93, 2, 0x93, 1]);
  const content = new Content(elf, await it.pieced(), { registers: REGISTERS, read: CONTEXT.read });
  const found = await content.bytes(0, 7);
  assert.deepEqual(found.map((one) => one.value), [0x00, 0x30, 0, 0, 0x50, 0x51, 0]);
  assert.deepEqual(found.map((one) => one.undef), [0, 0, 0, 0, 1, 0, 0]);
  assert.deepEqual(found.map((one) => Boolean(one.isLost)), [false, false, false, false, false, false, true]);
});

test('undefined bits of an address and of a register go over to the value', async () => {
  const [throughRegister] = await piecesOf([0x70 + 5, 0]), [plain] = await piecesOf([0x70 + 6, 0]);
  assert.deepEqual([throughRegister.isUndefined, plain.isUndefined], [true, false]);
  const { elf, it } = expressionOf([0x50 + 5]);
  const content = new Content(elf, await it.pieced(), { registers: REGISTERS, read: CONTEXT.read });
  assert.deepEqual((await content.bytes(0, 4)).map((one) => one.undef), [0, 0xff, 0, 0]);
});

test('what isn’t shown is Elsewhere', async () => {
  for (const [label, bytes] of [['the value at the call', [0xa3, 1, 0x5a, 0x9f]], ['an empty stack', [0x22]],
    ['a division by 0', [0x31, 0x30, 0x1b]],
    ['a register of floating point', [0x92, 40, 0]], ['a register and then an operation', [0x53, 0x31]], ['an unknown one', [0xff]]]) {
    await assert.rejects(piecesOf(bytes), Elsewhere, label);
  }
  await assert.rejects(piecesOf(Array(500).fill(0x96)), Elsewhere, 'an endless one');
});
