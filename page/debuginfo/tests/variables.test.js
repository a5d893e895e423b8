import assert from 'node:assert/strict';
import test from 'node:test';
import { Variables } from '../variables.js';
import { elfOf, example } from './files.js';

const SET_NAME = 0x101bc, PARSE = 0x1041c;
const TEXT = new TextEncoder().encode('gauge');

// Registers of which a0 is 0x80000000, and memory that has a text there.
const registers = Array.from({ length: 32 }, (_, i) => ({ value: i === 10 ? 0x80000000 : i, undef: i === 12 ? 0xffffffff : 0 }));
const read = async (address, length) => ({
  bytes: Array.from({ length }, (_, i) => TEXT[address + i - 0x80000000] ?? 0),
  undefined: Array.from({ length }, (_, i) => (address + i >= 0x80000100 ? null : 0)) });

test('the variables in scope have names, types, kinds and values', async () => {
  const rows = await new Variables(example('firmware/station.elf')).at(SET_NAME + 8, registers, read);
  assert.deepEqual(rows.map((it) => [it.kind, it.type, it.name]), [['parameter', 'struct station *', 'station'],
    ['parameter', 'const uint8_t *', 'value'], ['parameter', 'unsigned int', 'length'], ['local', 'char *', 'name']]);
  const [station, , length, name] = rows;
  assert.equal(station.text, '0x80000000');
  assert.deepEqual([length.text, length.undefined, station.undefined], ['12', true, false]);
  assert.equal(name.text, '<optimized out>');
});

test('a pointer to letters has its text', async () => {
  const rows = await new Variables(example('firmware/station.elf')).at(PARSE + 8, registers.with(12, registers[10]), read);
  assert.equal(rows.find((it) => it.name === 'unit').text, '0x80000000 "gauge"');
});

test('variables of a file are there at each of its instructions', async () => {
  const rows = await new Variables(example('firmware/station.elf')).globals(SET_NAME, registers, read);
  assert.deepEqual(rows.map((it) => [it.name, it.type]), [['records', 'uint8_t [256]']]);
});

test('a file without debugging information has none', async () => {
  const all = new Variables(elfOf({ data: [] }));
  assert.equal(all.are, false);
  assert.deepEqual(await all.at(SET_NAME, registers, read), []);
});
