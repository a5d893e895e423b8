// What the program's looks at a step say: registers, memory, calls.
const NO_ACCESS = '__';

export function parseRegisters(text) {
  const [state, ...rows] = text.trimEnd().split('\n');
  const [, how, pc] = /^state (\w+) ?(0x[0-9a-f]{8})?/.exec(state) ?? [];
  const pairs = rows.map((row) => row.split(' ').slice(1).map(Number));
  return { runs: how === 'running', pc: pc && how === 'running' ? Number(pc) : null, state: state.replace('state ', ''),
    registers: [[0, 0], ...pairs].map(([value, undef]) => ({ value, undef })) };
}

// Bytes, and of each its undefined bits, null where there is no memory.
export function parseMemory(text) {
  const [bytes, undefs] = text.trimEnd().split('\n').map((row) => row.split(' ')[1].match(/../g));
  return bytes.map((it, i) => ({ value: parseInt(it, 16), undef: undefs[i] === NO_ACCESS ? null : parseInt(undefs[i], 16) }));
}

// The bytes of an output.
export const bytesIn = (text) => (text.trimEnd().split(' ')[1]?.match(/../g) ?? []).map((it) => parseInt(it, 16));

// The address of the next instruction, and those of the calls, newest first.
export const parseStack = (text) => text.trimEnd().split(' ').slice(1).map(Number);
