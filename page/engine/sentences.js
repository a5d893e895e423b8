// Plain sentences for what goes wrong, each with what to do.
import { listed, size } from '../common/numbers.js';
import { ISAS, REFUSALS } from '../facts.js';
import { NoEdit } from './scenario.js';
import { Ended, Refused, Stopped, TooManyLines } from './sessions.js';

const FOR_THE_PROCESSOR = `Compile and link it with -mabi=ilp32 and ${listed(ISAS.map((it) => `-march=${it}`), 'or')}.`;
const ADVICE = {
  13: 'The manual has their form, in the section on suppressions.',
  14: 'Take a shorter input, or cut it in a file.',
  20: 'Take the .elf file that the linker writes; a .bin or .hex file has no addresses and no names.',
  21: FOR_THE_PROCESSOR, 22: FOR_THE_PROCESSOR, 25: FOR_THE_PROCESSOR,
  24: 'Link it to fixed addresses: -static -no-pie.',
  27: 'Link it without a dynamic linker: -static.',
  29: '',  // where they are, the page knows
  30: 'Reserve a smaller heap and stack in the linker script, which is often what is so large.',
};
const DAMAGED = 'The file is damaged, or a tool has rewritten it: link it anew.';
const WHAT = { image: 'The program', input: 'The input', suppressions: 'The suppressions' };
const NO_MEMORY = 'Take a shorter run or fewer edits, or close other pages.';

const NEEDS = 'This page needs WebAssembly with 64-bit memory, which this browser lacks: take a current Chromium.';
const NO_MODULE = 'The program’s module could not be loaded from beside the page. Load the page again, or take the page of one file.';

// What to say where the program's module can't be had.
export function notLoaded(fault) {
  return `${fault instanceof WebAssembly.CompileError ? NEEDS : NO_MODULE} (${fault.message})`;
}

function refusedFile(said) {
  const found = /^replaycheck: (image|input|suppressions) refused (\d+)(?: at line (\d+))?/.exec(said);
  if (!found) return said.trim();
  const number = Number(found[2]), line = found[3] ? ` (line ${found[3]})` : '';
  return `${WHAT[found[1]]} can’t be used: ${REFUSALS[number]}${line}. ${ADVICE[number] ?? DAMAGED}`.trimEnd();
}

// Whether a program was rejected because it meets the region of the heap or of the stack, or has segments that overlap.
export const meetsRegion = (fault) => fault instanceof Ended && (fault.said ?? '').startsWith('replaycheck: image refused 29');

// What to say of a fault.
export function sentence(fault, limit) {
  if (fault instanceof NoEdit) {
    return `“${fault.message}” doesn’t edit a run: ${fault.form ? `the form of such a line is “${fault.form}”` : REFUSALS[2]}.`;
  }
  if (fault instanceof Stopped) return 'Stopped.';
  if (fault instanceof TooManyLines) return 'These are more edits than a session takes. Change the input’s file instead.';
  const memory = `this page takes ${size(limit)} at most. ${NO_MEMORY}`;
  if (fault instanceof Refused && fault.number === 1) return `Memory ran out at “${fault.line}”; ${memory}`;
  if (fault instanceof Refused) return `“${fault.line}” was refused: ${REFUSALS[fault.number]}.`;
  if (fault instanceof Ended && fault.status === 4) return `Memory ran out; ${memory}`;
  if (fault instanceof Ended && fault.said) return refusedFile(fault.said);
  return `That failed in the browser (${fault.message}). The next edit begins anew.`;
}
