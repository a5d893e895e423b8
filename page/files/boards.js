// What stands between a board's file and a checked run, as far as the page can see it: an instruction set, a region of heap or stack,
// devices, calls of a host. `replaycheck adopt` looks at all of the file, and the page names the command.
import { hexWord } from '../common/numbers.js';
import { hasRoom } from '../debuginfo/elf.js';
import { stateOf } from '../engine/report.js';
import { USUAL_TARGET, heapOf, isSameTarget, meets, regionsInWords, stackText, typedOptions } from '../engine/targets.js';
import { FLOATING, HEAPS, ISAS, MOST_STACK, OPCODES, STACK_ENDS, WHOLE_WORDS } from '../facts.js';
import { hasAtomics, hasControls, hasHalves, nameOf } from '../riscv/isa.js';
import { KNOWN_DEVICES, deviceAt } from './polled.js';

const COMPRESSED = 1;  // of a file's flags
const PLAIN = /^[\w+.][\w+.-]*$/;
const RETURNS = [WHOLE_WORDS.mret, WHOLE_WORDS.sret];

// A file's name as a shell takes it.
export const typed = (name) => (PLAIN.test(name) ? name : `'${name.replaceAll("'", "'\\''")}'`.replace(/^'-/, "'./-"));

const needing = (has, isa) => (has(isa) ? [] : ISAS.filter(has));
const adopted = (name, ...more) => ['replaycheck adopt', typed(name), ...more].join(' ');

// What an instruction at which a run stopped is, the sets that have it, and what else cures it.
function unknown(elf, address, isa) {
  const half = elf.loaded(address, 2), word = elf.loaded(address), low = word & 0x7f;
  const rebuild = `Compile it with -march=${ISAS[0]} -mabi=ilp32.`;
  if (half === null) return null;
  if ((half & 3) !== 3) return { what: 'an instruction of 16 bits', sets: needing(hasHalves, isa), else: rebuild };
  if (low === OPCODES.atomic) return { what: 'an atomic instruction', sets: needing(hasAtomics, isa), else: rebuild };
  if (RETURNS.includes(word >>> 0)) return { what: 'a return from a trap', sets: [], isCured: true };
  if (low === OPCODES.system || low === OPCODES.fence) {
    return { what: 'an instruction for control registers', sets: needing(hasControls, isa), isCured: true };
  }
  if (FLOATING.includes(low)) return { what: 'an instruction for floating point', sets: [], else: rebuild };
  return { what: 'a word that is no instruction', sets: [], else: rebuild };
}

function ofIllegal(elf, target, name, address) {
  const { isa } = target, it = unknown(elf, address, isa);
  if (!it) return null;
  const stops = `The run stops at ${hexWord(address)}, at ${it.what}, which ${nameOf(isa)} doesn’t have.`;
  const cure = it.isCured ? 'This command writes a file in which it is replaced:' : it.else;
  return { text: [stops, it.sets.length ? 'Run it for another instruction set:' : cure].join(' '), sets: it.sets,
    command: adopted(name, ...typedOptions(target), ...(it.isCured ? ['-o adopted.elf'] : [])) };
}

// The device at whose address an error is, if there is one.
function deviceOf(report) {
  return report.groups.map(deviceAt).find(Boolean) ?? null;
}

// What to say of a file whose run ended or stood as a report says, null if nothing is to be said: a sentence, the instruction sets
// that are offered, and a command. `input` is the name of the file with the input, if there is one.
export function boardAdvice({ elf, target, name, input }, report) {
  const { isa } = target, options = typedOptions(target);
  const { name: state, rest, address } = stateOf(report), stop = state === 'stopped' ? rest.split(' ')[0] : '';
  if (elf.flags & COMPRESSED && !hasHalves(isa)) {
    return { text: `This file has instructions of 16 bits, which ${nameOf(isa)} doesn’t have. Run it for another instruction set:`,
      sets: needing(hasHalves, isa), command: adopted(name, ...options) };
  }
  if (stop === 'illegal') return ofIllegal(elf, target, name, address);
  if (stop === 'break') {
    return { text: `The run stops at an EBREAK, at ${hexWord(address)}. If it calls a host by semihosting, this command writes a file `
      + 'whose calls are answered:', sets: [], command: adopted(name, ...options, '-o adopted.elf') };
  }
  const device = deviceOf(report);
  if (!device) return null;
  return { text: `The run has an error at ${hexWord(device.address)}, where a board has a device (${device.name}). This command writes a `
    + 'file whose loads and stores of known devices are answered:', sets: [],
      command: adopted(name, ...options, `--devices ${input ? typed(input) : 'INPUT'}`, '-o adopted.elf') };
}

// ---- regions

// Where heap and stack can be so that no segment of a file is there, as near as can be to where a target has them, as `adopt` finds it;
// null if there is no such place.
export function fitting(elf, target) {
  const loads = elf.segments.filter((it) => it.size), rangeOf = (it) => [it.address, it.address + it.size];
  const taken = [...loads.map(rangeOf), ...elf.segments.filter((it) => it.inFile).map((it) => [it.physical, it.physical + it.inFile]),
    ...KNOWN_DEVICES.map(({ begin, end }) => [begin, end])];
  const isFree = (range, others) => !others.some((it) => meets(range, it));
  const isUsual = stackText(target.stack) === stackText(USUAL_TARGET.stack);
  const isStackMet = loads.some((it) => meets(rangeOf(it), target.stack) && (isUsual || !hasRoom(it, target.stack)));
  const isHeapMet = loads.some((it) => meets(rangeOf(it), heapOf(target)));
  const stackTo = (end) => [end - MOST_STACK, end], end = STACK_ENDS.find((it) => isFree(stackTo(it), taken));
  const stack = !isStackMet ? target.stack : end === undefined ? null : stackTo(end);
  if (!stack) return null;
  const heaps = [...(isHeapMet ? [] : [target.heap]), ...HEAPS.filter((heap) => isFree(heapOf({ heap }), taken))];
  const heap = heaps.find((it) => !meets(heapOf({ heap: it }), stack));
  return heap === undefined ? null : { ...target, heap, stack };
}

// What to say of a file that meets the region of the heap or of the stack: where these are, the target that has them elsewhere with what
// it changes in words, null if there is none, and what a command says.
export function regionAdvice(elf, name, target) {
  const sorted = elf.segments.filter((it) => it.size).sort((a, b) => a.address - b.address);
  const overlap = sorted.some((it, at) => at > 0 && sorted[at - 1].address + sorted[at - 1].size > it.address);
  const other = overlap ? null : fitting(elf, target), text = regionsInWords(target);
  if (!other || isSameTarget(other, target)) return { text, target: null, more: `\`${adopted(name)}\` says which segments these are.` };
  const heap = other.heap !== target.heap && `the heap at ${hexWord(other.heap)}`;
  const stack = other.stack !== target.stack && `the stack at ${stackText(other.stack)}`;
  const command = ['replaycheck run', typed(name), ...typedOptions(other)].join(' ');
  return { text, target: other, label: `Put ${[heap, stack].filter(Boolean).join(' and ')}`,
    more: `A command does the same: \`${command}\`. \`${adopted(name)}\` says whether the start file has a stack of its own.` };
}
