// Whether errors of the heap can be found in a program's run. The program knows a heap by the names of its functions, or by
// the numbers of its environment calls; a file without symbols, or with other names, may have a heap that goes unseen.
import { hexWord } from '../common/numbers.js';
import { Helper } from '../engine/sessions.js';
import { BEFORE_BLOCKS, HEAP_CHOICES, HEAP_NAMES, OTHER_HEAPS, WHOLE_WORDS } from '../facts.js';
import { unitOf } from '../riscv/isa.js';

const MOST_NAMED = 4;

// What of a file's heap may go unseen under an instruction set, in words; empty where nothing does.
export function unseenIn(elf, isa) {
  if (HEAP_NAMES.some((it) => elf.functionNames.has(it))) return '';
  if ([[WHOLE_WORDS.ecall], HEAP_CHOICES].every((words) => elf.hasWord(words, unitOf(isa)))) return '';
  if (!elf.functionNames.size && !elf.labelNames.size) {
    return 'The file has no symbols, and a heap is known by the names of its functions. Strip it with --strip-debug only.';
  }
  const others = OTHER_HEAPS.filter((it) => elf.functionNames.has(it));
  others.push(...HEAP_NAMES.filter((it) => elf.labelNames.has(it)).map((it) => `${it} (a label, not typed as a function)`));
  if (!others.length) return '';
  const names = others.slice(0, MOST_NAMED).join(', ') + (others.length > MOST_NAMED ? ', ..' : '');
  return `The file has no function malloc, free, calloc or realloc, but ${names}. \`replaycheck adopt FILE -o OUT\` maps such names.`;
}

// The same of a run up to a step: one that makes a block has a heap that is seen.
export async function unseenHeap({ module, files, target, elf, limit, makeWorker }, step) {
  const unseen = unseenIn(elf, target.isa);
  if (!unseen) return '';
  const helper = new Helper(makeWorker);
  try {
    const lines = [`look next shadow ${hexWord(target.heap + BEFORE_BLOCKS)} 1 ${step}`];
    const { told } = await helper.ask('look', { module, files, target, limit, lines });
    return told.startsWith('step ') ? '' : `Errors of the heap can’t be found. ${unseen}`;
  } finally {
    helper.stop();
  }
}
