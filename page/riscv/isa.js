// Instruction sets, and how long instructions are. Source: RISC-V Unprivileged ISA 20191213, section 1.5.
import { ISAS, NO_OPS } from '../facts.js';

export const USUAL = ISAS[0];
export const ATOMIC = ISAS[2];
// Bytes of an instruction.
export const HALF = 2;
export const WORD = 4;
// The instruction that does nothing, by its length: c.nop and nop.
export const NOTHING = NO_OPS;

export const hasHalves = (isa) => isa !== USUAL;
export const hasControls = (isa) => isa !== USUAL;
export const hasAtomics = (isa) => isa === ATOMIC;
// Each instruction is at a multiple of it.
export const unitOf = (isa) => (hasHalves(isa) ? HALF : WORD);
export const lengthOf = (isa, half) => (hasHalves(isa) && (half & 3) !== 3 ? HALF : WORD);
// What a set is called in sentences.
export const nameOf = (isa) => isa.toUpperCase();
