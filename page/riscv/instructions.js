// Instructions of RV32IM, RV32A, Zicsr and Zifencei, and WFI, as text, in the words of an assembler.
import { hexadecimal, hexWord } from '../common/numbers.js';
import { CONTROL_REGISTERS, FIRST_CONSTANT, INSTRUCTIONS, OPCODES, ORDERS, REGISTERS, WHOLE_WORDS } from '../facts.js';
import { NOTHING, WORD, hasAtomics, hasControls } from './isa.js';

// The name of an instruction whose operands have a form, by bits 14 to 12 and what is fixed above them; undefined if there is none.
const nameOf = (form, kind, high = 0) => INSTRUCTIONS[form][high << 3 | kind];

const place = (address) => hexWord(address >>> 0);
const signed = (number, bits) => (number << (32 - bits)) >> (32 - bits);

function shift(word, rd, rs1) {
  const name = nameOf('shift', word >>> 12 & 7, word >>> 25);
  return name && `${name} ${rd},${rs1},${word >>> 20 & 31}`;
}

function between(word, rd, rs1, rs2) {
  const name = nameOf('registers', word >>> 12 & 7, word >>> 25);
  return name && `${name} ${rd},${rs1},${rs2}`;
}

function immediate(word, rd, rs1) {
  const kind = word >>> 12 & 7, value = word >> 20;
  if (word === NOTHING[WORD]) return 'nop';
  const name = nameOf('immediate', kind);
  if (!name) return shift(word, rd, rs1);
  if (name === 'addi' && rs1 === 'zero') return `li ${rd},${value}`;
  if (name === 'addi' && value === 0) return `mv ${rd},${rs1}`;
  return `${name} ${rd},${rs1},${value}`;
}

function branch(word, rs1, rs2, address) {
  const name = nameOf('branch', word >>> 12 & 7);
  const distance = signed(word >>> 31 << 12 | (word >>> 7 & 1) << 11 | (word >>> 25 & 63) << 5 | (word >>> 8 & 15) << 1, 13);
  return name && `${name} ${rs1},${rs2},${place(address + distance)}`;
}

function jump(word, rd, address) {
  const high = word >>> 31 << 20 | (word >>> 12 & 255) << 12;
  const distance = signed(high | (word >>> 20 & 1) << 11 | (word >>> 21 & 1023) << 1, 21);
  const target = place(address + distance);
  return { zero: `j ${target}`, ra: `jal ${target}` }[rd] ?? `jal ${rd},${target}`;
}

function jumpBy(word, rd, rs1) {
  const name = nameOf('jump by', word >>> 12 & 7);
  if (!name) return null;
  return rd === 'zero' && rs1 === 'ra' && word >> 20 === 0 ? 'ret' : `${name} ${rd},${word >> 20}(${rs1})`;
}

function atomic(word, rd, rs1, rs2) {
  const [kind, high, order] = [word >>> 12 & 7, word >>> 27, ORDERS[word >>> 25 & 3]];
  const reserve = nameOf('reserve', kind, high), name = nameOf('update', kind, high);
  if (reserve) return rs2 === 'zero' ? `${reserve}${order} ${rd},(${rs1})` : null;
  return name ? `${name}${order} ${rd},${rs2},(${rs1})` : null;
}

// An instruction of a control register, written, or its bits set or cleared, by a register or by an immediate.
function control(word, rd, rs1) {
  const kind = word >>> 12 & 7, number = word >>> 20, immediate = nameOf('control immediate', kind);
  const name = immediate ?? nameOf('control', kind), operand = immediate ? word >>> 15 & 31 : rs1;
  const writes = name?.startsWith('csrrw') || (word >>> 15 & 31) !== 0;
  if (!name || (writes && number >= FIRST_CONSTANT)) return null;
  const register = CONTROL_REGISTERS[number] ?? hexadecimal(number);
  if (name === 'csrrs' && !writes) return `csrr ${rd},${register}`;
  return rd === 'zero' ? `${name.replace('csrr', 'csr')} ${register},${operand}` : `${name} ${rd},${register},${operand}`;
}

function system(word, rd, rs1, isa) {
  const plain = { [WHOLE_WORDS.ecall]: 'ecall', [WHOLE_WORDS.ebreak]: 'ebreak' }[word];
  if (plain || !hasControls(isa)) return plain ?? null;
  return word === WHOLE_WORDS.wfi ? 'wfi' : control(word, rd, rs1);
}

function fence(kind, isa) {
  const name = nameOf('fence', kind);
  return name && (name === 'fence' || hasControls(isa)) ? name : null;
}

const load = (name, word, rd, rs1) => (name ? `${name} ${rd},${word >> 20}(${rs1})` : null);
const store = (name, word, rs1, rs2) => (name ? `${name} ${rs2},${signed((word >>> 25) << 5 | (word >>> 7 & 31), 12)}(${rs1})` : null);

// The text of an instruction that stands at an address, null where the word of 32 bits is none of a set.
export function disassembled(word, address, isa) {
  const [rd, rs1, rs2] = [7, 15, 20].map((at) => REGISTERS[word >>> at & 31]);
  const kind = word >>> 12 & 7;
  switch (word & 127) {
    case OPCODES.load: return load(nameOf('load', kind), word, rd, rs1);
    case OPCODES.store: return store(nameOf('store', kind), word, rs1, rs2);
    case OPCODES.immediate: return immediate(word, rd, rs1) ?? null;
    case OPCODES.registers: return between(word, rd, rs1, rs2) ?? null;
    case OPCODES.lui: return `lui ${rd},${hexadecimal(word >>> 12)}`;
    case OPCODES.auipc: return `auipc ${rd},${hexadecimal(word >>> 12)}`;
    case OPCODES.branch: return branch(word, rs1, rs2, address) ?? null;
    case OPCODES.jump: return jump(word, rd, address);
    case OPCODES['jump by']: return jumpBy(word, rd, rs1);
    case OPCODES.fence: return fence(kind, isa);
    case OPCODES.atomic: return hasAtomics(isa) ? atomic(word, rd, rs1, rs2) : null;
    case OPCODES.system: return system(word, rd, rs1, isa);
    default: return null;
  }
}

// The address that an instruction names, null where it names none.
export function targetOf(text) {
  const found = /^(?:c\.)?(?:j |jal |b.*,)(?:\w+,)?(0x[0-9a-f]{8})$/.exec(text ?? '');
  return found && Number(found[1]);
}
