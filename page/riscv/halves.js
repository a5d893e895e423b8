// Instructions of 16 bits as text, in the words of an assembler (RISC-V Unprivileged ISA 20191213, sections 16.3 to 16.8). Those for
// which no word of RV32IM stands have none: loads and stores of floating point, and what is reserved.
import { hexadecimal, hexWord } from '../common/numbers.js';
import { HALF_IMMEDIATES, HALF_OPERATIONS, REGISTERS } from '../facts.js';

// The bits of an immediate: each its place in the half, and the place that it has in the number. The first one may be the sign.
const { SPACE, OF_WORD, JUMP, BRANCH, SIX, FRAME, FROM_STACK, TO_STACK } = HALF_IMMEDIATES;
const SP = 2;

const field = (half, high, low) => half >>> low & (1 << (high + 1 - low)) - 1;
const number = (half, bits) => bits.reduce((sum, [place, to]) => sum | (half >>> place & 1) << to, 0);

function signed(half, bits) {
  const value = number(half, bits), top = bits[0][1];
  return value >>> top ? value - (2 << top) : value;
}

const rd = (half) => REGISTERS[field(half, 11, 7)];
const rs2 = (half) => REGISTERS[field(half, 6, 2)];
const shortRs1 = (half) => REGISTERS[8 + field(half, 9, 7)];
const shortRs2 = (half) => REGISTERS[8 + field(half, 4, 2)];
const target = (half, bits, address) => hexWord((address + signed(half, bits)) >>> 0);
const access = (name, half) => `${name} ${shortRs2(half)},${number(half, OF_WORD)}(${shortRs1(half)})`;

const QUADRANT_0 = {
  0: (half) => (number(half, SPACE) ? `c.addi4spn ${shortRs2(half)},sp,${number(half, SPACE)}` : null),
  2: (half) => access('c.lw', half),
  6: (half) => access('c.sw', half),
};

function added(half) {
  const value = signed(half, SIX);
  if (field(half, 11, 7)) return `c.addi ${rd(half)},${value}`;
  return value ? `c.nop ${value}` : 'c.nop';
}

function upper(half) {
  if (!number(half, SIX)) return null;
  if (field(half, 11, 7) === SP) return `c.addi16sp sp,${signed(half, FRAME)}`;
  return `c.lui ${rd(half)},${hexadecimal(signed(half, SIX) & 0xfffff)}`;
}

// By 32 or more a shift isn't one of RV32C.
const shifted = (name, register, half) => (field(half, 12, 12) ? null : `${name} ${register},${field(half, 6, 2)}`);

function computed(half) {
  const kind = field(half, 11, 10);
  if (kind < 2) return shifted(kind ? 'c.srai' : 'c.srli', shortRs1(half), half);
  if (kind === 2) return `c.andi ${shortRs1(half)},${signed(half, SIX)}`;
  return field(half, 12, 12) ? null : `c.${HALF_OPERATIONS[field(half, 6, 5)]} ${shortRs1(half)},${shortRs2(half)}`;
}

const QUADRANT_1 = {
  0: added,
  1: (half, address) => `c.jal ${target(half, JUMP, address)}`,
  2: (half) => `c.li ${rd(half)},${signed(half, SIX)}`,
  3: upper,
  4: computed,
  5: (half, address) => `c.j ${target(half, JUMP, address)}`,
  6: (half, address) => `c.beqz ${shortRs1(half)},${target(half, BRANCH, address)}`,
  7: (half, address) => `c.bnez ${shortRs1(half)},${target(half, BRANCH, address)}`,
};

function ofRegisters(half) {
  const [links, first, second] = [field(half, 12, 12), field(half, 11, 7), field(half, 6, 2)];
  if (second) return `${links ? 'c.add' : 'c.mv'} ${rd(half)},${rs2(half)}`;
  if (first) return `${links ? 'c.jalr' : 'c.jr'} ${rd(half)}`;
  return links ? 'c.ebreak' : null;
}

const QUADRANT_2 = {
  0: (half) => shifted('c.slli', rd(half), half),
  2: (half) => (field(half, 11, 7) ? `c.lwsp ${rd(half)},${number(half, FROM_STACK)}(sp)` : null),
  4: ofRegisters,
  6: (half) => `c.swsp ${rs2(half)},${number(half, TO_STACK)}(sp)`,
};

// The text of an instruction that stands at an address, null where the half is none.
export function disassembledHalf(half, address) {
  return [QUADRANT_0, QUADRANT_1, QUADRANT_2][half & 3]?.[field(half, 15, 13)]?.(half, address) ?? null;
}
