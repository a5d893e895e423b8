//! 16-bit instructions: the word of the 32-bit instruction that each stands for (RISC-V Unprivileged ISA 20191213, chapter 16).

const LOAD: u32 = 0x03;
const IMMEDIATE: u32 = 0x13;
const STORE: u32 = 0x23;
const REGISTERS: u32 = 0x33;
const LUI: u32 = 0x37;
const BRANCH: u32 = 0x63;
const JALR: u32 = 0x67;
const JAL: u32 = 0x6F;
const EBREAK: u32 = 0x0010_0073;

/// The funct3 of loads and stores of words, and of operations.
const OF_WORD: u32 = 2;
const ADD: u32 = 0;
const LEFT: u32 = 1;
const XOR: u32 = 4;
const RIGHT: u32 = 5;
const OR: u32 = 6;
const AND: u32 = 7;
/// What makes a right shift arithmetic, and a sum a difference.
const ALTERNATE: u32 = 1 << 30;

const RA: u32 = 1;
const SP: u32 = 2;

fn i_word(opcode: u32, funct3: u32, rd: u32, rs1: u32, imm: u32) -> u32 {
    imm << 20 | rs1 << 15 | funct3 << 12 | rd << 7 | opcode
}

fn r_word(funct3: u32, rd: u32, rs1: u32, rs2: u32) -> u32 {
    rs2 << 20 | rs1 << 15 | funct3 << 12 | rd << 7 | REGISTERS
}

fn s_word(rs1: u32, rs2: u32, imm: u32) -> u32 {
    imm >> 5 << 25 | rs2 << 20 | rs1 << 15 | OF_WORD << 12 | (imm & 31) << 7 | STORE
}

fn b_word(funct3: u32, rs1: u32, imm: u32) -> u32 {
    let high = (imm >> 12 & 1) << 31 | (imm >> 5 & 0x3F) << 25;
    high | rs1 << 15 | funct3 << 12 | (imm >> 1 & 0xF) << 8 | (imm >> 11 & 1) << 7 | BRANCH
}

fn j_word(rd: u32, imm: u32) -> u32 {
    let high = (imm >> 20 & 1) << 31 | (imm >> 1 & 0x3FF) << 21 | (imm >> 11 & 1) << 20;
    high | (imm >> 12 & 0xFF) << 12 | rd << 7 | JAL
}

/// A half that is read bit by bit.
struct Half(u32);

impl Half {
    /// Moves bits: each pair is a bit of the half, and the bit of the result that it becomes.
    fn moved(&self, pairs: &[(u32, u32)]) -> u32 {
        pairs.iter().map(|(from, to)| (self.0 >> from & 1) << to).sum()
    }

    /// A number with this width in bits, of which the highest is the half's bit 12, with its sign repeated.
    fn signed(&self, bits: u32, low: u32) -> u32 {
        let number = low | (self.0 >> 12 & 1) << (bits - 1);
        ((number << (32 - bits)).cast_signed() >> (32 - bits)).cast_unsigned()
    }

    /// The register of bits 11 to 7, and that of bits 6 to 2.
    fn first(&self) -> u32 {
        self.0 >> 7 & 31
    }

    fn second(&self) -> u32 {
        self.0 >> 2 & 31
    }

    /// The registers that three bits name: of bits 9 to 7, and of bits 4 to 2.
    fn small_first(&self) -> u32 {
        8 + (self.0 >> 7 & 7)
    }

    fn small_second(&self) -> u32 {
        8 + (self.0 >> 2 & 7)
    }

    /// Six bits with a sign, as C.LI has them.
    fn six(&self) -> u32 {
        self.signed(6, self.second())
    }

    /// The amount of a shift, unless it is 32 or more.
    fn amount(&self) -> Option<u32> {
        (self.0 >> 12 & 1 == 0).then_some(self.second())
    }

    fn offset_of_word(&self) -> u32 {
        self.moved(&[(5, 6), (12, 5), (11, 4), (10, 3), (6, 2)])
    }

    fn jump_distance(&self) -> u32 {
        let low = [(8, 10), (10, 9), (9, 8), (6, 7), (7, 6), (2, 5), (11, 4), (5, 3), (4, 2), (3, 1)];
        self.signed(12, self.moved(&low))
    }

    fn branch_distance(&self) -> u32 {
        self.signed(9, self.moved(&[(6, 7), (5, 6), (2, 5), (11, 4), (10, 3), (4, 2), (3, 1)]))
    }

    fn quadrant_0(&self, funct3: u32) -> Option<u32> {
        let (rd, rs1) = (self.small_second(), self.small_first());
        match funct3 {
            0 => {
                let imm = self.moved(&[(12, 5), (11, 4), (10, 9), (9, 8), (8, 7), (7, 6), (6, 2), (5, 3)]);
                (imm != 0).then(|| i_word(IMMEDIATE, ADD, rd, SP, imm))
            }
            2 => Some(i_word(LOAD, OF_WORD, rd, rs1, self.offset_of_word())),
            6 => Some(s_word(rs1, rd, self.offset_of_word())),
            _ => None,
        }
    }

    fn quadrant_1(&self, funct3: u32) -> Option<u32> {
        let rd = self.first();
        match funct3 {
            0 => Some(i_word(IMMEDIATE, ADD, rd, rd, self.six())),
            1 => Some(j_word(RA, self.jump_distance())),
            2 => Some(i_word(IMMEDIATE, ADD, rd, 0, self.six())),
            3 if rd == SP => {
                let imm = self.signed(10, self.moved(&[(6, 4), (5, 6), (4, 8), (3, 7), (2, 5)]));
                (imm != 0).then(|| i_word(IMMEDIATE, ADD, SP, SP, imm))
            }
            3 => (self.six() != 0).then(|| self.six() << 12 | rd << 7 | LUI),
            4 => self.operation(),
            5 => Some(j_word(0, self.jump_distance())),
            6 => Some(b_word(0, self.small_first(), self.branch_distance())),
            _ => Some(b_word(1, self.small_first(), self.branch_distance())),
        }
    }

    /// Funct3 100 of quadrant 1.
    fn operation(&self) -> Option<u32> {
        let (rd, rs2) = (self.small_first(), self.small_second());
        match (self.0 >> 10 & 3, self.0 >> 12 & 1, self.0 >> 5 & 3) {
            (0, _, _) => Some(i_word(IMMEDIATE, RIGHT, rd, rd, self.amount()?)),
            (1, _, _) => Some(i_word(IMMEDIATE, RIGHT, rd, rd, self.amount()?) | ALTERNATE),
            (2, _, _) => Some(i_word(IMMEDIATE, AND, rd, rd, self.six())),
            (_, 0, 0) => Some(r_word(ADD, rd, rd, rs2) | ALTERNATE),
            (_, 0, 1) => Some(r_word(XOR, rd, rd, rs2)),
            (_, 0, 2) => Some(r_word(OR, rd, rd, rs2)),
            (_, 0, _) => Some(r_word(AND, rd, rd, rs2)),
            _ => None,
        }
    }

    fn quadrant_2(&self, funct3: u32) -> Option<u32> {
        let (rd, rs2) = (self.first(), self.second());
        match funct3 {
            0 => Some(i_word(IMMEDIATE, LEFT, rd, rd, self.amount()?)),
            2 if rd != 0 => {
                let offset = self.moved(&[(12, 5), (6, 4), (5, 3), (4, 2), (3, 7), (2, 6)]);
                Some(i_word(LOAD, OF_WORD, rd, SP, offset))
            }
            4 => match (self.0 >> 12 & 1, rd, rs2) {
                (0, 0, 0) => None,
                (0, _, 0) => Some(i_word(JALR, 0, 0, rd, 0)),
                (0, _, _) => Some(r_word(ADD, rd, 0, rs2)),
                (_, 0, 0) => Some(EBREAK),
                (_, _, 0) => Some(i_word(JALR, 0, RA, rd, 0)),
                _ => Some(r_word(ADD, rd, rd, rs2)),
            },
            6 => Some(s_word(SP, rs2, self.moved(&[(12, 5), (11, 4), (10, 3), (9, 2), (8, 7), (7, 6)]))),
            _ => None,
        }
    }
}

/// Whether a half is the first of a longer instruction.
pub fn is_long(half: u32) -> bool {
    half & 3 == 3
}

/// The word of the instruction that a half stands for; `None` if it is reserved, illegal or not in RV32C.
pub fn expand(half: u32) -> Option<u32> {
    let (half, funct3) = (Half(half), half >> 13 & 7);
    match half.0 & 3 {
        0 => half.quadrant_0(funct3),
        1 => half.quadrant_1(funct3),
        2 => half.quadrant_2(funct3),
        _ => None,
    }
}
