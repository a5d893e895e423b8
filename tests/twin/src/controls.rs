//! Control registers (RISC-V Unprivileged ISA 20191213, chapters 9 and 10; Privileged Architecture 20190608, section 2.1 and table 2.2).
//! They are words with undefined bits, 0 at first, which only instructions change. Counters have the number of steps before this one.

use crate::machine::{Bits, Machine, and, field, known, or};

/// mcycle, minstret, cycle, time and instret.
const COUNTERS: [u32; 5] = [0xB00, 0xB02, 0xC00, 0xC01, 0xC02];
/// What is between the number of a counter and that of its upper half.
const UPPER: u32 = 0x80;

/// The registers that a look shows, in order of their numbers (Privileged Architecture 20190608, tables 2.2, 2.4 and 2.5).
pub const NAMED: [(u32, &str); 24] = [
    (0x300, "mstatus"),
    (0x301, "misa"),
    (0x304, "mie"),
    (0x305, "mtvec"),
    (0x306, "mcounteren"),
    (0x340, "mscratch"),
    (0x341, "mepc"),
    (0x342, "mcause"),
    (0x343, "mtval"),
    (0x344, "mip"),
    (0xB00, "mcycle"),
    (0xB02, "minstret"),
    (0xB80, "mcycleh"),
    (0xB82, "minstreth"),
    (0xC00, "cycle"),
    (0xC01, "time"),
    (0xC02, "instret"),
    (0xC80, "cycleh"),
    (0xC81, "timeh"),
    (0xC82, "instreth"),
    (0xF11, "mvendorid"),
    (0xF12, "marchid"),
    (0xF13, "mimpid"),
    (0xF14, "mhartid"),
];

/// How an instruction changes a control register.
enum How {
    Write,
    Set,
    Clear,
}

fn counter(number: u32) -> bool {
    COUNTERS.contains(&(number & !UPPER))
}

/// Whether it can only be read.
fn is_constant(number: u32) -> bool {
    number >> 10 == 3
}

fn complement(x: Bits) -> Bits {
    Bits { value: !x.value, undef: x.undef }
}

impl Machine {
    /// What a control register has.
    pub fn control(&self, number: u32) -> Bits {
        match counter(number) {
            true if number & UPPER == 0 => known(self.steps as u32),
            true => known((self.steps >> 32) as u32),
            false => self.controls.get(&number).copied().unwrap_or(known(0)),
        }
    }

    /// CSRRW, CSRRS, CSRRC, and the same with an immediate. Answers whether there is such an instruction. CSRRS and CSRRC write nothing
    /// where their register is x0, or their immediate 0.
    pub fn execute_control(&mut self, word: u32) -> bool {
        let (number, funct3, rs1) = (field(word, 31, 20), field(word, 14, 12), field(word, 19, 15));
        let how = match funct3 {
            1 | 5 => How::Write,
            2 | 6 => How::Set,
            3 | 7 => How::Clear,
            _ => return false,
        };
        let writes = matches!(how, How::Write) || rs1 != 0;
        if writes && is_constant(number) {
            return false;
        }
        let operand = if funct3 & 4 != 0 { known(rs1) } else { self.register(rs1) };
        let old = self.control(number);
        let new = match how {
            How::Write => operand,
            How::Set => or(old, operand),
            How::Clear => and(old, complement(operand)),
        };
        if writes && !counter(number) {
            self.controls.insert(number, new);
        }
        self.set(field(word, 11, 7), old);
        true
    }
}
