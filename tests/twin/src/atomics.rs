//! Atomic instructions (RISC-V Unprivileged ISA 20191213, chapter 8). With one hart each is a load, a store or both, in one step.

use crate::errors::Kind;
use crate::looks::Access;
use crate::machine::{Bits, Machine, Status, and, field, known, or, sum, xor};

const LOAD_RESERVED: u32 = 2;
const STORE_CONDITIONAL: u32 = 3;

/// What an atomic instruction does with memory.
#[derive(Clone, Copy, PartialEq, Eq)]
pub enum Atomic {
    LoadReserved,
    StoreConditional,
    /// An AMO, by its funct5.
    Update(u32),
}

/// The atomic instruction of a word.
pub fn atomic_of(word: u32) -> Option<Atomic> {
    if word & 0x7F != 0x2F || field(word, 14, 12) != 2 {
        return None;
    }
    match (field(word, 31, 27), field(word, 24, 20)) {
        (LOAD_RESERVED, 0) => Some(Atomic::LoadReserved),
        (STORE_CONDITIONAL, _) => Some(Atomic::StoreConditional),
        (funct5 @ (0 | 1 | 4 | 8 | 12 | 16 | 20 | 24 | 28), _) => Some(Atomic::Update(funct5)),
        _ => None,
    }
}

/// The lesser or the greater of two words, each bit of which depends on all bits.
fn chosen(takes_first: bool, x: Bits, y: Bits) -> Bits {
    let value = if takes_first { x.value } else { y.value };
    Bits { value, undef: if x.undef | y.undef == 0 { 0 } else { u32::MAX } }
}

/// What an AMO stores, by what it has loaded and its second register.
fn updated(funct5: u32, x: Bits, y: Bits) -> Bits {
    let (sx, sy) = (x.value.cast_signed(), y.value.cast_signed());
    match funct5 {
        0 => sum(x, y),
        1 => y,
        4 => xor(x, y),
        8 => or(x, y),
        12 => and(x, y),
        16 => chosen(sx <= sy, x, y),
        20 => chosen(sx >= sy, x, y),
        24 => chosen(x.value <= y.value, x, y),
        _ => chosen(x.value >= y.value, x, y),
    }
}

impl Machine {
    /// An atomic instruction. It stops at an address that is no multiple of 4. Answers whether the next instruction is the one after it.
    pub fn execute_atomic(&mut self, atomic: Atomic, word: u32) -> bool {
        let (rs1, rs2, rd) = (field(word, 19, 15), field(word, 24, 20), field(word, 11, 7));
        let at = self.register(rs1).value;
        self.test(rs1, Kind::Value);
        if at % 4 != 0 {
            self.status = Status::Misaligned;
            return false;
        }
        let second = self.register(rs2);
        let result = match atomic {
            Atomic::LoadReserved => {
                self.reserved = Some(at);
                self.load_word(at)
            }
            Atomic::StoreConditional => {
                let is_reserved = self.reserved.take() == Some(at);
                if is_reserved {
                    self.store_word(at, second);
                }
                known(u32::from(!is_reserved))
            }
            Atomic::Update(funct5) => {
                let loaded = self.load_word(at);
                self.store_word(at, updated(funct5, loaded, second));
                loaded
            }
        };
        self.set(rd, result);
        true
    }

    fn load_word(&mut self, at: u32) -> Bits {
        self.note(Access::Read, at, 4);
        let loaded = self.memory.load::<4>(at);
        if let Some(bad) = loaded.bad {
            self.raise_at(Kind::Read(4), bad);
        }
        Bits { value: loaded.value, undef: loaded.undef }
    }

    fn store_word(&mut self, at: u32, bits: Bits) {
        self.note(Access::Write, at, 4);
        if let Some(bad) = self.memory.store::<4>(at, bits.value, bits.undef) {
            self.raise_at(Kind::Write(4), bad);
        }
    }
}
