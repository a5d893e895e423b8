//! Which instructions a machine has: those of RV32IM, or with these also 16-bit ones (C), atomic ones (A), those of control registers
//! (Zicsr), FENCE.I (Zifencei) and WFI. Sources: RISC-V Unprivileged ISA 20191213, chapters 16, 8, 9 and 3; Privileged Architecture
//! 20190608, section 3.2.3.

/// A profile, by the name that compilers have for its letters.
#[derive(Clone, Copy, PartialEq, Eq)]
pub enum Isa {
    Rv32im,
    Rv32imc,
    Rv32imac,
}

impl Isa {
    pub fn of(name: &str) -> Option<Isa> {
        match name {
            "rv32im" => Some(Isa::Rv32im),
            "rv32imc" => Some(Isa::Rv32imc),
            "rv32imac" => Some(Isa::Rv32imac),
            _ => None,
        }
    }

    pub fn name(self) -> &'static str {
        match self {
            Isa::Rv32im => "rv32im",
            Isa::Rv32imc => "rv32imc",
            Isa::Rv32imac => "rv32imac",
        }
    }

    /// How many bytes the shortest instruction has. Each is at a multiple of that.
    pub fn unit(self) -> u32 {
        if self == Isa::Rv32im { WORD } else { HALF }
    }

    pub fn has_atomics(self) -> bool {
        self == Isa::Rv32imac
    }

    /// Whether it has control registers, FENCE.I and WFI.
    pub fn has_controls(self) -> bool {
        self != Isa::Rv32im
    }
}

/// How many bytes instructions have.
pub const WORD: u32 = 4;
pub const HALF: u32 = 2;
