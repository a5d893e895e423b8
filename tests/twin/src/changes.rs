//! What may be changed in a machine just before one of its steps.

use crate::machine::{Bits, Machine, Status};
use crate::memory::RangeKind;

/// A register, by its number, or the address of the next instruction.
#[derive(Clone, Copy)]
pub enum Place {
    Register(usize),
    Pc,
}

/// A change, by the line of a session that asks for it.
#[derive(Clone, Copy)]
pub enum Change {
    /// `mark`: bytes become inaccessible, undefined or defined.
    Mark { start: u32, len: u32, kind: RangeKind },
    /// `set`: a place has these bits.
    Set { place: Place, bits: Bits },
    /// `flip` of a register: bits are inverted. Those that are undefined stay so.
    Flip { place: Place, mask: u32 },
    /// `flip` of memory: bits of the four bytes from an address on are inverted, the lowest byte first.
    FlipBytes { start: u32, mask: u32 },
    /// `write`: so many bytes of a number are stored, the lowest first, as by a store, but for errors.
    Write { start: u32, len: u32, value: u32 },
    /// `skip`: the next instruction is left out. Counters count it.
    Skip,
}

impl Change {
    /// Whether it writes a byte of a range.
    pub fn writes_in(&self, start: u32, len: u32) -> bool {
        let (first, count) = match *self {
            Change::FlipBytes { start, .. } => (start, 4),
            Change::Write { start, len, .. } => (start, len),
            _ => return false,
        };
        first.wrapping_sub(start) < len || start.wrapping_sub(first) < count
    }
}

impl Machine {
    /// Makes a change. A machine that has ended takes marks only.
    pub fn change(&mut self, change: Change) {
        if let Change::Mark { start, len, kind } = change {
            self.memory.set_range(start, len, kind);
        } else if self.status == Status::Running {
            self.change_running(change);
        }
    }

    fn change_running(&mut self, change: Change) {
        match change {
            Change::Mark { .. } => {}
            Change::Set { place: Place::Register(r), bits } => self.registers[r] = bits,
            Change::Set { place: Place::Pc, bits } => self.pc = bits.value,
            Change::Flip { place: Place::Register(r), mask } => self.registers[r].value ^= mask,
            Change::Flip { place: Place::Pc, mask } => self.pc ^= mask,
            Change::FlipBytes { start, mask } => {
                for (i, bits) in (0u32..).zip(mask.to_le_bytes()) {
                    self.memory.flip(start.wrapping_add(i), bits);
                }
            }
            Change::Write { start, len, value } => {
                for (i, byte) in (0..len).zip(value.to_le_bytes()) {
                    self.memory.store::<1>(start.wrapping_add(i), byte.into(), 0);
                }
            }
            Change::Skip => {
                self.pc = self.pc.wrapping_add(self.length());
                self.steps += u64::from(self.isa.has_controls());
            }
        }
    }
}
