//! Runs with noise: before each step, undefined bits of registers and control registers, and what undefined and inaccessible bytes hold,
//! become others by chance. A run that has made no use of them must go the same way.

use crate::errors::{Kind, Wrong};
use crate::machine::{Machine, Status};

/// A generator of numbers by chance (xorshift, Marsaglia 2003), the same ones for the same seed.
pub struct Noise {
    state: u64,
}

impl Noise {
    pub fn new(seed: u64) -> Noise {
        Noise { state: seed.wrapping_mul(0x9E37_79B9_7F4A_7C15) | 1 }
    }

    pub fn next(&mut self) -> u32 {
        self.state ^= self.state << 13;
        self.state ^= self.state >> 7;
        self.state ^= self.state << 17;
        (self.state >> 32) as u32
    }

    /// Disturbs a machine before its next step. Of memory that is what the step takes and looks at: other bytes can wait until a step
    /// looks at them.
    fn disturb(&mut self, machine: &mut Machine) {
        for bits in machine.registers.iter_mut().chain(machine.controls.values_mut()) {
            bits.value ^= self.next() & bits.undef;
        }
        self.disturb_bytes(machine, machine.pc, 4);
        if let Some((_, start, len)) = machine.access() {
            self.disturb_bytes(machine, start, len);
        }
    }

    fn disturb_bytes(&mut self, machine: &mut Machine, start: u32, len: u32) {
        for i in 0..len {
            let noise = self.next() as u8;
            machine.memory.disturb(start.wrapping_add(i), noise);
        }
    }
}

/// Whether an error is a use of undefined bits, or a read of inaccessible bytes. A `read` only fills its buffer.
pub fn is_use(kind: Kind) -> bool {
    !matches!(kind, Kind::Write(_) | Kind::Free | Kind::Jump | Kind::Parameter("read(buf)", Wrong::Inaccessible))
}

fn has_use(machine: &Machine) -> bool {
    machine.errors.kinds().any(is_use)
}

/// A machine after so many steps, disturbed before each of them where there is noise.
fn after(start: &impl Fn() -> Machine, steps: u64, noise: Option<u64>) -> Machine {
    let (mut machine, mut noise) = (start(), noise.map(Noise::new));
    for _ in 0..steps {
        if machine.status != Status::Running {
            break;
        }
        if let Some(noise) = &mut noise {
            noise.disturb(&mut machine);
        }
        machine.step();
    }
    machine
}

/// How many steps a run makes up to `most` before the one that raises its first use, and that use, if there is one.
pub fn clean_steps(start: &impl Fn() -> Machine, most: u64) -> (u64, Option<Kind>) {
    let mut machine = start();
    for step in 0..most {
        if machine.status != Status::Running {
            return (step, None);
        }
        machine.step();
        if has_use(&machine) {
            return (step, machine.errors.kinds().find(|kind| is_use(*kind)));
        }
    }
    (most, None)
}

/// Whether all that a report tells of a machine after so many steps is the same under each of these noises, and how many errors it tells.
pub fn is_same(start: &impl Fn() -> Machine, steps: u64, seeds: &[u64]) -> (bool, usize) {
    let told = shown(&after(start, steps, None));
    (seeds.iter().all(|seed| shown(&after(start, steps, Some(*seed))) == told), told.2.len())
}

/// What a report tells of a machine: its state, and its errors with their addresses.
fn shown(machine: &Machine) -> (Status, u32, Vec<String>) {
    let errors = machine.errors.by_place();
    (machine.status, machine.pc, errors.iter().map(|(place, found)| format!("{place:?} {found:?}")).collect())
}
