//! Whether one run stands for the runs of all inputs that differ in some bytes: these are undefined as soon as they are read, as are the bytes
//! of memory that are any from the start on. Then no use may come of them, and the stack pointer must be defined after each step.

use crate::elf::Image;
use crate::errors::{Group, Kind, Wrong};
use crate::machine::{Machine, STACK_POINTER, Status, field};
use crate::memory::RangeKind;
use crate::noise::is_use;
use crate::outline::shown;
use std::fmt::Write;

/// The register that has the address of the buffer of `read`.
const BUFFER: usize = 11;
/// `j .`, as a word and as a half.
const JUMPS_TO_ITSELF: [(u32, u32); 2] = [(0x0000_006F, 4), (0xA001, 2)];
/// MUL, MULH, MULHSU, MULHU, DIV, DIVU, REM and REMU, by funct3; the first of those that divide.
const NAMES: [&str; 8] = ["MUL", "MULH", "MULHSU", "MULHU", "DIV", "DIVU", "REM", "REMU"];
const FIRST_DIVISION: usize = 4;

/// Which instructions may not have an operand that is any.
#[derive(Clone, Copy, Default)]
pub struct Timing {
    pub divisions: bool,
    pub products: bool,
}

/// What may be known at a step: the content of so many bytes from an address on.
#[derive(Clone, Copy)]
pub struct Reveal {
    pub step: u32,
    pub start: u32,
    pub len: u32,
}

/// What is any, each range with its first and its last position or address.
#[derive(Default)]
pub struct Asked {
    pub input: Vec<(u32, u32)>,
    pub memory: Vec<(u32, u32)>,
    pub reveals: Vec<Reveal>,
    pub timing: Timing,
}

/// Why a run doesn't stand for others, and the step.
pub enum No {
    Use(u64, Group),
    StackPointer(u64),
    Operand(u64, &'static str),
    /// A position of the input that is read into a byte that may not be accessed.
    Outside(u64, u32),
    /// An address of what is revealed that may not be accessed, or of memory that is any.
    Closed(u64, u32),
    Memory(u32),
}

/// What a run up to a step comes to.
pub struct Verdict {
    pub no: Option<No>,
    /// How many bytes of the input it has read.
    pub read: u32,
    /// Whether it has ended, or rests in a jump to itself.
    pub has_ended: bool,
}

pub fn is_in(ranges: &[(u32, u32)], place: u32) -> bool {
    ranges.iter().any(|(first, last)| (*first..=*last).contains(&place))
}

fn is_open(machine: &Machine, address: u32) -> bool {
    machine.memory.load::<1>(address).bad.is_none()
}

/// Whether an error is that of a `write` of undefined bytes, which lets them into the output only.
pub fn is_echo(kind: Kind) -> bool {
    kind == Kind::Parameter("write(buf)", Wrong::Undefined)
}

/// The first error of a machine that is a use. Where some bytes are any, a `write` of them is none.
fn first_use(machine: &Machine, has_any: bool) -> Option<Group> {
    machine.errors.groups.iter().find(|it| is_use(it.kind) && !(has_any && is_echo(it.kind))).cloned()
}

/// Whether a machine rests in a jump to itself whose code is defined.
fn rests(machine: &Machine) -> bool {
    let taken = |len: u32| if len == 4 { machine.memory.load::<4>(machine.pc) } else { machine.memory.load::<2>(machine.pc) };
    let is_jump = |(code, len): (u32, u32)| {
        machine.taken() == Some(len) && taken(len).value == code && taken(len).undef == 0 && taken(len).bad.is_none()
    };
    JUMPS_TO_ITSELF.into_iter().any(is_jump)
}

impl Asked {
    pub fn has_any(&self) -> bool {
        !self.input.is_empty() || !self.memory.is_empty()
    }

    /// Makes known before a step what may be known there, also of a machine that has ended.
    fn reveal(&self, machine: &mut Machine, step: u64) -> Option<No> {
        for it in self.reveals.iter().filter(|it| u64::from(it.step) == step) {
            if let Some(closed) = (0..it.len).map(|i| it.start.wrapping_add(i)).find(|address| !is_open(machine, *address)) {
                return Some(No::Closed(step, closed));
            }
            machine.memory.set_range(it.start, it.len, RangeKind::Defined);
        }
        None
    }

    /// The instruction of the next step, if its time depends on its operands and one of these has an undefined bit.
    fn slow_operand(&self, machine: &Machine) -> Option<&'static str> {
        let word = machine.next_word().filter(|_| machine.heap.function_at(machine.pc).is_none())?;
        let at = field(word, 14, 12) as usize;
        let counts = if at >= FIRST_DIVISION { self.timing.divisions } else { self.timing.products };
        let is_row = word & 0x7F == 0x33 && field(word, 31, 25) == 1 && counts;
        let undefined = machine.register(field(word, 19, 15)).undef | machine.register(field(word, 24, 20)).undef;
        (is_row && undefined != 0).then_some(NAMES[at])
    }

    /// Makes undefined what a step has read of the input, from a position on, if that is any. Returns the first position of those that came to
    /// a byte that may not be accessed.
    fn blur(&self, machine: &mut Machine, position: usize, buffer: u32) -> Option<u32> {
        let mut outside = None;
        for (i, place) in (position as u32..machine.position as u32).enumerate().filter(|(_, place)| is_in(&self.input, *place)) {
            let address = buffer.wrapping_add(i as u32);
            if is_open(machine, address) {
                machine.memory.set_range(address, 1, RangeKind::Undefined);
            } else {
                outside = outside.or(Some(place));
            }
        }
        outside
    }

    /// Makes a step. Returns why the run doesn't stand for others after it.
    fn step(&self, machine: &mut Machine, step: u64) -> Option<No> {
        let slow = self.slow_operand(machine);
        let (position, buffer) = (machine.position, machine.registers[BUFFER].value);
        machine.step();
        let outside = self.blur(machine, position, buffer);
        if let Some(group) = first_use(machine, self.has_any()) {
            return Some(No::Use(step, group));
        }
        if let Some(name) = slow {
            return Some(No::Operand(step, name));
        }
        if let Some(place) = outside {
            return Some(No::Outside(step, place));
        }
        (self.has_any() && machine.registers[STACK_POINTER].undef != 0).then_some(No::StackPointer(step))
    }

    /// Makes the bytes of memory undefined that are any, before the first step.
    fn fade(&self, machine: &mut Machine) -> Option<No> {
        for (first, last) in &self.memory {
            if let Some(closed) = (*first..=*last).find(|address| !is_open(machine, *address)) {
                return Some(No::Memory(closed));
            }
            machine.memory.set_range(*first, last - first + 1, RangeKind::Undefined);
        }
        None
    }

    /// Runs a machine up to a step, with these bytes undefined.
    pub fn run(&self, machine: &mut Machine, steps: u64) -> Verdict {
        let (mut step, mut no) = (0, self.fade(machine));
        while no.is_none() && step <= steps && (machine.status == Status::Running || !self.reveals.is_empty()) {
            no = self.reveal(machine, step);
            if no.is_none() && step < steps && machine.status == Status::Running {
                no = self.step(machine, step);
            }
            step += 1;
        }
        let has_ended = machine.status != Status::Running || rests(machine);
        Verdict { no, read: machine.position as u32, has_ended }
    }

    /// `any 0..1, 5, memory A..B`: an address after the last byte.
    fn name(&self) -> String {
        let span = |(first, last): &(u32, u32)| if first == last { first.to_string() } else { format!("{first}..{last}") };
        let area = |(first, last): &(u32, u32)| format!("memory {first:#010x}..{:#010x}", u64::from(*last) + 1);
        let names = self.input.iter().map(span).chain(self.memory.iter().map(area));
        format!("any {}", names.collect::<Vec<String>>().join(", "))
    }

    /// `this byte of the input`, with what may be known.
    fn bytes(&self) -> String {
        let mut text = match (&self.input[..], &self.memory[..]) {
            ([(first, last)], []) if first == last => "this byte of the input".to_string(),
            (_, []) => "these bytes of the input".to_string(),
            ([], _) => "these bytes of memory".to_string(),
            _ => "these bytes".to_string(),
        };
        for (i, it) in self.reveals.iter().enumerate() {
            let word = if i == 0 { "that leaves" } else { "and" };
            let place = format!("{} defined bytes at {:#010x} before step {}", it.len, it.start, it.step);
            write!(text, " {word} the same {place}").expect("a string takes all");
        }
        text
    }

    /// The lines of a verdict on a run up to a step.
    pub fn lines(&self, image: &Image, steps: u64, verdict: &Verdict) -> String {
        match &verdict.no {
            Some(no) if self.has_any() => format!("not the same for {}: {}\n", self.name(), no.text(image)),
            Some(no) => format!("not clean: {}\n", no.text(image)),
            None if self.has_any() => {
                let end = if verdict.has_ended { "" } else { "; the run goes on" };
                let same = "same instructions, same addresses, same status, same errors but for writes of uninitialised bytes";
                let (name, bytes) = (self.name(), self.bytes());
                let line = format!("{name}: the run is the same up to step {steps} for each value of {bytes}: {same}{end}\n");
                line + &self.unread(steps, verdict.read)
            }
            None => {
                let nothing = "nothing that uninitialised, freed or unmapped memory holds has any influence on";
                match verdict.has_ended {
                    true => format!("clean to step {steps}: {nothing} this run\n"),
                    false => format!("clean up to step {steps}: {nothing} the run up to there; the run goes on\n"),
                }
            }
        }
    }

    /// A line for what isn't read of each range.
    fn unread(&self, steps: u64, read: u32) -> String {
        let rest = self.input.iter().map(|(first, last)| (*first.max(&read), *last)).filter(|(first, last)| first <= last);
        let name = |(first, last): (u32, u32)| if first == last { first.to_string() } else { format!("{first}..{last}") };
        rest.map(|it| format!(" input {} is not read up to step {steps}\n", name(it))).collect()
    }
}

impl No {
    pub fn step(&self) -> u64 {
        match self {
            No::Memory(_) => 0,
            No::Use(step, _) | No::StackPointer(step) | No::Operand(step, _) | No::Outside(step, _) | No::Closed(step, _) => {
                *step
            }
        }
    }

    /// A word for its kind.
    pub fn kind(&self) -> &'static str {
        match self {
            No::Use(_, group) => match group.kind {
                Kind::Read(_) => "read",
                Kind::Value => "value",
                Kind::Cond => "condition",
                _ => "parameter",
            },
            No::StackPointer(_) => "pointer",
            No::Operand(..) => "operand",
            No::Outside(..) => "outside",
            No::Closed(..) | No::Memory(_) => "closed",
        }
    }

    fn text(&self, image: &Image) -> String {
        match self {
            No::Use(step, group) => format!("first use at step {step}: {}{}", group.kind.text(), trace(image, &group.trace)),
            No::StackPointer(step) => format!("at step {step}: the stack pointer may depend on them"),
            No::Operand(step, name) => format!("at step {step}: {name}'s operand depends on them"),
            No::Outside(step, place) => format!("input {place} is read at step {step} into bytes that may not be accessed"),
            No::Closed(step, address) => format!("{address:#010x} may not be accessed at step {step}"),
            No::Memory(address) => format!("{address:#010x} may not be accessed at step 0"),
        }
    }
}

/// A whole trace, on one line.
fn trace(image: &Image, addresses: &[u32]) -> String {
    let name = |address: u32| format!("{address:#010x}: {}", shown(image.name_of(address)));
    let words = std::iter::once(" at ").chain(std::iter::repeat(", by "));
    words.zip(addresses).map(|(word, address)| word.to_string() + &name(*address)).collect()
}
