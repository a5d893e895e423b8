//! Fault models: what is altered in a machine just before a step.

use crate::changes::{Change, Place};

const REGISTERS: std::ops::Range<usize> = 1..32;
/// The last address at which a word ends in memory.
const LAST_WORD: u32 = u32::MAX - 3;

/// The models, in the order in which a place is altered by them.
#[derive(Clone, Copy, PartialEq, Eq)]
pub enum Model {
    /// The instruction is left out.
    Skip,
    /// A bit of a register is turned.
    Registers,
    /// A bit of the pc is turned.
    Pc,
    /// A bit of the instruction at the pc is turned, for this step only.
    Words,
    /// A register is zero.
    Zero,
    /// A register is all ones.
    Ones,
    /// A bit of a byte is turned that this or a later step reads, and that none overwrites before.
    Memory,
}

pub const MODELS: [(&str, Model); 7] = [
    ("skip", Model::Skip),
    ("registers", Model::Registers),
    ("pc", Model::Pc),
    ("words", Model::Words),
    ("zero", Model::Zero),
    ("ones", Model::Ones),
    ("memory", Model::Memory),
];

/// Changes of a run, each just before a step, in the order of the steps.
pub type Edit = Vec<(u32, Change)>;

fn bits() -> impl Iterator<Item = u32> {
    (0..32).map(|bit| 1 << bit)
}

/// Turns each bit of a byte before a step, in the word that has the byte.
fn byte_edits(step: u32, addr: u32) -> impl Iterator<Item = Edit> {
    let place = addr % 4;
    (0..8).map(move |bit| vec![(step, Change::FlipBytes { start: addr - place, mask: 1 << (8 * place + bit) })])
}

/// The edits of a model at a step at which the machine has this pc, and an instruction with this length in bytes there. The last bytes are
/// those that this step or a later one reads before they are overwritten.
pub fn edits(model: Model, step: u32, pc: u32, len: u32, read: &[u32]) -> Vec<Edit> {
    let once = |change| vec![(step, change)];
    let set = |r, value| once(Change::Set { place: Place::Register(r), bits: crate::machine::known(value) });
    match model {
        Model::Skip => vec![once(Change::Skip)],
        Model::Registers => {
            REGISTERS.flat_map(|r| bits().map(move |mask| Change::Flip { place: Place::Register(r), mask })).map(once).collect()
        }
        Model::Pc => bits().map(|mask| once(Change::Flip { place: Place::Pc, mask })).collect(),
        Model::Words if pc > LAST_WORD => Vec::new(),
        Model::Words => {
            let turns = bits().take(8 * len as usize).map(|mask| Change::FlipBytes { start: pc, mask });
            turns.map(|turn| vec![(step, turn), (step + 1, turn)]).collect()
        }
        Model::Zero => REGISTERS.map(|r| set(r, 0)).collect(),
        Model::Ones => REGISTERS.map(|r| set(r, u32::MAX)).collect(),
        Model::Memory => read.iter().flat_map(|addr| byte_edits(step, *addr)).collect(),
    }
}

fn place(place: Place) -> String {
    match place {
        Place::Register(r) => format!("x{r}"),
        Place::Pc => "pc".to_string(),
    }
}

/// The line of a session that makes a change before a step.
fn line(step: u32, change: Change) -> String {
    match change {
        Change::Skip => format!("skip {step}"),
        Change::Flip { place: to, mask } => format!("flip {step} {} {mask:#010x}", place(to)),
        Change::FlipBytes { start, mask } => format!("flip {step} {start:#010x} {mask:#010x}"),
        Change::Set { place: to, bits } => format!("set {step} {} {:#010x}", place(to), bits.value),
        Change::Write { start, len, value } => format!("write {step} {start:#010x} {len} {value:#010x}"),
        Change::Mark { start, len, kind } => format!("mark {step} {start:#010x} {len} {}", format!("{kind:?}").to_lowercase()),
    }
}

/// The lines of an edit.
pub fn text(edit: &Edit) -> String {
    edit.iter().map(|(step, change)| line(*step, *change)).collect::<Vec<_>>().join("; ")
}
