//! Errors, by their kind and trace (Memcheck manual, section 4.2).

use std::collections::BTreeMap;

/// What is wrong with a parameter of a call.
#[derive(Clone, Copy, Debug, PartialEq, Eq, PartialOrd, Ord)]
pub enum Wrong {
    /// The register has an undefined bit.
    Contains,
    /// It is the address of bytes of which one has an undefined bit.
    Undefined,
    /// It is the address of bytes of which one is inaccessible.
    Inaccessible,
}

/// What an error is.
#[derive(Clone, Copy, Debug, PartialEq, Eq, PartialOrd, Ord)]
pub enum Kind {
    Read(u8),
    Write(u8),
    Value,
    Cond,
    Parameter(&'static str, Wrong),
    Free,
    Jump,
}

impl Kind {
    /// The text that a report has for it.
    pub fn text(self) -> String {
        match self {
            Kind::Read(n) => format!("Invalid read of size {n}"),
            Kind::Write(n) => format!("Invalid write of size {n}"),
            Kind::Value => "Use of uninitialised value of size 4".to_string(),
            Kind::Cond => "Conditional jump or move depends on uninitialised value(s)".to_string(),
            Kind::Parameter(name, Wrong::Contains) => format!("Syscall param {name} contains uninitialised byte(s)"),
            Kind::Parameter(name, Wrong::Undefined) => format!("Syscall param {name} points to uninitialised byte(s)"),
            Kind::Parameter(name, Wrong::Inaccessible) => format!("Syscall param {name} points to unaddressable byte(s)"),
            Kind::Free => "Invalid free() / realloc()".to_string(),
            Kind::Jump => "Jump to the invalid address stated on the next line".to_string(),
        }
    }
}

/// The errors of one kind with one trace: how many there are, and the address of the first, if it has one.
#[derive(Clone, Debug)]
pub struct Group {
    pub kind: Kind,
    pub trace: Vec<u32>,
    pub count: u64,
    address: Option<u32>,
}

#[derive(Clone, Default)]
pub struct Errors {
    /// In the order of the first of each.
    pub groups: Vec<Group>,
}

impl Errors {
    pub fn raise(&mut self, kind: Kind, trace: Vec<u32>, address: Option<u32>) {
        match self.groups.iter_mut().find(|it| it.kind == kind && it.trace == trace) {
            Some(group) => group.count = group.count.saturating_add(1),
            None => self.groups.push(Group { kind, trace, count: 1, address }),
        }
    }

    pub fn total(&self) -> u64 {
        self.groups.iter().map(|it| it.count).sum()
    }

    pub fn is_empty(&self) -> bool {
        self.groups.is_empty()
    }

    pub fn kinds(&self) -> impl Iterator<Item = Kind> {
        self.groups.iter().map(|it| it.kind)
    }

    /// How many errors there are of each kind at each instruction, and the address of the first, if it has one.
    pub fn by_place(&self) -> BTreeMap<(Kind, u32), (u64, Option<u32>)> {
        let mut places = BTreeMap::new();
        for it in &self.groups {
            places.entry((it.kind, it.trace[0])).or_insert((0, it.address)).0 += it.count;
        }
        places
    }

    /// How many errors of a kind there are at an instruction.
    #[cfg(test)]
    pub fn at(&self, kind: Kind, pc: u32) -> u64 {
        self.by_place().get(&(kind, pc)).map_or(0, |found| found.0)
    }
}
