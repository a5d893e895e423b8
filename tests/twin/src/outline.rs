//! The outline of a machine: how it ended, and each error and leak that its report shows.

use crate::elf::Image;
use crate::leaks::{self, LeakKind};
use crate::machine::{Machine, Status};
use crate::suppressions::{Suppression, Target};
use std::collections::HashMap;
use std::fmt::Write;

/// The most addresses of a trace that is shown: the program's default.
const CALLERS: usize = 12;

/// What outlines are written by: names and suppressions.
pub struct Writer {
    pub image: Image,
    pub suppressions: Vec<Suppression>,
    pub with_output: bool,
    /// Lines of traces that were written before.
    names: HashMap<u32, String>,
}

impl Writer {
    pub fn new(image: Image, suppressions: Vec<Suppression>, with_output: bool) -> Writer {
        Writer { image, suppressions, with_output, names: HashMap::new() }
    }

    /// The outline, each line with its newline.
    pub fn outline(&mut self, machine: &Machine) -> String {
        let mut text = end(machine);
        if self.with_output {
            writeln!(text, "output {}", machine.output).expect("a string takes all");
        }
        let groups = machine.errors.groups.iter().filter(|it| !self.hides(Target::Error(it.kind), &it.trace));
        let errors = shown_once(groups.map(|it| (it.kind, cut(&it.trace))));
        for (kind, trace) in errors {
            text += &format!("{}\n", kind.text());
            let jumps = usize::from(kind == crate::errors::Kind::Jump);
            self.add_trace(&mut text, &trace[jumps..]);
        }
        let blocks = leaks::search(machine).into_iter().filter(|(it, kind)| !self.hides(Target::Leak(*kind), &it.trace));
        let leaks = shown_once(blocks.map(|(it, kind)| (kind, cut(&it.trace))));
        for (kind, trace) in leaks {
            if matches!(kind, LeakKind::Definite | LeakKind::Possible) {
                text += &format!("{}\n", kind.text());
                self.add_trace(&mut text, trace);
            }
        }
        text
    }

    fn hides(&self, target: Target, trace: &[u32]) -> bool {
        let names: Vec<&[u8]> = trace.iter().map(|addr| self.image.name_of(*addr)).collect();
        self.suppressions.iter().any(|it| it.matches(target, &names))
    }

    fn add_trace(&mut self, text: &mut String, trace: &[u32]) {
        for (i, addr) in trace.iter().enumerate() {
            let image = &self.image;
            let line = self.names.entry(*addr).or_insert_with(|| format!("{addr:#010x}: {}", shown(image.name_of(*addr))));
            writeln!(text, "   {} {line}", if i == 0 { "at" } else { "by" }).expect("a string takes all");
        }
    }
}

/// How a machine has ended, how much it has written, each error with its count and the names of its trace, and how many bytes in how many
/// blocks are lost in each way: what does not depend on where a program's instructions are.
pub fn summary(image: &Image, machine: &Machine) -> String {
    let ended = end(machine).split(" 0x").next().unwrap_or_default().trim_end().to_string();
    let mut text = format!("{ended}\noutput {}\n", machine.output);
    for it in &machine.errors.groups {
        let names: Vec<String> = cut(&it.trace).iter().map(|addr| shown(image.name_of(*addr))).collect();
        writeln!(text, "{} times {}: {}", it.count, it.kind.text(), names.join(" by ")).expect("a string takes all");
    }
    for kind in [LeakKind::Definite, LeakKind::Indirect, LeakKind::Possible, LeakKind::Reachable] {
        let sizes: Vec<u64> = leaks::search(machine).iter().filter(|it| it.1 == kind).map(|it| it.0.size.into()).collect();
        writeln!(text, "{kind:?}: {} bytes in {} blocks", sizes.iter().sum::<u64>(), sizes.len()).expect("a string takes all");
    }
    text
}

/// A name: `?` for a byte that is no printable ASCII character.
pub fn shown(name: &[u8]) -> String {
    name.iter().map(|byte| if byte.is_ascii_graphic() { char::from(*byte) } else { '?' }).collect()
}

fn cut(trace: &[u32]) -> &[u32] {
    &trace[..trace.len().min(CALLERS)]
}

/// The items without those that came before.
fn shown_once<T: PartialEq>(items: impl Iterator<Item = T>) -> Vec<T> {
    let mut found = Vec::new();
    for it in items {
        if !found.contains(&it) {
            found.push(it);
        }
    }
    found
}

/// Whether the machine runs, or how it ended. A bad jump goes anywhere.
fn end(machine: &Machine) -> String {
    match machine.status {
        Status::Running => "running\n".to_string(),
        Status::Exited(status) => format!("exited {status}\n"),
        Status::Jump => "stopped jump\n".to_string(),
        stop => format!("stopped {} {:#010x}\n", format!("{stop:?}").to_lowercase(), machine.pc),
    }
}
