//! A sweep of alterations at steps: each alone, from a copy of the machine before its step on.

use crate::changes::Change;
use crate::elf::Image;
use crate::hash::sha256;
use crate::isa::Isa;
use crate::looks::Access;
use crate::machine::{Machine, Status};
use crate::models::{self, Edit, Model};
use crate::outline::Writer;
use crate::request::Request;
use crate::suppressions;
use std::collections::{BTreeMap, HashMap};
use std::io::{self, Write};
use std::rc::Rc;

/// The table so far.
struct Table<W> {
    out: W,
    numbers: HashMap<String, usize>,
    tallies: Vec<u64>,
    edits: u64,
    steps: u64,
}

impl<W: Write> Table<W> {
    /// The number of an outcome, which is written if it is new.
    fn number(&mut self, outcome: String) -> io::Result<usize> {
        if let Some(number) = self.numbers.get(&outcome) {
            return Ok(*number);
        }
        let number = self.tallies.len();
        write!(self.out, "outcome {number}\n{outcome}")?;
        self.numbers.insert(outcome, number);
        self.tallies.push(0);
        Ok(number)
    }

    fn row(&mut self, edit: &Edit, outcome: String, steps: u32) -> io::Result<()> {
        let number = self.number(outcome)?;
        self.tallies[number] += 1;
        self.edits += 1;
        self.steps += u64::from(steps);
        writeln!(self.out, "{} {number}", models::text(edit))
    }

    fn end(mut self) -> io::Result<()> {
        for (number, count) in self.tallies.iter().enumerate() {
            writeln!(self.out, "tally {number} {count}")?;
        }
        writeln!(self.out, "end {} {} {}", self.edits, self.tallies.len(), self.steps)?;
        self.out.flush()
    }
}

struct Sweep<'a, W> {
    request: &'a Request,
    writer: Writer,
    table: Table<W>,
    /// A machine for edited runs.
    run: Machine,
}

fn step(machine: &mut Machine) {
    if machine.status == Status::Running {
        machine.step();
    }
}

impl<W: Write> Sweep<'_, W> {
    /// Whether the program is at an instruction in the range.
    fn is_place(&self, machine: &Machine) -> bool {
        let is_in = self.request.code.is_none_or(|(first, last)| (first..=last).contains(&machine.pc));
        machine.status == Status::Running && is_in && machine.heap.function_at(machine.pc).is_none()
    }

    /// Goes on from a machine before a step, with changes from there on, to the last step.
    fn outcome(&mut self, before: &Machine, from: u32, changes: &[(u32, Change)]) -> String {
        self.run.become_copy_of(before);
        let mut changes = changes;
        for now in from..self.request.step {
            while let Some(((_, change), rest)) = changes.split_first().filter(|(first, _)| first.0 == now) {
                self.run.change(*change);
                changes = rest;
            }
            if self.run.status != Status::Running {
                break;
            }
            self.run.step();
        }
        self.writer.outline(&self.run)
    }

    /// The bytes that steps from one on read, and that none before that one writes, in ascending order. A step that does both reads first.
    fn read_later(&mut self, before: &Machine, from: u32) -> Vec<u32> {
        let mut firsts = BTreeMap::new();
        self.run.become_copy_of(before);
        for _ in from..self.request.step {
            self.run.accesses = Some(Vec::new());
            step(&mut self.run);
            for (access, start, len) in self.run.accesses.take().into_iter().flatten() {
                for i in 0..len {
                    firsts.entry(start.wrapping_add(i)).or_insert(access);
                }
            }
        }
        firsts.into_iter().filter(|it| it.1 == Access::Read).map(|it| it.0).collect()
    }

    /// All edits at a step, from the machine before it on.
    fn place(&mut self, before: &Machine, now: u32) -> io::Result<()> {
        let has_memory = self.request.models.contains(&Model::Memory);
        let read = if has_memory { self.read_later(before, now) } else { Vec::new() };
        for model in &self.request.models {
            for edit in models::edits(*model, now, before.pc, before.length(), &read) {
                let outcome = self.outcome(before, now, &edit);
                self.table.row(&edit, outcome, self.request.step - now)?;
            }
        }
        Ok(())
    }

    /// A skip at a step, and another one at each later step of the run with the first.
    fn pairs(&mut self, before: &Machine, first: u32, second: &mut Machine) -> io::Result<()> {
        second.become_copy_of(before);
        second.change(Change::Skip);
        for now in first + 1..=self.request.at.1 {
            step(second);
            if second.status != Status::Running {
                break;
            }
            if self.is_place(second) {
                let outcome = self.outcome(second, now, &[(now, Change::Skip)]);
                let edit = vec![(first, Change::Skip), (now, Change::Skip)];
                self.table.row(&edit, outcome, self.request.step - first)?;
            }
        }
        Ok(())
    }
}

/// The lines before the first outcome.
fn head(request: &Request, out: &mut impl Write) -> io::Result<()> {
    writeln!(out, "sweep 2")?;
    if request.isa != Isa::Rv32im {
        writeln!(out, "isa {}", request.isa.name())?;
    }
    write!(out, "{}", request.regions.lines())?;
    for (name, bytes) in [("program", &request.program), ("input", &request.input), ("supp", &request.suppressions)] {
        writeln!(out, "{name} {} {}", bytes.len(), sha256(bytes))?;
    }
    let code = request.code.map_or(String::new(), |(first, last)| format!(" code {first:#010x}..{last:#010x}"));
    let pairs = if request.pairs { " pairs skip" } else { "" };
    writeln!(out, "steps {}..{} {}{code}{pairs}", request.at.0, request.at.1, request.faults)?;
    writeln!(out, "step {}\noutput {}", request.step, if request.with_output { "yes" } else { "no" })?;
    writeln!(out, "part {}/{}", request.part.0, request.part.1)
}

/// Makes the sweep of a request, and writes its table.
///
/// # Errors
///
/// What is wrong with the program or the suppressions, or with writing.
pub fn sweep(request: &Request, mut out: impl Write) -> Result<(), String> {
    let image = Image::of(&request.program, request.regions.clone()).ok_or("no program")?;
    let rules = suppressions::parse(&request.suppressions).ok_or("no suppressions")?;
    let input: Rc<[u8]> = request.input.clone().into();
    let start = || Machine::of(request.isa, &image, &BTreeMap::new(), input.clone());
    let (mut before, mut second, run) = (start(), start(), start());
    let image = Image::of(&request.program, request.regions.clone()).ok_or("no program")?;
    head(request, &mut out).map_err(|fault| fault.to_string())?;
    let table = Table { out, numbers: HashMap::new(), tallies: Vec::new(), edits: 0, steps: 0 };
    let mut sweep = Sweep { request, writer: Writer::new(image, rules, request.with_output), table, run };
    make(&mut sweep, &mut before, &mut second).map_err(|fault| fault.to_string())?;
    sweep.table.end().map_err(|fault| fault.to_string())
}

/// The unedited run, and all edits of the part.
fn make<W: Write>(sweep: &mut Sweep<W>, before: &mut Machine, second: &mut Machine) -> io::Result<()> {
    let (first, last) = sweep.request.at;
    let (index, count) = sweep.request.part;
    let all = u64::from(last - first) + 1;
    let place = |done: u64| first + (all * done / count) as u32;
    let unedited = sweep.outcome(before, 0, &[]);
    sweep.table.number(unedited)?;
    writeln!(sweep.table.out, "unedited 0")?;
    for now in 0..place(index) {
        if now >= place(index - 1) && sweep.is_place(before) {
            sweep.place(before, now)?;
            if sweep.request.pairs {
                sweep.pairs(before, now, second)?;
            }
        }
        step(before);
    }
    Ok(())
}
