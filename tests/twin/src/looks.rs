//! Looks at a run: lines as `replaycheck look` takes them, each with the step before it, are answered in its words. Every look goes
//! through the run from its start, one step after another, and keeps nothing of the looks before it.

use crate::changes::Change;
use crate::controls::NAMED;
use crate::machine::{Machine, Status};
use std::collections::BTreeMap;
use std::fmt::Write;
use std::ops::Range;

const REGISTERS: usize = 32;
/// The most blocks and the most events that one look lists, and the most addresses of a block's trace.
const MOST_BLOCKS: usize = 64;
const MOST_EVENTS: usize = 1024;
const MOST_OF_TRACE: usize = 3;

/// What a step does with memory beside taking its word.
#[derive(Clone, Copy, PartialEq, Eq)]
pub enum Access {
    Read,
    Write,
    /// Both.
    Update,
}

/// A run: the machine before its first step, and what is changed in it before each step.
pub struct Run<'a> {
    pub start: &'a dyn Fn() -> Machine,
    pub changes: BTreeMap<u64, Vec<Change>>,
}

impl Run<'_> {
    fn change(&self, machine: &mut Machine, step: u64) {
        for change in self.changes.get(&step).into_iter().flatten() {
            machine.change(*change);
        }
    }

    /// The machine after so many steps, and after what is changed before the next one.
    pub fn at(&self, steps: u64) -> Machine {
        let (mut machine, mut step) = ((self.start)(), 0);
        while step < steps && machine.status == Status::Running {
            self.change(&mut machine, step);
            go_on(&mut machine);
            step += 1;
        }
        for change in self.changes.range(step..=steps).flat_map(|it| it.1) {
            machine.change(*change);
        }
        machine
    }

    /// The first step below another one that uses a byte of a range: it executes an instruction there, reads one or writes one.
    pub fn first_use(&self, range: (u32, u32), end: u64) -> Option<u64> {
        let uses = |machine: &Machine| ["run", "read", "write"].iter().any(|kind| does(machine, kind, range));
        self.first(end, uses)
    }

    /// The first step below another one that reads the byte of the input at an offset.
    pub fn first_read(&self, offset: u32, end: u64) -> Option<u64> {
        let has_read = |machine: &Machine| machine.position > offset as usize;
        self.first(end + 1, has_read).map(|step| step - 1)
    }

    /// The first step below another one before which the machine is such a one.
    fn first(&self, end: u64, is_one: impl Fn(&Machine) -> bool) -> Option<u64> {
        let mut machine = (self.start)();
        for step in 0..end {
            self.change(&mut machine, step);
            if is_one(&machine) {
                return Some(step);
            }
            if machine.status != Status::Running {
                return None;
            }
            go_on(&mut machine);
        }
        None
    }

    /// The steps that do something with a range, in order, among some of the run.
    fn those_that_do(&self, kind: &str, range: (u32, u32), steps: Range<u64>) -> Vec<u64> {
        let (mut machine, mut found) = ((self.start)(), Vec::new());
        for step in 0..steps.end {
            if machine.status != Status::Running {
                break;
            }
            self.change(&mut machine, step);
            let (pc, errors, does) = (machine.pc, raised(&machine), does(&machine, kind, range));
            let known = (kind == "shadow").then(|| shadows(&machine, range));
            go_on(&mut machine);
            let errs = kind == "error" && is_in(range, pc) && raised(&machine) > errors;
            let changes = known.is_some_and(|known| known != shadows(&machine, range));
            if steps.contains(&step) && (does || errs || changes) {
                found.push(step);
            }
        }
        found
    }
}

/// The answer to a line: a step, and a look.
pub fn answer(run: &Run, line: &str) -> Option<String> {
    let words: Vec<&str> = line.split_whitespace().collect();
    match words[..] {
        [step, "look", ..] => look(run, step.parse().ok()?, &words[2..]),
        _ => None,
    }
}

/// The answer to a look at a step, by its words.
pub fn look(run: &Run, step: u64, words: &[&str]) -> Option<String> {
    match *words {
        ["registers"] => Some(registers(&run.at(step))),
        ["controls"] => Some(controls(&run.at(step))),
        ["memory", addr, len] => Some(memory(&run.at(step), number(addr)?, number(len)?)),
        ["stack"] => Some(stack(&run.at(step))),
        ["blocks", from] => Some(blocks(&run.at(step), number(from)?)),
        ["calls", from, end] => Some(calls(run, number(from)?.into()..step.min(number(end)?.into()))),
        ["sides", addr, len] => Some(sides(run, step, number(addr)?, number(len)?)),
        ["next", kind, addr, len, end] => {
            let range = (number(addr)?, number(len)?);
            Some(told(run.those_that_do(kind, range, step..number(end)?.into()).first()))
        }
        ["last", kind, addr, len, from] => {
            let range = (number(addr)?, number(len)?);
            Some(told(run.those_that_do(kind, range, number(from)?.into()..step).last()))
        }
        _ => None,
    }
}

fn number(word: &str) -> Option<u32> {
    match word.strip_prefix("0x") {
        Some(digits) => u32::from_str_radix(digits, 16).ok(),
        None => word.parse().ok(),
    }
}

fn told(found: Option<&u64>) -> String {
    found.map_or("none".to_string(), |step| format!("step {step}"))
}

/// Addresses, each after a space.
fn spaced(addresses: impl Iterator<Item = u32>) -> String {
    addresses.map(|it| format!(" {it:#010x}")).collect()
}

/// Where the machine is, and the sites of the calls that it is in.
fn stack(machine: &Machine) -> String {
    format!("stack {:#010x}{}", machine.pc, spaced(machine.stack.sites()))
}

/// The blocks that keep their places, from an address on.
fn blocks(machine: &Machine, from: u32) -> String {
    let kept: Vec<_> = machine.heap.kept().into_iter().filter(|it| it.start >= from).collect();
    let mut text = String::new();
    for it in kept.iter().take(MOST_BLOCKS) {
        let (state, trace) = it.freed.as_ref().map_or(("live", &it.trace), |trace| ("freed", trace));
        let trace = spaced(trace.iter().copied().take(MOST_OF_TRACE));
        writeln!(text, "block {:#010x} {} {state}{trace}", it.start, it.size).expect("a string takes all");
    }
    text + &kept.get(MOST_BLOCKS).map_or("end".to_string(), |it| format!("next {:#010x}", it.start))
}

/// What some steps do: calls and returns, by how many calls are kept; heap calls, input and output.
fn calls(run: &Run, steps: Range<u64>) -> String {
    let (mut machine, mut text, mut events) = ((run.start)(), String::new(), 0);
    for step in 0..steps.end {
        if machine.status != Status::Running {
            break;
        }
        run.change(&mut machine, step);
        let (heap_calls, depth, position, output) = (machine.heap_calls, machine.stack.depth(), machine.position, machine.output);
        go_on(&mut machine);
        let (pc, now) = (machine.pc, machine.stack.depth());
        let event = match () {
            () if machine.heap_calls > heap_calls => Some(format!("heap {now}")),
            () if now > depth => machine.heap.function_at(pc).is_none().then(|| format!("call {pc:#010x} {now}")),
            () if now < depth => Some(format!("return {pc:#010x} {now}")),
            () if machine.position > position => Some(format!("input {}", machine.position - position)),
            () if machine.output > output => Some(format!("output {}", machine.output - output)),
            () => None,
        };
        if let (true, Some(event)) = (steps.contains(&step), event) {
            writeln!(text, "{step} {event}").expect("a string takes all");
            events += 1;
            if events == MOST_EVENTS {
                return text + &format!("next {}", step + 1);
            }
        }
    }
    text + "end"
}

/// Makes a step, where the machine runs.
fn go_on(machine: &mut Machine) {
    if machine.status == Status::Running {
        machine.step();
    }
}

/// How many errors a machine has raised.
fn raised(machine: &Machine) -> u64 {
    machine.errors.total()
}

/// The undefined bits of each byte of a range, and nothing of one that may not be accessed.
fn shadows(machine: &Machine, (start, len): (u32, u32)) -> Vec<Option<u32>> {
    (0..len)
        .map(|i| machine.memory.load::<1>(start.wrapping_add(i)))
        .map(|loaded| loaded.bad.is_none().then_some(loaded.undef))
        .collect()
}

fn is_in((start, len): (u32, u32), addr: u32) -> bool {
    addr.wrapping_sub(start) < len
}

/// Whether the machine runs, and where it is.
pub fn state(machine: &Machine) -> String {
    let pc = machine.pc;
    match machine.status {
        Status::Running => format!("state running {pc:#010x}"),
        Status::Exited(status) => format!("state exited {status}"),
        stop => format!("state stopped {} {pc:#010x}", format!("{stop:?}").to_lowercase()),
    }
}

/// What the steps before one have done with each instruction of a range.
fn sides(run: &Run, steps: u64, start: u32, len: u32) -> String {
    let (mut machine, mut met) = ((run.start)(), BTreeMap::<u32, u32>::new());
    for step in 0..steps {
        if machine.status != Status::Running {
            break;
        }
        run.change(&mut machine, step);
        let (pc, taken) = (machine.pc, machine.taken());
        go_on(&mut machine);
        if let Some(taken) = taken {
            *met.entry(pc).or_default() |= if machine.pc == pc.wrapping_add(taken) { 1 } else { 2 };
        }
    }
    let places = (0..len).step_by(machine.isa.unit() as usize).map(|after| start + after);
    "sides ".to_string() + &places.map(|place| met.get(&place).unwrap_or(&0).to_string()).collect::<String>()
}

fn registers(machine: &Machine) -> String {
    let mut text = state(machine);
    for (r, bits) in machine.registers.iter().enumerate().take(REGISTERS).skip(1) {
        write!(text, "\nx{r} {:#010x} {:#010x}", bits.value, bits.undef).expect("a string takes all");
    }
    text
}

fn controls(machine: &Machine) -> String {
    if !machine.isa.has_controls() {
        return "none".to_string();
    }
    let lines = NAMED.iter().map(|(number, name)| {
        let bits = machine.control(*number);
        format!("{name} {:#010x} {:#010x}", bits.value, bits.undef)
    });
    lines.collect::<Vec<String>>().join("\n")
}

fn memory(machine: &Machine, addr: u32, len: u32) -> String {
    let (mut bytes, mut undefined) = ("bytes ".to_string(), "undef ".to_string());
    for i in 0..len {
        let loaded = machine.memory.load::<1>(addr + i);
        write!(bytes, "{:02x}", loaded.value).expect("a string takes all");
        match loaded.bad {
            None => write!(undefined, "{:02x}", loaded.undef).expect("a string takes all"),
            Some(_) => undefined.push_str("__"),
        }
    }
    bytes + "\n" + &undefined
}

/// Whether the next step of a machine runs, reads or writes something in a range.
fn does(machine: &Machine, kind: &str, range: (u32, u32)) -> bool {
    if machine.status != Status::Running {
        return false;
    }
    match (kind, machine.access()) {
        ("run", _) => is_in(range, machine.pc),
        ("read", Some((Access::Read | Access::Update, addr, n))) | ("write", Some((Access::Write | Access::Update, addr, n))) => {
            (0..n).any(|i| is_in(range, addr.wrapping_add(i)))
        }
        _ => false,
    }
}
