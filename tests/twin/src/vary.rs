//! Runs with other values of the bytes that are any, beside the run that stands for them: which instructions they execute, which addresses
//! these access, and what they leave.

use crate::any;
use crate::certify::Request;
use crate::errors::Group;
use crate::machine::{Machine, Status};
use crate::noise::Noise;
use std::collections::BTreeMap;
use std::ops::Range;

/// With how many other values a run is compared.
const OTHERS: u64 = 5;
/// Values that a byte has more often than others.
const EDGES: [u8; 6] = [0, 1, 0x7F, 0x80, 0xFE, 0xFF];

/// How a run with other values goes beside the one with those that are given.
enum Beside {
    Same,
    Differs,
    /// What is revealed is not the same in both, or undefined.
    IsOther,
}

/// Gives a machine before its first step other values of the bytes.
fn alter(request: &Request, machine: &mut Machine, noise: &mut Noise) {
    let mut byte = || {
        let number = noise.next();
        if number % 4 == 0 { EDGES[(number >> 8) as usize % EDGES.len()] } else { (number >> 16) as u8 }
    };
    let mut input = request.input.clone();
    for (_, value) in (0u32..).zip(&mut input).filter(|(place, _)| any::is_in(&request.asked.input, *place)) {
        *value = byte();
    }
    machine.input = input.into();
    for address in request.asked.memory.iter().flat_map(|(first, last)| *first..=*last) {
        machine.memory.store::<1>(address, byte().into(), 0);
    }
}

/// The errors of a machine but for writes of undefined bytes.
fn kept(machine: &Machine) -> impl Iterator<Item = &Group> {
    machine.errors.groups.iter().filter(|it| !any::is_echo(it.kind))
}

/// Whether two runs are at the same place, have accessed the same in their last step, and have come to the same.
fn is_alike(one: &Machine, other: &Machine) -> bool {
    (one.pc, one.status, one.position, one.output) == (other.pc, other.status, other.position, other.output)
        && one.accesses == other.accesses
        && one.taken() == other.taken()
        && one.heap_calls == other.heap_calls
        && kept(one).map(|it| it.count).eq(kept(other).map(|it| it.count))
}

/// Whether two runs that have gone alike have the same calls, blocks and errors.
fn has_the_same(one: &Machine, other: &Machine) -> bool {
    let blocks = |machine: &Machine| machine.heap.kept().iter().map(|it| format!("{it:x?}")).collect::<Vec<String>>();
    let errors = |machine: &Machine| kept(machine).map(|it| format!("{it:x?}")).collect::<Vec<String>>();
    blocks(one) == blocks(other)
        && errors(one) == errors(other)
        && one.stack.sites().eq(other.stack.sites())
        && (one.steps, one.reserved, one.heap_calls) == (other.steps, other.reserved, other.heap_calls)
}

/// Makes a step of a machine that runs.
fn go_on(machine: &mut Machine) {
    machine.accesses.iter_mut().for_each(Vec::clear);
    if machine.status == Status::Running {
        machine.step();
    }
}

/// Whether what is revealed just before a step is the same in two runs, and defined in both.
fn reveals_the_same(request: &Request, one: &Machine, other: &Machine, step: u64) -> bool {
    let reveals = request.asked.reveals.iter().filter(|it| u64::from(it.step) == step);
    let mut places = reveals.flat_map(|it| (0..it.len).map(|i| it.start.wrapping_add(i)));
    let byte = |machine: &Machine, address| machine.memory.load::<1>(address);
    places.all(|it| (byte(one, it).value, byte(one, it).undef | byte(other, it).undef) == (byte(other, it).value, 0))
}

/// Compares two runs step by step from a step to another.
fn beside(request: &Request, one: &mut Machine, other: &mut Machine, steps: Range<u64>) -> Beside {
    for step in steps.clone() {
        if !reveals_the_same(request, one, other, step) {
            return Beside::IsOther;
        }
        go_on(one);
        go_on(other);
        if !is_alike(one, other) {
            return Beside::Differs;
        }
    }
    if !reveals_the_same(request, one, other, steps.end) {
        return Beside::IsOther;
    }
    if has_the_same(one, other) { Beside::Same } else { Beside::Differs }
}

/// Whether a machine stands for another one: that has each bit that the first one has defined.
fn stands(one: &Machine, other: &Machine) -> bool {
    let registers = one.registers.iter().zip(&other.registers);
    let controls = one.controls.keys().chain(other.controls.keys()).map(|number| (one.control(*number), other.control(*number)));
    let has_bits = |undef: u32, value: u32, other_undef: u32, other_value: u32| {
        (value ^ other_value) & !undef == 0 && other_undef & !undef == 0
    };
    registers.map(|(x, y)| (*x, *y)).chain(controls).all(|(x, y)| has_bits(x.undef, x.value, y.undef, y.value))
        && one.memory.stands_for(&other.memory)
}

/// The lines of `certify`, and one on runs with other values: whether the run is the same and if not why, how many of them go another way
/// before that step or leave what the run doesn't stand for, how many do up to the last step, and how many are compared.
pub fn tell(request: &Request, seed: u64) -> String {
    let answer = request.answer();
    let kind = if answer.is_clean { answer.verdict.no.as_ref().map_or("same", |no| no.kind()) } else { "unclean" };
    let end = answer.verdict.no.as_ref().map_or(request.steps(), |no| no.step());
    let start = || request.start(&BTreeMap::new(), &request.input);
    let (fresh, mut standing, mut one, mut other) = (start(), start(), start(), start());
    request.asked.run(&mut standing, end);
    let (mut noise, mut wrong, mut differing, mut compared) = (Noise::new(seed + 1), 0, 0, 0);
    for _ in 0..if answer.is_clean { OTHERS } else { 0 } {
        for machine in [&mut one, &mut other] {
            machine.become_copy_of(&fresh);
            machine.accesses = Some(Vec::new());
        }
        alter(request, &mut other, &mut noise);
        let is_right = match beside(request, &mut one, &mut other, 0..end) {
            Beside::IsOther => continue,
            Beside::Differs => false,
            Beside::Same => stands(&standing, &other),
        };
        compared += 1;
        wrong += u32::from(!is_right);
        let later = beside(request, &mut one, &mut other, end..request.steps());
        differing += u32::from(!is_right || matches!(later, Beside::Differs));
    }
    format!("{}runs {kind} {wrong} {differing} {compared}\n", answer.lines)
}
