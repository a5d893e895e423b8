//! A plain interpreter of RV32IM, by `--isa` also of RV32IMC and RV32IMAC, with accessible and undefined bits: what a step costs where
//! nothing is proved. It runs the loop that `bench/run` gives the program too, and prints where it leads; or a program of words from a
//! file, and prints where it is after them, or answers looks at its run, or tells whether noise changes it. Of an ELF file it answers the
//! lines of a session that looks, writes the table of a sweep of alterations at steps, or certifies a run, also for each value of some bytes. `--heap-region` and `--stack-region` say where
//! heap and stack are.

mod any;
mod atomics;
mod calls;
mod certify;
mod changes;
mod controls;
mod elf;
mod errors;
mod hash;
mod heap;
mod isa;
mod leaks;
mod looks;
mod machine;
mod memory;
mod models;
mod noise;
mod outline;
#[cfg(test)]
mod profile_tests;
#[cfg(test)]
mod region_tests;
mod regions;
mod request;
mod session;
mod short;
mod stack;
mod suppressions;
mod sweep;
#[cfg(test)]
mod tests;
mod vary;
mod work;

use elf::Image;
use isa::Isa;
use looks::Run;
use machine::{Machine, Status};
use regions::Regions;
use request::Request;
use session::{LAST_STEP, Session};
use std::collections::BTreeMap;
use std::rc::Rc;
use std::time::Instant;

/// lui x5,0x10; lw x6,256(x5); addi x6,x6,1; sw x6,256(x5); mul x7,x6,x6; xor x8,x7,x6; bne x6,x0,-20
const WORDS: [u32; 7] = [0x0001_02B7, 0x1002_A303, 0x0013_0313, 0x1062_A023, 0x0263_03B3, 0x0063_C433, 0xFE03_16E3];

const PROGRAM_START: u32 = 0x0001_0000;

/// How many bytes of memory the program has.
const MEMORY: u32 = 0x2000;

/// What a program is run for.
struct Setup {
    isa: Isa,
    regions: Regions,
    /// The greatest step of a session.
    limit: u32,
}

fn main() {
    let mut words: Vec<String> = std::env::args().skip(1).collect();
    let setup = take_setup(&mut words).unwrap_or_else(|fault| {
        eprintln!("twin: {fault}");
        std::process::exit(2);
    });
    if words.first().is_some_and(|word| word == "sweep") {
        std::process::exit(sweep_of(setup, &words[1..]));
    }
    if words.first().is_some_and(|word| word == "certify" || word == "vary") {
        std::process::exit(certify(setup, &words));
    }
    let number = |at: usize| words.get(at).and_then(|word| word.parse().ok());
    let given = |at: usize| std::fs::read(&words[at]).ok();
    let no_words = || println!("twin: no such file, or one that meets a region");
    match (words.len(), number(0), number(1)) {
        (1, None, _) if words[0] == "halves" => tell_halves(),
        (3, None, Some(memory)) if words[0] == "looks" => {
            match given(2).and_then(|bytes| words_of(&setup, memory as u32, &bytes)) {
                Some(image) => look(setup.isa, &image),
                None => no_words(),
            }
        }
        (4, None, Some(steps)) if words[0] == "clean" => match (number(2), given(3)) {
            (Some(memory), Some(bytes)) => match words_of(&setup, memory as u32, &bytes) {
                Some(image) => compare_with_noise(setup.isa, steps, &image),
                None => no_words(),
            },
            _ => no_words(),
        },
        (2 | 3, None, _) if words[0] == "session" => {
            with_files(&setup, &words[1..], |image, input| hold(Session::new(setup.isa, image, input, setup.limit)));
        }
        (3 | 4, None, Some(steps)) if words[0] == "summary" => {
            with_files(&setup, &words[2..], |image, input| summarize(setup.isa, steps, image, input));
        }
        (3 | 4, None, Some(steps)) if words[0] == "streams" => {
            with_files(&setup, &words[2..], |image, input| tell_streams(setup.isa, steps, &image, input));
        }
        (3 | 4, None, Some(steps)) if words[0] == "errors" => {
            with_files(&setup, &words[2..], |image, input| tell(setup.isa, steps, &image, input));
        }
        (1, Some(steps), _) => time(setup.isa, steps),
        (3, Some(steps), Some(memory)) => match given(2).and_then(|bytes| words_of(&setup, memory as u32, &bytes)) {
            Some(image) => tell(setup.isa, steps, &image, Vec::new()),
            None => no_words(),
        },
        _ => println!(
            "usage: twin STEPS | twin STEPS MEMORY FILE | twin looks MEMORY FILE | twin clean STEPS MEMORY FILE \
             | twin session PROGRAM [INPUT] [--limit N] | twin summary STEPS PROGRAM [INPUT] | twin errors STEPS PROGRAM [INPUT] \
             | twin streams STEPS PROGRAM [INPUT] | twin halves \
             | twin certify PROGRAM .. | twin vary SEED PROGRAM [--any A..B].. [--any-memory A..B].. \
             [--reveal STEP,ADDR,LEN].. [--timing div|mul,div] [--step N] [--input F] \
             | twin sweep PROGRAM --at A..B --faults LIST [--code-range LO..HI] [--pairs skip] \
             [--step N] [--input F] [--supp F] [--with-output] [--part I/N]; each with [--isa rv32im|rv32imc|rv32imac] \
             [--heap-region BEGIN] [--stack-region A..B] [--most-moved N] [--most-output N|none]"
        ),
    }
}

/// Takes `--NAME VALUE` or `--NAME=VALUE` out of the words, wherever it is: the last one counts.
///
/// # Errors
///
/// That there is no value.
fn take(words: &mut Vec<String>, name: &str) -> Result<Option<String>, String> {
    let (option, begin, mut value) = (format!("--{name}"), format!("--{name}="), None);
    while let Some(at) = words.iter().position(|word| *word == option || word.starts_with(&begin)) {
        let word = words.remove(at);
        value = Some(match word.strip_prefix(&begin) {
            Some(text) => text.to_string(),
            None if at < words.len() => words.remove(at),
            None => return Err(format!("{option} needs a value")),
        });
    }
    Ok(value)
}

/// Takes what a program is run for out of the words.
///
/// # Errors
///
/// What is wrong with the first value at fault: that of the instruction set comes first.
fn take_setup(words: &mut Vec<String>) -> Result<Setup, String> {
    let isa = take(words, "isa")?.map_or(Some(Isa::Rv32im), |name| Isa::of(&name));
    let isa = isa.ok_or("--isa is rv32im, rv32imc or rv32imac")?;
    let [heap, stack] = regions::OPTIONS.map(|name| take(words, name));
    let [moved, output] = regions::LIMITS.map(|name| take(words, name));
    let regions = Regions::of(heap?.as_deref(), stack?.as_deref())?.limited(moved?.as_deref(), output?.as_deref())?;
    let limit = take(words, "limit")?.map_or(Some(LAST_STEP), |text| text.parse().ok());
    let limit = limit.filter(|limit| (1..1 << 31).contains(limit)).ok_or("--limit is a number from 1 to 2147483647")?;
    Ok(Setup { isa, regions, limit })
}

/// Writes the table of a sweep, and answers the exit status.
fn sweep_of(setup: Setup, words: &[String]) -> i32 {
    let out = std::io::BufWriter::new(std::io::stdout().lock());
    match Request::of(setup.isa, setup.regions, words).and_then(|request| sweep::sweep(&request, out)) {
        Ok(()) => 0,
        Err(fault) => {
            eprintln!("twin: {fault}");
            2
        }
    }
}

/// Says whether a run is clean, or the same for each value of some bytes, and answers the exit status. `vary SEED` runs it with other values
/// too.
fn certify(setup: Setup, words: &[String]) -> i32 {
    let seed = words.get(1).filter(|_| words[0] == "vary").map(|text| text.parse().unwrap_or_default());
    match certify::Request::of(setup.isa, setup.regions, &words[if seed.is_some() { 2 } else { 1 }..]) {
        Ok(request) => {
            if let Some(seed) = seed {
                print!("{}", vary::tell(&request, seed));
                return 0;
            }
            let answer = request.answer();
            print!("{}", answer.lines);
            answer.status
        }
        Err(fault) => {
            eprintln!("twin: {}", fault.text);
            fault.status
        }
    }
}

/// Gives a program and an input, which is empty without a file, to something.
fn with_files(setup: &Setup, names: &[String], act: impl FnOnce(Image, Vec<u8>)) {
    match files(setup, names) {
        Some((image, input)) => act(image, input),
        None => println!("twin: no such file, or no program"),
    }
}

fn files(setup: &Setup, names: &[String]) -> Option<(Image, Vec<u8>)> {
    let image = Image::of(&std::fs::read(&names[0]).ok()?, setup.regions.clone())?;
    let input = names.get(1).map_or(Ok(Vec::new()), std::fs::read).ok()?;
    Some((image, input))
}

/// Answers each line of standard input, one after another.
fn hold(mut session: Session) {
    for line in std::io::stdin().lines().map_while(Result::ok) {
        println!("{}", session.reply(&line));
    }
}

/// Makes so many steps of the loop, and prints what each took.
fn time(isa: Isa, steps: u64) {
    let mut machine = Machine::start(isa, PROGRAM_START, &WORDS, MEMORY);
    let began = Instant::now();
    let made = make(&mut machine, steps);
    let each = began.elapsed().as_secs_f64() * 1e9 / made.max(1) as f64;
    println!("step: {made} calls, {each:.1} ns each");
    println!("after {made} steps: pc {:#010x}, x8 {:#010x}", machine.pc, machine.registers[8].value);
}

/// Makes so many steps, or those to the program's end, and answers how many.
fn make(machine: &mut Machine, steps: u64) -> u64 {
    let mut made = 0;
    while made < steps && machine.status == Status::Running {
        machine.step();
        made += 1;
    }
    made
}

/// Runs a program for a number of steps, and prints the state, and each error: its instruction, its count, its first address or `-`, and
/// its text.
fn tell(isa: Isa, steps: u64, image: &Image, input: Vec<u8>) {
    let mut machine = Machine::of(isa, image, &BTreeMap::new(), input.into());
    make(&mut machine, steps);
    println!("{:?} {:#010x}", machine.status, machine.pc);
    for ((kind, pc), (count, address)) in machine.errors.by_place() {
        let address = address.map_or("-".to_string(), |address| format!("{address:#010x}"));
        println!("{pc:#010x} {count} {address} {}", kind.text());
    }
}

/// Runs a program for a number of steps, and prints the state, how much it has read and written, and of each descriptor how many bytes, and
/// their sum.
fn tell_streams(isa: Isa, steps: u64, image: &Image, input: Vec<u8>) {
    let mut machine = Machine::of(isa, image, &BTreeMap::new(), input.into());
    machine.said = Some([Vec::new(), Vec::new()]);
    make(&mut machine, steps);
    println!("{:?} {:#010x} {} {}", machine.status, machine.pc, machine.position, machine.output);
    for said in machine.said.iter().flatten() {
        println!("{} {}", said.len(), hash::sha256(said));
    }
}

/// Prints for each half the word that it stands for, or `none`.
fn tell_halves() {
    for half in 0..=u32::from(u16::MAX) {
        println!("{}", short::expand(half).map_or("none".to_string(), |word| format!("{word:#010x}")));
    }
}

/// Makes a number of steps of a program, and prints how it ended, and its errors and leaks without addresses.
fn summarize(isa: Isa, steps: u64, image: Image, input: Vec<u8>) {
    let mut machine = Machine::of(isa, &image, &BTreeMap::new(), input.into());
    make(&mut machine, steps);
    print!("{}", outline::summary(&image, &machine));
}

/// The steps at which runs with noise are compared with the one without, beside the last clean one.
const COMPARED: [u64; 6] = [3, 10, 30, 100, 400, 2000];
const SEEDS: [u64; 3] = [1, 77, 0xDEAD_BEEF];

/// Prints up to which step such a program is clean; whether its run is the same under noise at that step and at some before it, with how
/// many errors; and the same of its whole run, where that has a use.
fn compare_with_noise(isa: Isa, steps: u64, image: &Image) {
    let start = || Machine::of(isa, image, &BTreeMap::new(), Rc::default());
    let told = |steps| {
        let (is_same, errors) = noise::is_same(&start, steps, &SEEDS);
        format!("{} {errors}", if is_same { "same" } else { "differs" })
    };
    let (clean, first_use) = noise::clean_steps(&start, steps);
    for step in COMPARED.into_iter().filter(|step| *step < clean).chain([clean]) {
        println!("clean {step} {}", told(step));
    }
    if let Some(kind) = first_use {
        let kind = format!("{kind:?}");
        println!("use {} {}", kind.split('(').next().unwrap_or_default(), told(steps));
    }
}

/// The program whose words are the bytes of a file, in a number of bytes of memory.
fn words_of(setup: &Setup, memory: u32, bytes: &[u8]) -> Option<Image> {
    let words: Vec<u32> = bytes.as_chunks().0.iter().map(|word| u32::from_le_bytes(*word)).collect();
    Image::of_words(PROGRAM_START, &words, memory, setup.regions.clone())
}

/// Answers each line of standard input that looks at the run of such a program.
fn look(isa: Isa, image: &Image) {
    let run = Run { start: &|| Machine::of(isa, image, &BTreeMap::new(), Rc::default()), changes: BTreeMap::new() };
    for line in std::io::stdin().lines().map_while(Result::ok) {
        println!("{}", looks::answer(&run, &line).unwrap_or("no look".to_string()));
    }
}
