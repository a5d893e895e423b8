//! The command line of `certify`, also with bytes that are any, and what it answers.

use crate::any::{Asked, Reveal, Timing, Verdict};
use crate::elf::Image;
use crate::isa::Isa;
use crate::machine::Machine;
use crate::regions::Regions;
use std::collections::BTreeMap;

const DEFAULT_STEP: u32 = 4_194_304;
const LAST_STEP: u32 = 2_147_483_647;
/// How often an option may be given that may be repeated.
const MOST: usize = 64;
/// The statuses of a run that isn't clean or goes on, of words and of what files refuse.
const NO: i32 = 5;
const BAD_WORDS: i32 = 2;
const REFUSED: i32 = 3;

const ONCE: [&str; 3] = ["--input", "--step", "--timing"];
const REPEATED: [&str; 3] = ["--any", "--any-memory", "--reveal"];

pub struct Fault {
    pub status: i32,
    pub text: String,
}

fn bad(text: String) -> Fault {
    Fault { status: BAD_WORDS, text }
}

fn refused(text: String) -> Fault {
    Fault { status: REFUSED, text }
}

/// The file and the values of each option, in their order.
struct Words {
    file: String,
    options: Vec<(&'static str, String)>,
}

impl Words {
    fn of(words: &[String]) -> Result<Words, Fault> {
        let (mut file, mut options) = (None, Vec::new());
        let mut words = words.iter();
        while let Some(word) = words.next() {
            if !word.starts_with("--") {
                if file.replace(word.clone()).is_some() {
                    return Err(bad(format!("another file: {word}")));
                }
                continue;
            }
            let (name, value) = word.split_once('=').map_or((&word[..], None), |(name, value)| (name, Some(value.to_string())));
            let name =
                ONCE.iter().chain(&REPEATED).find(|it| **it == name).ok_or(bad(format!("unexpected argument '{name}'")))?;
            let value = value.or_else(|| words.next().cloned()).ok_or(bad(format!("{name} needs a value")))?;
            let most = if ONCE.contains(name) { 1 } else { MOST };
            options.push((*name, value));
            if options.iter().filter(|it| it.0 == *name).count() > most {
                return Err(bad(format!("{name} is given more than {most} times")));
            }
        }
        Ok(Words { file: file.ok_or(bad("there is no FILE".to_string()))?, options })
    }

    fn last(&self, name: &str) -> Option<&str> {
        self.options.iter().rfind(|it| it.0 == name).map(|it| &it.1[..])
    }

    /// What each value of an option says.
    fn each<T>(&self, name: &str, what: &str, read: impl Fn(&str) -> Option<T>) -> Result<Vec<T>, Fault> {
        let values = self.options.iter().filter(|it| it.0 == name);
        values.map(|(_, text)| read(text).ok_or(bad(format!("{what}: {name} {text}")))).collect()
    }
}

fn read_file(path: &str) -> Result<Vec<u8>, Fault> {
    std::fs::read(path).map_err(|fault| Fault { status: 1, text: format!("cannot read {path}: {fault}") })
}

/// A number below 2^32, as lines of a session have it.
fn number(text: &str) -> Option<u32> {
    let (digits, base, most) = text.strip_prefix("0x").map_or((text, 10, 10), |digits| (digits, 16, 8));
    let is_number = (1..=most).contains(&digits.len()) && digits.chars().all(|it| it.is_digit(base));
    u32::from_str_radix(digits, base).ok().filter(|_| is_number)
}

/// `A`, `A..B` or `A..`, of an input with a last position.
fn positions(text: &str, last: Option<u32>) -> Option<(u32, u32)> {
    let (first, last) = match text.split_once("..") {
        None => (number(text)?, number(text)?),
        Some((first, "")) => (number(first)?, last.unwrap_or(number(first)?)),
        Some((first, last)) => (number(first)?, number(last)?),
    };
    (first <= last).then_some((first, last))
}

/// `A..B`, B left out: the first and the last address.
fn addresses(text: &str) -> Option<(u32, u32)> {
    let (first, end) = text.split_once("..")?;
    let (first, end) = (number(first)?, number(end)?);
    (first < end).then(|| (first, end - 1))
}

fn reveal(text: &str) -> Option<Reveal> {
    let fields: Vec<u32> = text.split(',').map(number).collect::<Option<_>>()?;
    let [step, start, len] = fields[..] else { return None };
    let is_right = step <= LAST_STEP && len > 0 && u64::from(start) + u64::from(len) <= 1 << 32;
    is_right.then_some(Reveal { step, start, len })
}

fn timing(text: &str) -> Option<Timing> {
    let names: Vec<&str> = text.split(',').collect();
    let is_list = names.iter().enumerate().all(|(i, name)| matches!(*name, "div" | "mul") && !names[..i].contains(name));
    is_list.then(|| Timing { divisions: names.contains(&"div"), products: names.contains(&"mul") })
}

/// Tests that no place is in two ranges.
fn apart(name: &str, ranges: &[(u32, u32)], text: impl Fn(&(u32, u32)) -> String) -> Result<(), Fault> {
    for (i, one) in ranges.iter().enumerate() {
        if let Some(other) = ranges[..i].iter().find(|it| it.0 <= one.1 && one.0 <= it.1) {
            return Err(bad(format!("{name} {} and {name} {} overlap", text(other), text(one))));
        }
    }
    Ok(())
}

fn of_input(it: &(u32, u32)) -> String {
    if it.0 == it.1 { it.0.to_string() } else { format!("{}..{}", it.0, it.1) }
}

fn of_memory(it: &(u32, u32)) -> String {
    format!("{:#010x}..{:#010x}", it.0, u64::from(it.1) + 1)
}

/// What is any, by the words.
fn asked(words: &Words, input: &[u8]) -> Result<Asked, Fault> {
    let last = (input.len() as u32).checked_sub(1);
    let asked = Asked {
        input: words.each("--any", "no range", |text| positions(text, last))?,
        memory: words.each("--any-memory", "not A..B", addresses)?,
        reveals: words.each("--reveal", "not STEP,ADDR,LEN", reveal)?,
        timing: words.each("--timing", "not div, mul or both", timing)?.pop().unwrap_or_default(),
    };
    for name in ["--reveal", "--timing"] {
        if words.last(name).is_some() && !asked.has_any() {
            return Err(bad(format!("{name} needs --any or --any-memory")));
        }
    }
    apart("--any", &asked.input, of_input)?;
    apart("--any-memory", &asked.memory, of_memory)?;
    if asked.input.iter().any(|it| it.1 as usize >= input.len()) {
        return Err(refused("bytes refused 3".to_string()));
    }
    Ok(asked)
}

/// A command line: a program with its input, what is any, and the step, if it was given.
pub struct Request {
    pub isa: Isa,
    pub image: Image,
    pub input: Vec<u8>,
    pub asked: Asked,
    given: Option<u32>,
}

/// What is said of a run: the lines, the exit status, and the verdict of the run that they are about.
pub struct Answer {
    pub lines: String,
    pub status: i32,
    pub verdict: Verdict,
    /// Whether the run without bytes that are any is clean.
    pub is_clean: bool,
}

impl Request {
    /// Reads the words after `certify`, without those of instruction set and regions, and the files that they name.
    ///
    /// # Errors
    ///
    /// What is wrong with the first word or file at fault, and the exit status for it.
    pub fn of(isa: Isa, regions: Regions, words: &[String]) -> Result<Request, Fault> {
        let words = Words::of(words)?;
        let step = |text: &str| number(text).filter(|step| *step <= LAST_STEP).ok_or(bad(format!("no step: --step {text}")));
        let given = words.last("--step").map(step).transpose()?;
        let no_image = || refused("no program, or one that meets a region".to_string());
        let image = Image::of(&read_file(&words.file)?, regions).ok_or_else(no_image)?;
        let input = words.last("--input").map_or(Ok(Vec::new()), read_file)?;
        let asked = asked(&words, &input)?;
        Ok(Request { isa, image, input, asked, given })
    }

    pub fn steps(&self) -> u64 {
        self.given.unwrap_or(DEFAULT_STEP).into()
    }

    /// The machine before its first step, with some bytes of memory and an input.
    pub fn start(&self, patches: &BTreeMap<u32, u8>, input: &[u8]) -> Machine {
        Machine::of(self.isa, &self.image, patches, input.into())
    }

    /// Asks the run without bytes that are any, and then the one with them.
    pub fn answer(&self) -> Answer {
        let (plain, steps) = (Asked::default(), self.steps());
        let start = || self.start(&BTreeMap::new(), &self.input);
        let verdict = plain.run(&mut start(), steps);
        let is_clean = verdict.no.is_none();
        let (asked, verdict) =
            if is_clean && self.asked.has_any() { (&self.asked, self.asked.run(&mut start(), steps)) } else { (&plain, verdict) };
        let is_right = verdict.no.is_none() && (verdict.has_ended || self.given.is_some());
        let lines = asked.lines(&self.image, steps, &verdict);
        Answer { lines, status: if is_right { 0 } else { NO }, verdict, is_clean }
    }
}
