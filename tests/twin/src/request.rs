//! The command line of a sweep of alterations at steps, and its files.

use crate::isa::Isa;
use crate::models::{MODELS, Model};
use crate::regions::Regions;

const LAST_STEP: u32 = 2_147_483_647;
const DEFAULT_STEP: u32 = 1_048_576;
const MOST_PARTS: u64 = 1_000_000;

pub struct Request {
    pub isa: Isa,
    pub regions: Regions,
    pub program: Vec<u8>,
    pub input: Vec<u8>,
    pub suppressions: Vec<u8>,
    /// The first and the last step.
    pub at: (u32, u32),
    /// The models as they were given, and in their order.
    pub faults: String,
    pub models: Vec<Model>,
    /// The first and the last pc.
    pub code: Option<(u32, u32)>,
    pub pairs: bool,
    pub step: u32,
    pub with_output: bool,
    pub part: (u64, u64),
}

/// The value of each option that is given; options without one have an empty value.
struct Words {
    file: Option<String>,
    options: Vec<(String, String)>,
}

impl Words {
    fn of(words: &[String]) -> Result<Words, String> {
        let (mut file, mut options) = (None, Vec::new());
        let mut words = words.iter();
        while let Some(word) = words.next() {
            if !word.starts_with("--") {
                file = Some(word.clone());
                continue;
            }
            let (name, value) = match word.split_once('=') {
                Some((name, value)) => (name, value.to_string()),
                None if word == "--with-output" => (&word[..], String::new()),
                None => (&word[..], words.next().cloned().ok_or(format!("{word} needs a value"))?),
            };
            let known = ["--at", "--faults", "--code-range", "--pairs", "--step", "--input", "--supp", "--with-output", "--part"];
            if !known.contains(&name) {
                return Err(format!("no such option: {name}"));
            }
            options.push((name.to_string(), value));
        }
        Ok(Words { file, options })
    }

    fn get(&self, name: &str) -> Option<&str> {
        self.options.iter().rfind(|it| it.0 == name).map(|it| &it.1[..])
    }

    fn file(&self, name: &str) -> Result<Vec<u8>, String> {
        self.get(name).map_or(Ok(Vec::new()), read)
    }
}

fn read(path: &str) -> Result<Vec<u8>, String> {
    std::fs::read(path).map_err(|fault| format!("cannot read {path}: {fault}"))
}

fn number(text: &str) -> Option<u32> {
    match text.strip_prefix("0x") {
        Some(digits) => u32::from_str_radix(digits, 16).ok(),
        None => text.parse().ok(),
    }
}

/// `A`, `A..B` or, where there is a last number, `A..`.
fn range(text: &str, last: Option<u32>) -> Option<(u32, u32)> {
    let (first, end) = match text.split_once("..") {
        None => (number(text)?, number(text)?),
        Some((first, "")) => (number(first)?, last?),
        Some((first, end)) => (number(first)?, number(end)?),
    };
    (first <= end).then_some((first, end))
}

fn part(text: &str) -> Option<(u64, u64)> {
    let (index, count) = text.split_once('/')?;
    let (index, count) = (index.parse().ok()?, count.parse().ok()?);
    (1 <= index && index <= count && count <= MOST_PARTS).then_some((index, count))
}

/// The models of a list, none twice, in the order of all.
fn models(text: &str) -> Option<Vec<Model>> {
    let names: Vec<&str> = text.split(',').collect();
    let is_new = |(i, name): (usize, &&str)| !names[..i].contains(name) && MODELS.iter().any(|it| it.0 == *name);
    let known = names.iter().enumerate().all(is_new);
    known.then(|| MODELS.iter().filter(|it| names.contains(&it.0)).map(|it| it.1).collect())
}

impl Request {
    /// Reads the words of a command line after `sweep`, without those of instruction set and regions, and the files that they name.
    ///
    /// # Errors
    ///
    /// What is wrong with the first word or file at fault.
    pub fn of(isa: Isa, regions: Regions, words: &[String]) -> Result<Request, String> {
        let words = Words::of(words)?;
        let step = words.get("--step").map_or(Some(DEFAULT_STEP), number);
        let step = step.filter(|step| *step <= LAST_STEP).ok_or("no such step")?;
        let at = words.get("--at").ok_or("--at is needed")?;
        let at = range(at, step.checked_sub(1)).ok_or("no range: --at")?;
        if at.1 >= step {
            return Err("a step is beyond --step: --at".to_string());
        }
        let faults = words.get("--faults").ok_or("--faults is needed")?.to_string();
        let code = words.get("--code-range").map(|text| range(text, None).ok_or("no range: --code-range")).transpose()?;
        let pairs = words.get("--pairs").map(|text| if text == "skip" { Ok(()) } else { Err("no such pairs") }).transpose()?;
        Ok(Request {
            isa,
            regions,
            program: read(words.file.as_deref().ok_or("no program")?)?,
            input: words.file("--input")?,
            suppressions: words.file("--supp")?,
            at,
            models: models(&faults).ok_or("no such model: --faults")?,
            faults,
            code,
            pairs: pairs.is_some(),
            step,
            with_output: words.get("--with-output").is_some(),
            part: words.get("--part").map_or(Some((1, 1)), part).ok_or("no part: --part")?,
        })
    }
}
