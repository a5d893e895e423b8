//! Lines as `replaycheck look` takes them, and its replies: those that choose a step and look, patches, and changes at a step. Each look
//! goes through the run from its start.

use crate::changes::{Change, Place};
use crate::elf::Image;
use crate::isa::{HALF, Isa, WORD};
use crate::looks::{self, Run};
use crate::machine::{Bits, Machine};
use crate::memory::RangeKind;
use crate::work::Work;
use std::collections::BTreeMap;
use std::rc::Rc;

/// The greatest step of a session without another limit.
pub const LAST_STEP: u32 = 4_194_304;
const MOST_CHANGES: usize = 4096;
const LONGEST_MARK: u32 = 1_048_576;
const LONGEST_VIEW: u32 = 4096;

/// The numbers of refusals.
const BAD_LINE: u32 = 2;
const NO_BYTE: u32 = 3;
const NO_WORD: u32 = 4;
const BAD_STEP: u32 = 5;
const BAD_RANGE: u32 = 6;
const NO_MARK: u32 = 7;
const TOO_MANY: u32 = 10;

/// What the twin says where the program would report what the twin doesn't have: nothing that the program says.
const UNKNOWN: &str = "the twin doesn't know";

pub struct Session {
    isa: Isa,
    image: Image,
    input: Rc<[u8]>,
    /// The bytes that patches change.
    patches: BTreeMap<u32, u8>,
    /// In the order of their lines, each with its step.
    changes: Vec<(u32, Change)>,
    step: u32,
    /// The greatest step.
    limit: u32,
    work: Work,
}

impl Session {
    pub fn new(isa: Isa, image: Image, input: Vec<u8>, limit: u32) -> Session {
        let (patches, changes) = (BTreeMap::new(), Vec::new());
        Session { isa, image, input: input.into(), patches, changes, step: 0, limit, work: Work::new(limit) }
    }

    /// Returns the reply to a line.
    pub fn reply(&mut self, line: &str) -> String {
        let fields: Vec<&str> = line.split(' ').collect();
        self.answer(&fields).unwrap_or_else(|number| format!("refused {number}"))
    }

    /// Returns the reply to the fields of a line.
    ///
    /// # Errors
    ///
    /// The number of the refusal.
    fn answer(&mut self, fields: &[&str]) -> Result<String, u32> {
        match fields {
            ["look", look @ ..] => return self.look(look),
            ["report"] => return Ok(self.report()),
            ["worked"] if self.isa.unit() == WORD => return Ok(format!("worked {}", self.work.made())),
            ["worked"] | ["input", "append" | "cut", ..] | ["option" | "supp", _, ..] => return Ok(UNKNOWN.to_string()),
            ["goto", step] => self.step = step_of(number(step)?, self.limit)?,
            ["input", offset, byte] => {
                let (offset, byte) = (number(offset)?, number(byte)?);
                self.overwrite(offset, u8::try_from(byte).map_err(|_| BAD_LINE)?)?;
            }
            ["patch", addr, word] => {
                self.patch(number(addr)?, number(word)?, WORD)?;
            }
            ["patch16", addr, half] if self.isa.unit() == HALF => {
                let (addr, half) = (number(addr)?, number(half)?);
                require(half < 1 << 16, BAD_LINE)?;
                self.patch(addr, half, HALF)?;
            }
            ["unmark", place] => {
                let place = number(place)? as usize;
                require(place < self.changes.len(), NO_MARK)?;
                let (step, _) = self.changes.remove(place);
                self.work.keep(step.into());
            }
            _ => {
                let change = change_of(fields, self.limit)?;
                require(self.changes.len() < MOST_CHANGES, TOO_MANY)?;
                self.changes.push(change);
                self.work.keep(change.0.into());
            }
        }
        Ok("ok".to_string())
    }

    /// Puts the lowest bytes of a number at an address at which an instruction can be, over earlier patches there.
    fn patch(&mut self, addr: u32, value: u32, len: u32) -> Result<(), u32> {
        require(addr % self.isa.unit() == 0 && self.image.has_bytes(addr, len), NO_WORD)?;
        let is_changed = self.changes.iter().any(|(_, change)| change.writes_in(addr, len));
        let shown = if is_changed { Some(0) } else { self.with_run(|run| run.first_use((addr, len), self.work.last())) };
        self.work.keep(shown.unwrap_or(self.work.last()));
        self.patches.extend((addr..=addr + (len - 1)).zip(value.to_le_bytes()));
        Ok(())
    }

    /// Gives the input another byte.
    fn overwrite(&mut self, offset: u32, byte: u8) -> Result<(), u32> {
        require((offset as usize) < self.input.len(), NO_BYTE)?;
        let shown = self.with_run(|run| run.first_read(offset, self.work.last()));
        self.work.keep(shown.unwrap_or(self.work.last()));
        let mut input = self.input.to_vec();
        input[offset as usize] = byte;
        self.input = input.into();
        Ok(())
    }

    fn look(&mut self, fields: &[&str]) -> Result<String, u32> {
        match fields {
            ["registers" | "controls" | "stack"] => {}
            ["blocks", start] => {
                number(start)?;
            }
            ["calls", first, end] => {
                let (first, end) = (number(first)?, number(end)?);
                step_of(first, self.limit)?;
                step_of(end, self.limit)?;
            }
            ["memory" | "sides", start, len] => {
                let (start, len) = (number(start)?, number(len)?);
                require(is_range(start, len) && len <= LONGEST_VIEW, BAD_RANGE)?;
            }
            ["next" | "last", kind @ ("run" | "read" | "write" | "shadow" | "error"), start, len, bound] => {
                let (start, len, bound) = (number(start)?, number(len)?, number(bound)?);
                step_of(bound, self.limit)?;
                require(is_range(start, len) && (*kind != "shadow" || len <= LONGEST_VIEW), BAD_RANGE)?;
            }
            ["input" | "certify"] | ["output", _, _] => return Ok(UNKNOWN.to_string()),
            _ => return Err(BAD_LINE),
        }
        match fields {
            ["sides", ..] => {}
            ["calls", _, end] => self.work.show(self.step.min(number(end)?).into()),
            _ => self.work.show(self.step.into()),
        }
        self.with_run(|run| looks::look(run, self.step.into(), fields)).ok_or(BAD_LINE)
    }

    /// The report, if the run has no error by then: of an error the twin has neither a trace nor a place's name.
    fn report(&mut self) -> String {
        self.work.show(self.step.into());
        let machine = self.with_run(|run| run.at(self.step.into()));
        if !machine.errors.is_empty() {
            return UNKNOWN.to_string();
        }
        let read = format!("input {} of {}", machine.position, self.input.len());
        let head = format!("step {}\n{}\n{read}\noutput {}", self.step, looks::state(&machine), machine.output);
        let lost = ["definitely lost", "indirectly lost", "possibly lost", "still reachable", "suppressed"];
        let lost = lost.map(|kind| format!("{kind}: 0 bytes in 0 blocks\n")).concat();
        format!("{head}\n{lost}ERROR SUMMARY: 0 errors from 0 contexts (suppressed: 0 from 0)")
    }

    /// Gives the run, with all patches and changes, to something that looks at it.
    fn with_run<T>(&self, look: impl Fn(&Run) -> T) -> T {
        let mut changes: BTreeMap<u64, Vec<Change>> = BTreeMap::new();
        for (step, change) in &self.changes {
            changes.entry(u64::from(*step)).or_default().push(*change);
        }
        look(&Run { start: &|| Machine::of(self.isa, &self.image, &self.patches, self.input.clone()), changes })
    }
}

fn require(holds: bool, refusal: u32) -> Result<(), u32> {
    if holds { Ok(()) } else { Err(refusal) }
}

/// One to ten decimal digits, or `0x` and one to eight hexadecimal ones, of a number below 2^32.
fn number(field: &str) -> Result<u32, u32> {
    let (digits, base, most) = field.strip_prefix("0x").map_or((field, 10, 10), |digits| (digits, 16, 8));
    require((1..=most).contains(&digits.len()) && digits.chars().all(|it| it.is_digit(base)), BAD_LINE)?;
    u32::from_str_radix(digits, base).map_err(|_| BAD_LINE)
}

fn step_of(step: u32, limit: u32) -> Result<u32, u32> {
    require(step <= limit, BAD_STEP)?;
    Ok(step)
}

/// Whether a range has a byte and ends at 2^32 or below.
fn is_range(start: u32, len: u32) -> bool {
    len > 0 && u64::from(start) + u64::from(len) <= 1 << 32
}

/// `x1` to `x31`, or `pc`.
fn place(field: &str) -> Result<Place, u32> {
    if field == "pc" {
        return Ok(Place::Pc);
    }
    let named = (1..32).find(|r| field == format!("x{r}"));
    named.map(Place::Register).ok_or(BAD_LINE)
}

fn kind(field: &str) -> Result<RangeKind, u32> {
    match field {
        "noaccess" => Ok(RangeKind::NoAccess),
        "undefined" => Ok(RangeKind::Undefined),
        "defined" => Ok(RangeKind::Defined),
        _ => Err(BAD_LINE),
    }
}

/// The step and the change that a line asks for. A bad field is refused first, then a step, then a range or a value.
fn change_of(fields: &[&str], limit: u32) -> Result<(u32, Change), u32> {
    let (step, change, is_right) = match *fields {
        ["mark", step, start, len, how] => {
            let (step, start, len) = (number(step)?, number(start)?, number(len)?);
            let is_right = is_range(start, len) && len <= LONGEST_MARK;
            (step, Change::Mark { start, len, kind: kind(how)? }, is_right)
        }
        ["set", step, to, value] => {
            (number(step)?, Change::Set { place: place(to)?, bits: Bits { value: number(value)?, undef: 0 } }, true)
        }
        ["set", step, to, value, undef] if to != "pc" => {
            (number(step)?, Change::Set { place: place(to)?, bits: Bits { value: number(value)?, undef: number(undef)? } }, true)
        }
        ["flip", step, to, mask] => {
            let (step, mask) = (number(step)?, number(mask)?);
            match place(to) {
                Ok(place) => (step, Change::Flip { place, mask }, true),
                Err(_) => {
                    let start = number(to)?;
                    (step, Change::FlipBytes { start, mask }, is_range(start, 4))
                }
            }
        }
        ["write", step, start, len, value] => {
            let (step, start, len, value) = (number(step)?, number(start)?, number(len)?, number(value)?);
            let is_right = matches!(len, 1 | 2 | 4) && is_range(start, len) && u64::from(value) < 1 << (8 * len);
            (step, Change::Write { start, len, value }, is_right)
        }
        ["skip", step] => (number(step)?, Change::Skip, true),
        _ => return Err(BAD_LINE),
    };
    step_of(step, limit)?;
    require(is_right, BAD_RANGE)?;
    Ok((step, change))
}
