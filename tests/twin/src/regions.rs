//! Where the heap and the stack of a machine are: in the usual places, or where `--heap-region` and `--stack-region` put them. And how many
//! bytes its calls move: as usual, or as `--most-moved` and `--most-output` say.

use std::ops::Range;

const HEAP_LEN: u64 = 0x2000_0000;
/// Each multiple of this, but the first and the last two, may be the heap's begin.
const HEAP_UNIT: u64 = 0x1000_0000;
const STACK_UNIT: u64 = 4096;
const LEAST_STACK: u64 = 65_536;
const ADDRESSES: u64 = 1 << 32;

const USUAL_HEAP: u64 = 0x4000_0000;
const USUAL_STACK: Range<u64> = 0x7F00_0000..0x8000_0000;

/// The options by which they are said, without `--`.
pub const OPTIONS: [&str; 2] = ["heap-region", "stack-region"];
pub const LIMITS: [&str; 2] = ["most-moved", "most-output"];

/// The most bytes that one call moves, and that a program writes in all.
#[derive(Clone, Copy, Debug, PartialEq, Eq)]
pub struct Limits {
    pub moved: u32,
    pub output: u64,
}

const USUAL_LIMITS: Limits = Limits { moved: 4096, output: 65_536 };
const MOST_MOVED: u64 = 0x7FFF_F000;

/// The addresses of each, none of one of which is of the other, and the limits of calls.
#[derive(Clone, Debug, PartialEq, Eq)]
pub struct Regions {
    pub heap: Range<u64>,
    pub stack: Range<u64>,
    pub limits: Limits,
}

impl Default for Regions {
    fn default() -> Regions {
        Regions { heap: heap_from(USUAL_HEAP), stack: USUAL_STACK, limits: USUAL_LIMITS }
    }
}

fn heap_from(begin: u64) -> Range<u64> {
    begin..begin + HEAP_LEN
}

/// Whether two ranges have an address in common.
pub fn meet(one: &Range<u64>, other: &Range<u64>) -> bool {
    one.start.max(other.start) < one.end.min(other.end)
}

/// A number below 2^32, as lines of a session have it.
fn number(text: &str) -> Option<u64> {
    let (digits, base, most) = text.strip_prefix("0x").map_or((text, 10, 10), |digits| (digits, 16, 8));
    let is_number = (1..=most).contains(&digits.len()) && digits.chars().all(|it| it.is_digit(base));
    u64::from_str_radix(digits, base).ok().filter(|it| is_number && *it < ADDRESSES)
}

fn heap_of(text: &str) -> Option<Range<u64>> {
    let begin = number(text)?;
    let is_right = begin % HEAP_UNIT == 0 && begin >= HEAP_UNIT && begin + HEAP_LEN + HEAP_UNIT <= ADDRESSES;
    is_right.then(|| heap_from(begin))
}

fn stack_of(text: &str) -> Option<Range<u64>> {
    let (begin, end) = text.split_once("..")?;
    let (begin, end) = (number(begin)?, number(end)?);
    let is_right = begin % STACK_UNIT == 0 && end % STACK_UNIT == 0 && end >= begin + LEAST_STACK;
    is_right.then_some(begin..end)
}

impl Regions {
    /// The regions that the values of the two options say, where they are given.
    ///
    /// # Errors
    ///
    /// The line on the first value at fault, or on regions that meet.
    pub fn of(heap: Option<&str>, stack: Option<&str>) -> Result<Regions, String> {
        let mut regions = Regions::default();
        if let Some(text) = heap {
            regions.heap = heap_of(text)
                .ok_or(format!("not a multiple of 0x10000000 from 0x10000000 to 0xd0000000: --heap-region {text}"))?;
        }
        if let Some(text) = stack {
            regions.stack =
                stack_of(text).ok_or(format!("not A..B, multiples of 4096 at least 65536 apart: --stack-region {text}"))?;
        }
        if meet(&regions.heap, &regions.stack) {
            let given = [heap.unwrap_or("0x40000000"), stack.unwrap_or("0x7f000000..0x80000000")];
            let named = OPTIONS.iter().zip(given).map(|(name, text)| format!(" --{name} {text}"));
            return Err(format!("heap region and stack region overlap:{}", named.collect::<String>()));
        }
        Ok(regions)
    }

    /// The same with limits, by the values of their options.
    ///
    /// # Errors
    ///
    /// The line on the first value at fault.
    pub fn limited(mut self, moved: Option<&str>, output: Option<&str>) -> Result<Regions, String> {
        if let Some(text) = moved {
            let found = number(text).filter(|it| (1..=MOST_MOVED).contains(it));
            self.limits.moved = found.ok_or(format!("not a number from 1 to 2147479552: --most-moved {text}"))? as u32;
        }
        if let Some(text) = output {
            let found = if text == "none" { Some(u64::MAX) } else { number(text) };
            let fault = format!("not a number up to 4294967295, and not none: --most-output {text}");
            self.limits.output = found.ok_or(fault)?;
        }
        Ok(self)
    }

    /// The lines that the head of a table has for those that aren't the usual ones.
    pub fn lines(&self) -> String {
        let usual = Regions::default();
        let (heap, stack) = (&self.heap, &self.stack);
        let heap = if *heap == usual.heap { String::new() } else { format!("heap-region {:#010x}\n", heap.start) };
        let stack = if *stack == usual.stack {
            String::new()
        } else {
            format!("stack-region {:#010x}..{:#010x}\n", stack.start, stack.end)
        };
        let moved = if self.limits.moved == USUAL_LIMITS.moved {
            String::new()
        } else {
            format!("most-moved {}\n", self.limits.moved)
        };
        let output = match self.limits.output {
            number if number == USUAL_LIMITS.output => String::new(),
            u64::MAX => "most-output none\n".to_string(),
            number => format!("most-output {number}\n"),
        };
        heap + &stack + &moved + &output
    }

    /// Whether the stack may be inside of a segment.
    pub fn may_be_inside(&self) -> bool {
        self.stack != USUAL_STACK
    }

    /// The first address that the stack pointer has, and its end.
    pub fn stack_bounds(&self) -> (u32, u32) {
        (self.stack.start as u32, self.stack.end as u32)
    }
}
