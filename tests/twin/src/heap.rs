//! The blocks of the heap, and the functions by which a program asks for them (ISO/IEC 9899, 7.22.3; Memcheck manual, section 4.3, for
//! the queue of freed blocks). Each block is at its lowest place.

use crate::elf::Image;
use std::collections::BTreeMap;
use std::ops::Range;
use std::rc::Rc;

const STEP: u64 = 16;
const GREATEST: u64 = 16_777_216;
/// The bytes before and after each block, and those of freed blocks in all, which are the program's defaults.
pub const REDZONE: u32 = 16;
const VOLUME: u64 = 20_000_000;

#[derive(Clone, Copy, Debug, PartialEq, Eq)]
pub enum Function {
    Malloc,
    Free,
    Calloc,
    Realloc,
}

impl Function {
    pub fn named(name: &[u8]) -> Option<Function> {
        match name {
            b"malloc" => Some(Function::Malloc),
            b"free" => Some(Function::Free),
            b"calloc" => Some(Function::Calloc),
            b"realloc" => Some(Function::Realloc),
            _ => None,
        }
    }

    /// What its parameters are called.
    pub fn parameters(self) -> &'static [&'static str] {
        match self {
            Function::Malloc => &["malloc(size)"],
            Function::Free => &["free(p)"],
            Function::Calloc => &["calloc(nmemb)", "calloc(size)"],
            Function::Realloc => &["realloc(p)", "realloc(size)"],
        }
    }
}

#[derive(Clone, Debug)]
pub struct Block {
    pub start: u32,
    pub size: u32,
    /// Where it was allocated.
    pub trace: Vec<u32>,
    /// Where it was freed, if it was.
    pub freed: Option<Vec<u32>>,
}

impl Block {
    /// Its interval: its bytes, or one byte if it has none, and the red zones.
    fn interval(&self) -> (u64, u64) {
        interval(self.start.into(), self.size.into())
    }
}

fn interval(start: u64, size: u64) -> (u64, u64) {
    (start - u64::from(REDZONE), start + size.max(1) + u64::from(REDZONE))
}

#[derive(Clone)]
pub struct Heap {
    pub live: BTreeMap<u32, Block>,
    /// Freed blocks that keep their places, the oldest first.
    queue: Vec<Block>,
    /// The functions that are called by name, and where they begin.
    functions: Rc<[(u32, Function)]>,
    region: Range<u64>,
}

impl Heap {
    pub fn of(image: &Image) -> Heap {
        let mut functions = BTreeMap::new();
        for it in &image.functions {
            if let Some(function) = Function::named(&it.name) {
                functions.entry(it.start).or_insert(function);
            }
        }
        let (functions, region) = (functions.into_iter().collect(), image.regions.heap.clone());
        Heap { live: BTreeMap::new(), queue: Vec::new(), functions, region }
    }

    /// The function of the heap that begins at an address.
    #[inline(always)]
    pub fn function_at(&self, pc: u32) -> Option<Function> {
        self.functions.iter().find(|it| it.0 == pc).map(|it| it.1)
    }

    /// A new block at the lowest place, if there is one.
    pub fn allocate(&mut self, size: u64, trace: Vec<u32>) -> Option<u32> {
        let start = self.place(size)? as u32;
        self.live.insert(start, Block { start, size: size as u32, trace, freed: None });
        Some(start)
    }

    /// The lowest multiple of 16 where a block of a size has room: the first, or one after a kept block.
    fn place(&self, size: u64) -> Option<u64> {
        let mut kept: Vec<(u64, u64)> = self.live.values().chain(&self.queue).map(Block::interval).collect();
        kept.sort_unstable();
        let after = |end: u64| (end + u64::from(REDZONE)).next_multiple_of(STEP);
        let mut start = after(self.region.start);
        for (low, high) in kept {
            if interval(start, size).1 > low && high > interval(start, size).0 {
                start = after(high);
            }
        }
        (size <= GREATEST && interval(start, size).1 <= self.region.end).then_some(start)
    }

    /// The blocks that keep their places, live and freed, in order of their starts.
    pub fn kept(&self) -> Vec<&Block> {
        let mut kept: Vec<&Block> = self.live.values().chain(&self.queue).collect();
        kept.sort_unstable_by_key(|it| it.start);
        kept
    }

    /// Ends the live block at an address; the oldest blocks of the queue are forgotten where their sizes are too much.
    pub fn release(&mut self, start: u32, trace: Vec<u32>) -> Option<Block> {
        let block = self.live.remove(&start)?;
        self.queue.push(Block { freed: Some(trace), ..block.clone() });
        let volume = |queue: &[Block]| queue.iter().map(|it| u64::from(it.size)).sum::<u64>();
        while volume(&self.queue) > VOLUME {
            self.queue.remove(0);
        }
        Some(block)
    }
}
