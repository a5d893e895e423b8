//! The memory that an ELF file asks for (System V ABI, edition 4.1, chapters 4 and 5), where its program begins, and what its functions
//! are called.

use crate::regions::{Regions, meet};
use std::ops::Range;

const LOAD: u32 = 1;
/// The type of a section that is the symbol table, and that of a symbol that is a function.
const SYMBOLS: u32 = 2;
const FUNCTION: u8 = 2;

const NO_NAME: &[u8] = b"???";

/// Bytes that are loaded at an address, and how many bytes they have in memory; those after them are 0.
pub struct Segment {
    pub start: u32,
    pub bytes: Vec<u8>,
    pub len: u32,
}

/// A function of the symbol table.
pub struct Symbol {
    pub start: u32,
    /// How many bytes it has; 0 where that isn't known.
    pub len: u32,
    pub name: Vec<u8>,
}

pub struct Image {
    pub segments: Vec<Segment>,
    pub entry: u32,
    /// In the order of the table.
    pub functions: Vec<Symbol>,
    pub regions: Regions,
}

impl Segment {
    fn range(&self) -> Range<u64> {
        let start = u64::from(self.start);
        start..start + u64::from(self.len)
    }

    /// What is loaded of it beside the regions; `None` if it has an address of theirs that it may not have. A stack that isn't at its usual
    /// place may be inside of it, past the bytes that are loaded; nothing is loaded there.
    fn beside(self, regions: &Regions) -> Option<Vec<Segment>> {
        let all = self.range();
        if meet(&all, &regions.heap) {
            return None;
        }
        if !meet(&all, &regions.stack) {
            return Some(vec![self]);
        }
        let has_room = all.start + self.bytes.len() as u64 <= regions.stack.start && regions.stack.end <= all.end;
        if !regions.may_be_inside() || !has_room {
            return None;
        }
        let (begin, end) = regions.stack_bounds();
        let past = Segment { start: end, bytes: Vec::new(), len: (all.end - regions.stack.end) as u32 };
        Some(vec![Segment { len: begin - self.start, ..self }, past])
    }
}

impl Image {
    /// Returns the image of a file for RV32, for regions of heap and stack; `None` if a segment or a header lies outside of the file, or a
    /// segment has an address of the regions that it may not have. Nothing else is checked.
    pub fn of(file: &[u8], regions: Regions) -> Option<Image> {
        let (table, size, count) = (word(file, 28)? as usize, half(file, 42)? as usize, half(file, 44)? as usize);
        let mut segments = Vec::new();
        for header in (0..count).map(|i| table + size * i) {
            if word(file, header)? == LOAD {
                let (offset, start) = (word(file, header + 4)? as usize, word(file, header + 8)?);
                let bytes = file.get(offset..offset + word(file, header + 16)? as usize)?.to_vec();
                segments.push(Segment { start, bytes, len: word(file, header + 20)? });
            }
        }
        Image::with(segments, word(file, 24)?, functions(file)?, regions)
    }

    /// The image that loads segments beside the regions; `None` if one of them has an address there that it may not have.
    pub fn with(segments: Vec<Segment>, entry: u32, functions: Vec<Symbol>, regions: Regions) -> Option<Image> {
        let parts: Option<Vec<_>> = segments.into_iter().map(|it| it.beside(&regions)).collect();
        Some(Image { segments: parts?.into_iter().flatten().collect(), entry, functions, regions })
    }

    /// The image of words at an address, and zeros after them, `len` bytes in all.
    pub fn of_words(start: u32, words: &[u32], len: u32, regions: Regions) -> Option<Image> {
        let bytes = words.iter().flat_map(|word| word.to_le_bytes()).collect();
        Image::with(vec![Segment { start, bytes, len }], start, Vec::new(), regions)
    }

    /// Whether the `len` bytes from an address on are loaded, none beyond 2^32.
    pub fn has_bytes(&self, addr: u32, len: u32) -> bool {
        let is_loaded = |addr: u32| self.segments.iter().any(|it| addr.wrapping_sub(it.start) < it.len);
        addr.checked_add(len - 1).is_some_and(|last| (addr..=last).all(is_loaded))
    }

    /// The name of the function at an address: that of the nearest symbol at it or below, the first of equals.
    pub fn name_of(&self, addr: u32) -> &[u8] {
        let mut nearest: Option<&Symbol> = None;
        for it in &self.functions {
            if it.start <= addr && nearest.is_none_or(|other| it.start > other.start) {
                nearest = Some(it);
            }
        }
        nearest.filter(|it| it.len == 0 || addr - it.start < it.len).map_or(NO_NAME, |it| &it.name)
    }
}

fn half(file: &[u8], at: usize) -> Option<u16> {
    Some(u16::from_le_bytes(*file.get(at..)?.first_chunk()?))
}

fn word(file: &[u8], at: usize) -> Option<u32> {
    Some(u32::from_le_bytes(*file.get(at..)?.first_chunk()?))
}

/// The functions of the first symbol table, if there is one: those that are defined and have a name.
fn functions(file: &[u8]) -> Option<Vec<Symbol>> {
    let (table, size, count) = (word(file, 32)? as usize, half(file, 46)? as usize, half(file, 48)? as usize);
    let sections = if table == 0 { 0 } else { count };
    let Some(header) = (0..sections).map(|i| table + size * i).find(|at| word(file, at + 4) == Some(SYMBOLS)) else {
        return Some(Vec::new());
    };
    let section = |header: usize| file.get(word(file, header + 16)? as usize..)?.get(..word(file, header + 20)? as usize);
    let strings = section(table + size * word(file, header + 24)? as usize)?;
    let symbol = |entry: &[u8]| {
        let name = strings.get(word(entry, 0)? as usize..)?.split(|byte| *byte == 0).next()?.to_vec();
        let is_named = entry[12] & 0xF == FUNCTION && half(entry, 14)? != 0 && !name.is_empty();
        is_named.then_some(Symbol { start: word(entry, 4)?, len: word(entry, 8)?, name })
    };
    Some(section(header)?.chunks_exact(16).filter_map(symbol).collect())
}
