//! Suppressions (Valgrind user manual, section 2.5; Memcheck manual, section 4.4).

use crate::errors::Kind;
use crate::leaks::LeakKind;

/// What a suppression may be for.
#[derive(Clone, Copy)]
pub enum Target {
    Error(Kind),
    Leak(LeakKind),
}

pub struct Suppression {
    kind: Vec<u8>,
    /// The parameter of `Param`, and the leak kinds of `Leak` with a space at either end of each.
    detail: Option<Vec<u8>>,
    frames: Vec<Vec<u8>>,
}

/// The suppressions of a text; `None` if a line is outside of a block. Nothing else of it is checked.
pub fn parse(text: &[u8]) -> Option<Vec<Suppression>> {
    let lines = text.split(|byte| *byte == b'\n').map(<[u8]>::trim_ascii);
    let mut lines = lines.filter(|line| !line.is_empty() && line[0] != b'#');
    let mut found = Vec::new();
    while let Some(open) = lines.next() {
        let block: Vec<&[u8]> = lines.by_ref().take_while(|line| *line != b"}").collect();
        if open != b"{" || block.len() < 2 {
            return None;
        }
        found.extend(of_block(block[1], &block[2..]));
    }
    Some(found)
}

/// The suppression of a block by its line `TOOLS:KIND` and the lines after that, unless it is for other tools.
fn of_block(line: &[u8], rest: &[&[u8]]) -> Option<Suppression> {
    let colon = line.iter().position(|byte| *byte == b':')?;
    let is_for_memcheck = line[..colon].split(|byte| *byte == b',').any(|tool| tool == b"Memcheck");
    let kind = line[colon + 1..].to_vec();
    let listed = rest.first().and_then(|first| first.strip_prefix(b"match-leak-kinds:"));
    let (detail, frames) = match &kind[..] {
        b"Param" => (rest.first().map(|first| first.to_vec()), rest.get(1..)?),
        b"Leak" if listed.is_some() => (listed.map(<[u8]>::to_vec), &rest[1..]),
        _ => (None, rest),
    };
    let frames = frames.iter().map(|frame| frame.to_vec()).collect();
    is_for_memcheck.then_some(Suppression { kind, detail, frames })
}

impl Suppression {
    /// Whether it is for an error or a leak whose trace has these names.
    pub fn matches(&self, target: Target, names: &[&[u8]]) -> bool {
        self.is_for(target) && fits_frames(&self.frames, names)
    }

    fn is_for(&self, target: Target) -> bool {
        match target {
            Target::Leak(kind) => self.kind == b"Leak" && self.has_leak(kind),
            Target::Error(Kind::Parameter(name, _)) => self.kind == b"Param" && self.detail.as_deref() == Some(name.as_bytes()),
            Target::Error(kind) => self.kind == name_of(kind).as_bytes(),
        }
    }

    /// Whether a leak kind is among those that are listed, or none are.
    fn has_leak(&self, kind: LeakKind) -> bool {
        let word: &[u8] = match kind {
            LeakKind::Definite => b"definite",
            LeakKind::Indirect => b"indirect",
            LeakKind::Possible => b"possible",
            LeakKind::Reachable => b"reachable",
        };
        let is_it = |listed: &[u8]| listed.trim_ascii() == word || listed.trim_ascii() == b"all";
        self.detail.as_ref().is_none_or(|list| list.split(|byte| *byte == b',').any(is_it))
    }
}

fn name_of(kind: Kind) -> String {
    match kind {
        Kind::Read(n) | Kind::Write(n) => format!("Addr{n}"),
        Kind::Value => "Value4".to_string(),
        Kind::Cond => "Cond".to_string(),
        Kind::Parameter(..) => "Param".to_string(),
        Kind::Free => "Free".to_string(),
        Kind::Jump => "Jump".to_string(),
    }
}

/// Whether frame lines fit the first names of a trace.
fn fits_frames(frames: &[Vec<u8>], names: &[&[u8]]) -> bool {
    let Some((frame, later)) = frames.split_first() else { return true };
    if frame == b"..." {
        return (0..=names.len()).any(|skipped| fits_frames(later, &names[skipped..]));
    }
    let Some((name, others)) = names.split_first() else { return false };
    let fits = match (frame.strip_prefix(b"fun:"), frame.strip_prefix(b"obj:")) {
        (Some(pattern), _) => fits_pattern(pattern, name),
        (_, Some(pattern)) => fits_pattern(pattern, b"guest"),
        _ => false,
    };
    fits && fits_frames(later, others)
}

/// Whether a text fits a pattern, in which `*` is any bytes and `?` any one byte.
pub fn fits_pattern(pattern: &[u8], text: &[u8]) -> bool {
    match pattern.split_first() {
        None => text.is_empty(),
        Some((b'*', rest)) => (0..=text.len()).any(|skipped| fits_pattern(rest, &text[skipped..])),
        Some((byte, rest)) => {
            text.split_first().is_some_and(|(first, later)| (*byte == b'?' || byte == first) && fits_pattern(rest, later))
        }
    }
}
