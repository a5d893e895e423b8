//! The calls that a machine is in, as a stack of return addresses keeps them (RISC-V Unprivileged ISA, section 2.5).

use std::collections::VecDeque;

/// The most calls that are kept.
const DEEPEST: usize = 256;
/// The most addresses of a trace.
const LONGEST_TRACE: usize = 24;

/// Calls, the newest first: where each was made, and where it returns to.
#[derive(Clone, Default)]
pub struct Stack {
    calls: VecDeque<(u32, u32)>,
}

impl Stack {
    /// A call. Of too many the oldest is forgotten.
    pub fn enter(&mut self, site: u32, return_to: u32) {
        self.calls.push_front((site, return_to));
        self.calls.truncate(DEEPEST);
    }

    /// A return to an address: the newest call that returns there ends, with all newer ones.
    pub fn leave(&mut self, target: u32) {
        if let Some(at) = self.calls.iter().position(|(_, return_to)| *return_to == target) {
            self.calls.drain(..=at);
        }
    }

    /// How many calls are kept.
    pub fn depth(&self) -> usize {
        self.calls.len()
    }

    /// The sites of the calls that are kept, the newest first.
    pub fn sites(&self) -> impl Iterator<Item = u32> {
        self.calls.iter().map(|(site, _)| *site)
    }

    /// The address of an instruction, and the sites of the calls that led there, the newest first.
    pub fn trace(&self, pc: u32) -> Vec<u32> {
        std::iter::once(pc).chain(self.calls.iter().map(|(site, _)| *site)).take(LONGEST_TRACE).collect()
    }
}
