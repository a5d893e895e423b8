//! Which live blocks are lost (Memcheck manual, section 4.2, "Memory leak detection").

use crate::heap::Block;
use crate::machine::Machine;

#[derive(Clone, Copy, Debug, PartialEq, Eq)]
pub enum LeakKind {
    Definite,
    Indirect,
    Possible,
    Reachable,
}

impl LeakKind {
    /// The text that a report has for it.
    pub fn text(self) -> &'static str {
        match self {
            LeakKind::Definite => "definitely lost",
            LeakKind::Indirect => "indirectly lost",
            LeakKind::Possible => "possibly lost",
            LeakKind::Reachable => "still reachable",
        }
    }
}

/// Pointers to blocks, which are numbered in the order of their addresses.
struct Links {
    /// Those to the starts of blocks, and those to any byte: from outside of all blocks, and from each block.
    start_roots: Vec<usize>,
    roots: Vec<usize>,
    start_edges: Vec<Vec<usize>>,
    edges: Vec<Vec<usize>>,
}

impl Links {
    fn of(machine: &Machine, blocks: &[&Block]) -> Links {
        let none = || vec![Vec::new(); blocks.len()];
        let mut links = Links { start_roots: Vec::new(), roots: Vec::new(), start_edges: none(), edges: none() };
        for bits in &machine.registers[1..] {
            if bits.undef == 0 {
                links.add(None, bits.value, blocks);
            }
        }
        for (addr, value) in machine.memory.words() {
            let holds = |it: &&Block, i: u32| (addr + i).wrapping_sub(it.start) < it.size;
            match blocks.iter().position(|it| (0..4).any(|i| holds(it, i))) {
                None => links.add(None, value, blocks),
                Some(owner) if holds(&blocks[owner], 0) && holds(&blocks[owner], 3) => links.add(Some(owner), value, blocks),
                Some(_) => {}
            }
        }
        links
    }

    /// A value that may point to a block, in a block or outside of all.
    fn add(&mut self, owner: Option<usize>, value: u32, blocks: &[&Block]) {
        let is_pointer = |it: &&Block| value == it.start || value.wrapping_sub(it.start) < it.size;
        let Some(target) = blocks.iter().position(is_pointer) else { return };
        let (starts, all) = match owner {
            None => (&mut self.start_roots, &mut self.roots),
            Some(owner) => (&mut self.start_edges[owner], &mut self.edges[owner]),
        };
        all.push(target);
        if value == blocks[target].start {
            starts.push(target);
        }
    }
}

/// The blocks to which paths lead from some, with these themselves, through those that may be passed.
fn reached(from: &[usize], edges: &[Vec<usize>], passes: impl Fn(usize) -> bool) -> Vec<bool> {
    let (mut found, mut left) = (vec![false; edges.len()], from.to_vec());
    while let Some(block) = left.pop() {
        if passes(block) && !found[block] {
            found[block] = true;
            left.extend(&edges[block]);
        }
    }
    found
}

/// The live blocks in the order of their addresses, each with how it is lost, or that it isn't.
pub fn search(machine: &Machine) -> Vec<(&Block, LeakKind)> {
    let blocks: Vec<&Block> = machine.heap.live.values().collect();
    if blocks.is_empty() {
        return Vec::new();
    }
    let links = Links::of(machine, &blocks);
    let reachable = reached(&links.start_roots, &links.start_edges, |_| true);
    let possible = reached(&links.roots, &links.edges, |_| true);
    let is_lost = |b: usize| !possible[b];
    let behind: Vec<Vec<bool>> = (0..blocks.len()).map(|b| reached(&links.edges[b], &links.edges, is_lost)).collect();
    let kind = |b: usize| {
        let holds = |c: usize| c != b && is_lost(c) && behind[c][b] && (!behind[b][c] || c < b);
        match () {
            () if reachable[b] => LeakKind::Reachable,
            () if possible[b] => LeakKind::Possible,
            () if (0..blocks.len()).any(holds) => LeakKind::Indirect,
            () => LeakKind::Definite,
        }
    };
    blocks.iter().enumerate().map(|(b, block)| (*block, kind(b))).collect()
}
