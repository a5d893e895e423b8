//! The guest's memory: a flat table of pages, each with a byte, an accessible flag and the undefined bits of every address.

use std::rc::Rc;

const PAGE: usize = 4096;
const PAGES: usize = 1 << 20;

/// The flag of an accessible byte; an inaccessible one has 0, and no undefined bits.
const ACCESSIBLE: u8 = 0xFF;

/// What a range of bytes is made.
#[derive(Clone, Copy, Debug)]
pub enum RangeKind {
    NoAccess,
    Undefined,
    Defined,
}

#[derive(Clone)]
struct Page {
    bytes: [u8; PAGE],
    accessible: [u8; PAGE],
    undef: [u8; PAGE],
}

/// Bytes loaded as a number, its undefined bits, and the first inaccessible address among them.
#[derive(Clone, Copy)]
pub struct Loaded {
    pub value: u32,
    pub undef: u32,
    pub bad: Option<u32>,
}

pub struct Memory {
    pages: Box<[Option<Rc<Page>>; PAGES]>,
    /// The numbers of the pages that there are.
    used: Vec<usize>,
}

/// The page of an address, and the place in it.
fn place(addr: u32) -> (usize, usize) {
    ((addr / PAGE as u32) as usize, addr as usize % PAGE)
}

/// A number of N bytes, the lowest first.
fn number<const N: usize>(bytes: &[u8; N]) -> u32 {
    let mut word = [0; 4];
    word[..N].copy_from_slice(bytes);
    u32::from_le_bytes(word)
}

impl Memory {
    /// Every byte is 0 and inaccessible.
    pub fn new() -> Memory {
        let pages: Vec<Option<Rc<Page>>> = (0..PAGES).map(|_| None).collect();
        let pages = pages.into_boxed_slice().try_into().ok();
        Memory { pages: pages.expect("the table has this length"), used: Vec::new() }
    }

    /// Holds what another memory holds. Pages are shared until one of the two writes them.
    pub fn become_copy_of(&mut self, other: &Memory) {
        for number in self.used.drain(..) {
            self.pages[number] = None;
        }
        for number in &other.used {
            self.pages[*number].clone_from(&other.pages[*number]);
        }
        self.used.clone_from(&other.used);
    }

    /// The page of a number, made where there is none, which no other memory shares.
    fn page(&mut self, number: usize) -> &mut Page {
        if self.pages[number].is_none() {
            self.used.push(number);
        }
        let empty = || Rc::new(Page { bytes: [0; PAGE], accessible: [0; PAGE], undef: [0; PAGE] });
        Rc::make_mut(self.pages[number].get_or_insert_with(empty))
    }

    /// The values of the words at the multiples of 4 all of whose bytes are accessible and defined, each with its address.
    pub fn words(&self) -> impl Iterator<Item = (u32, u32)> {
        let words = |number: &usize| (number * PAGE..(number + 1) * PAGE).step_by(4).map(|at| at as u32);
        let defined = |addr: u32| {
            let loaded = self.load::<4>(addr);
            (loaded.bad.is_none() && loaded.undef == 0).then_some((addr, loaded.value))
        };
        self.used.iter().flat_map(words).filter_map(defined)
    }

    /// The N bytes at an address (modulo 2^32); N is 1, 2 or 4.
    #[inline(always)]
    pub fn load<const N: usize>(&self, addr: u32) -> Loaded {
        let (number_of_page, at) = place(addr);
        if at <= PAGE - N
            && let Some(page) = &self.pages[number_of_page]
        {
            let accessible: &[u8; N] = page.accessible[at..at + N].try_into().unwrap();
            if *accessible == [ACCESSIBLE; N] {
                return Loaded {
                    value: number::<N>(page.bytes[at..at + N].try_into().unwrap()),
                    undef: number::<N>(page.undef[at..at + N].try_into().unwrap()),
                    bad: None,
                };
            }
        }
        self.load_bytes(addr, N as u32)
    }

    /// The same byte by byte, over two pages or with inaccessible bytes, which load as defined.
    #[cold]
    #[inline(never)]
    fn load_bytes(&self, addr: u32, n: u32) -> Loaded {
        let mut loaded = Loaded { value: 0, undef: 0, bad: None };
        for i in 0..n {
            let address = addr.wrapping_add(i);
            let (number, at) = place(address);
            let page = self.pages[number].as_deref();
            loaded.value |= page.map_or(0, |page| u32::from(page.bytes[at])) << (8 * i);
            loaded.undef |= page.map_or(0, |page| u32::from(page.undef[at])) << (8 * i);
            if page.is_none_or(|page| page.accessible[at] != ACCESSIBLE) && loaded.bad.is_none() {
                loaded.bad = Some(address);
            }
        }
        loaded
    }

    /// Stores the low N bytes of a number with its undefined bits, and answers the first inaccessible address. An inaccessible
    /// byte takes its value, and stays inaccessible.
    #[inline(always)]
    pub fn store<const N: usize>(&mut self, addr: u32, value: u32, undef: u32) -> Option<u32> {
        let (number_of_page, at) = place(addr);
        if at <= PAGE - N
            && let Some(page) = &mut self.pages[number_of_page]
        {
            let accessible: &[u8; N] = page.accessible[at..at + N].try_into().unwrap();
            if *accessible == [ACCESSIBLE; N] {
                let page = Rc::make_mut(page);
                page.bytes[at..at + N].copy_from_slice(&value.to_le_bytes()[..N]);
                page.undef[at..at + N].copy_from_slice(&undef.to_le_bytes()[..N]);
                return None;
            }
        }
        self.store_bytes(addr, N as u32, value, undef)
    }

    /// The same byte by byte.
    #[cold]
    #[inline(never)]
    fn store_bytes(&mut self, addr: u32, n: u32, value: u32, undef: u32) -> Option<u32> {
        let mut bad = None;
        for i in 0..n {
            let address = addr.wrapping_add(i);
            let (number, at) = place(address);
            let page = self.page(number);
            page.bytes[at] = value.to_le_bytes()[i as usize];
            if page.accessible[at] == ACCESSIBLE {
                page.undef[at] = undef.to_le_bytes()[i as usize];
            } else if bad.is_none() {
                bad = Some(address);
            }
        }
        bad
    }

    /// Turns bits of a byte that are undefined, or, of one that is inaccessible, any bits.
    pub fn disturb(&mut self, addr: u32, noise: u8) {
        let (number, at) = place(addr);
        let page = self.page(number);
        let free = if page.accessible[at] == ACCESSIBLE { page.undef[at] } else { 0xFF };
        page.bytes[at] ^= noise & free;
    }

    /// Inverts bits of a byte, whether it is accessible or not. Undefined bits stay so.
    pub fn flip(&mut self, addr: u32, bits: u8) {
        let (number, at) = place(addr);
        self.page(number).bytes[at] ^= bits;
    }

    /// Whether another memory has the same accessible bytes, and of these each bit that this one has defined.
    pub fn stands_for(&self, other: &Memory) -> bool {
        let empty = Page { bytes: [0; PAGE], accessible: [0; PAGE], undef: [0; PAGE] };
        let numbers = self.used.iter().chain(&other.used);
        let mut pages = numbers.map(|number| [self, other].map(|it| it.pages[*number].as_deref().unwrap_or(&empty)));
        let has_byte = |[one, other]: [&Page; 2], at: usize| {
            let undef = one.undef[at];
            let is_same = (one.bytes[at] ^ other.bytes[at]) & !undef == 0 && other.undef[at] & !undef == 0;
            one.accessible[at] == other.accessible[at] && (is_same || one.accessible[at] != ACCESSIBLE)
        };
        pages.all(|pair| (0..PAGE).all(|at| has_byte(pair, at)))
    }

    /// Makes the `len` bytes from an address on (modulo 2^32) inaccessible, undefined or defined.
    pub fn set_range(&mut self, start: u32, len: u32, kind: RangeKind) {
        let (accessible, undef) = match kind {
            RangeKind::NoAccess => (0, 0),
            RangeKind::Undefined => (ACCESSIBLE, 0xFF),
            RangeKind::Defined => (ACCESSIBLE, 0),
        };
        let mut start = start;
        let mut left = len as usize;
        while left > 0 {
            let (number, at) = place(start);
            let here = left.min(PAGE - at);
            let page = self.page(number);
            page.accessible[at..at + here].fill(accessible);
            page.undef[at..at + here].fill(undef);
            start = start.wrapping_add(here as u32);
            left -= here;
        }
    }
}
