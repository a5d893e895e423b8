//! A machine of RV32IM (RISC-V Unprivileged ISA 20191213, chapters 2 and 7), perhaps with the extensions of `isa`, each of whose registers
//! and bytes has undefined bits (Seward and Nethercote, "Using Valgrind to detect undefined value errors with bit-precision", USENIX 2005,
//! section 2.4).

use crate::atomics::{Atomic, atomic_of};
use crate::elf::Image;
use crate::errors::{Errors, Kind};
use crate::heap::Heap;
use crate::isa::{HALF, Isa, WORD};
use crate::looks::Access;
use crate::memory::{Loaded, Memory, RangeKind};
use crate::regions::{Limits, Regions};
use crate::short::{expand, is_long};
use crate::stack::Stack;
use std::collections::BTreeMap;
use std::rc::Rc;

/// A word, and which of its bits are undefined.
#[derive(Clone, Copy)]
pub struct Bits {
    pub value: u32,
    pub undef: u32,
}

/// A word with no undefined bit.
pub fn known(value: u32) -> Bits {
    Bits { value, undef: 0 }
}

/// Whether the machine runs.
#[derive(Clone, Copy, Debug, PartialEq, Eq)]
pub enum Status {
    Running,
    Exited(u8),
    Jump,
    Break,
    Illegal,
    Misaligned,
}

pub struct Machine {
    pub isa: Isa,
    pub memory: Memory,
    pub registers: [Bits; 32],
    pub pc: u32,
    pub status: Status,
    pub stack: Stack,
    /// The addresses at which the stack pointer may be in the stack, its end included.
    stack_pointers: (u32, u32),
    pub heap: Heap,
    pub errors: Errors,
    pub input: Rc<[u8]>,
    /// How many bytes of the input it has read.
    pub position: usize,
    /// How many bytes it has written, and those to descriptors 1 and 2, where they are kept.
    pub output: u64,
    pub said: Option<[Vec<u8>; 2]>,
    /// How many bytes its calls move.
    pub limits: Limits,
    /// How many heap calls it has made.
    pub heap_calls: u64,
    /// Where wanted, the bytes that steps read and write beside taking words, in the order of the accesses: the first and how many.
    pub accesses: Option<Vec<(Access, u32, u32)>>,
    /// The address of the last LR or SC, if it was an LR.
    pub reserved: Option<u32>,
    /// The control registers that were written, by their numbers.
    pub controls: BTreeMap<u32, Bits>,
    /// How many steps it has made, with those that were left out, in a profile with control registers.
    pub steps: u64,
}

/// How far below the end of the stack the stack pointer points at the start, at as many bytes that may be used.
const STACK_ROOM: u32 = 16;
/// The most bytes of a stack frame: Memcheck's default for `--max-stackframe`.
const LARGEST_FRAME: u32 = 2_000_000;

pub const STACK_POINTER: usize = 2;

/// The opcodes of loads and stores.
const LOAD: u32 = 0x03;
const STORE: u32 = 0x23;

const FENCE: u32 = 0x0F;
const SYSTEM: u32 = 0x73;
const ECALL: u32 = 0x0000_0073;
const WFI: u32 = 0x1050_0073;

/// The bits `high` down to `low` of a word.
pub fn field(word: u32, high: u32, low: u32) -> u32 {
    (word >> low) & (u32::MAX >> (31 - high + low))
}

/// The upper bits of a word, from `low` on, with its sign repeated.
fn signed_field(word: u32, low: u32) -> u32 {
    (word.cast_signed() >> low).cast_unsigned()
}

fn imm_i(word: u32) -> u32 {
    signed_field(word, 20)
}

fn imm_s(word: u32) -> u32 {
    (signed_field(word, 25) << 5) | field(word, 11, 7)
}

fn imm_b(word: u32) -> u32 {
    (signed_field(word, 31) << 12) | (field(word, 7, 7) << 11) | (field(word, 30, 25) << 5) | (field(word, 11, 8) << 1)
}

fn imm_j(word: u32) -> u32 {
    (signed_field(word, 31) << 20) | (field(word, 19, 12) << 12) | (field(word, 20, 20) << 11) | (field(word, 30, 21) << 1)
}

/// A word with each undefined bit 0, and with each 1.
fn ends(x: Bits) -> (u32, u32) {
    (x.value & !x.undef, x.value | x.undef)
}

/// A sum: an undefined bit reaches itself and those that an undefined carry goes into.
pub fn sum(x: Bits, y: Bits) -> Bits {
    let ((least_x, greatest_x), (least_y, greatest_y)) = (ends(x), ends(y));
    let carried = least_x.wrapping_add(least_y) ^ greatest_x.wrapping_add(greatest_y);
    Bits { value: x.value.wrapping_add(y.value), undef: x.undef | y.undef | carried }
}

/// A difference: the same by borrows.
fn difference(x: Bits, y: Bits) -> Bits {
    let ((least_x, greatest_x), (least_y, greatest_y)) = (ends(x), ends(y));
    let borrowed = least_x.wrapping_sub(greatest_y) ^ greatest_x.wrapping_sub(least_y);
    Bits { value: x.value.wrapping_sub(y.value), undef: x.undef | y.undef | borrowed }
}

/// A lower product: an undefined bit reaches itself and those above.
fn product(x: Bits, y: Bits) -> Bits {
    let lowest = x.undef | y.undef;
    Bits { value: x.value.wrapping_mul(y.value), undef: lowest | lowest.wrapping_neg() }
}

pub fn xor(x: Bits, y: Bits) -> Bits {
    Bits { value: x.value ^ y.value, undef: x.undef | y.undef }
}

/// A defined 1 makes a bit defined.
pub fn or(x: Bits, y: Bits) -> Bits {
    let undef = (x.undef | y.undef) & (!x.value | x.undef) & (!y.value | y.undef);
    Bits { value: x.value | y.value, undef }
}

/// A defined 0 makes a bit defined.
pub fn and(x: Bits, y: Bits) -> Bits {
    let undef = (x.undef | y.undef) & (x.value | x.undef) & (y.value | y.undef);
    Bits { value: x.value & y.value, undef }
}

fn less(holds: bool, x: Bits, y: Bits) -> Bits {
    Bits { value: u32::from(holds), undef: u32::from(x.undef | y.undef != 0) }
}

/// A shift of the word and of its undefined bits, by an amount whose low five bits count.
fn shift(x: Bits, y: Bits, shifted: impl Fn(u32, u32) -> u32) -> Bits {
    let value = shifted(x.value, y.value % 32);
    let undef = if y.undef % 32 == 0 { shifted(x.undef, y.value % 32) } else { u32::MAX };
    Bits { value, undef }
}

fn arithmetic(word: u32, by: u32) -> u32 {
    (word.cast_signed() >> by).cast_unsigned()
}

/// MULH, MULHSU, MULHU, DIV, DIVU, REM and REMU, by funct3: each bit of the result depends on all bits.
fn wide(funct3: u32, x: Bits, y: Bits) -> Bits {
    let (sx, sy) = (x.value.cast_signed(), y.value.cast_signed());
    let value = match funct3 {
        1 => ((i64::from(sx) * i64::from(sy)) >> 32) as u32,
        2 => ((i64::from(sx) * i64::from(y.value)) >> 32) as u32,
        3 => ((u64::from(x.value) * u64::from(y.value)) >> 32) as u32,
        4 if sy == 0 => u32::MAX,
        4 => sx.wrapping_div(sy).cast_unsigned(),
        5 => x.value.checked_div(y.value).unwrap_or(u32::MAX),
        6 if sy == 0 => x.value,
        6 => sx.wrapping_rem(sy).cast_unsigned(),
        _ => x.value.checked_rem(y.value).unwrap_or(x.value),
    };
    Bits { value, undef: if x.undef | y.undef == 0 { 0 } else { u32::MAX } }
}

/// Whether a register holds return addresses (RISC-V Unprivileged ISA, section 2.5).
fn is_link(r: u32) -> bool {
    r == 1 || r == 5
}

impl Machine {
    /// The machine before its first step, with the usual regions: words at an address, and zeros after them, `memsz` bytes in all.
    pub fn start(isa: Isa, at: u32, words: &[u32], memsz: u32) -> Machine {
        let image = Image::of_words(at, words, memsz, Regions::default());
        Machine::of(isa, &image.expect("no word is in a region"), &BTreeMap::new(), Rc::default())
    }

    /// The machine before the first step of a program, in which some bytes are others, and which reads an input.
    pub fn of(isa: Isa, image: &Image, patches: &BTreeMap<u32, u8>, input: Rc<[u8]>) -> Machine {
        let mut memory = Memory::new();
        for it in &image.segments {
            memory.set_range(it.start, it.len, RangeKind::Defined);
            for (i, byte) in (0u32..).zip(&it.bytes) {
                memory.store::<1>(it.start.wrapping_add(i), (*byte).into(), 0);
            }
        }
        for (addr, byte) in patches {
            memory.store::<1>(*addr, (*byte).into(), 0);
        }
        let stack_pointers = image.regions.stack_bounds();
        let stack_start = stack_pointers.1 - STACK_ROOM;
        memory.set_range(stack_start, STACK_ROOM, RangeKind::Defined);
        let mut registers = [known(0); 32];
        registers[STACK_POINTER] = known(stack_start);
        Machine {
            isa,
            memory,
            registers,
            pc: image.entry,
            status: Status::Running,
            stack: Stack::default(),
            stack_pointers,
            heap: Heap::of(image),
            errors: Errors::default(),
            input,
            position: 0,
            output: 0,
            said: None,
            limits: image.regions.limits,
            heap_calls: 0,
            accesses: None,
            reserved: None,
            controls: BTreeMap::new(),
            steps: 0,
        }
    }

    /// Writes an access down, where that is wanted.
    #[inline(always)]
    pub fn note(&mut self, access: Access, start: u32, len: u32) {
        if let Some(accesses) = &mut self.accesses {
            accesses.push((access, start, len));
        }
    }

    /// Becomes what another machine is. Pages are shared until one of the two writes them.
    pub fn become_copy_of(&mut self, other: &Machine) {
        self.memory.become_copy_of(&other.memory);
        self.registers = other.registers;
        (self.pc, self.status) = (other.pc, other.status);
        self.stack.clone_from(&other.stack);
        self.stack_pointers = other.stack_pointers;
        self.heap.clone_from(&other.heap);
        self.errors.clone_from(&other.errors);
        (self.position, self.output, self.limits) = (other.position, other.output, other.limits);
        self.heap_calls = other.heap_calls;
        self.said.clone_from(&other.said);
        (self.isa, self.reserved, self.steps) = (other.isa, other.reserved, other.steps);
        self.controls.clone_from(&other.controls);
    }

    #[cold]
    #[inline(never)]
    pub fn raise(&mut self, kind: Kind) {
        self.errors.raise(kind, self.stack.trace(self.pc), None);
    }

    /// The same with the address at fault.
    #[cold]
    #[inline(never)]
    pub fn raise_at(&mut self, kind: Kind, address: u32) {
        self.errors.raise(kind, self.stack.trace(self.pc), Some(address));
    }

    pub fn register(&self, r: u32) -> Bits {
        self.registers[r as usize % 32]
    }

    pub fn set(&mut self, r: u32, bits: Bits) {
        if r != 0 {
            self.registers[r as usize % 32] = bits;
        }
    }

    /// Tests that a register is defined, and makes it so.
    #[inline(always)]
    pub fn test(&mut self, r: u32, kind: Kind) {
        if self.register(r).undef != 0 {
            self.raise(kind);
            self.set(r, known(self.register(r).value));
        }
    }

    /// The stack pointer rule: what a stack that grows passes is undefined, and what one that shrinks leaves inaccessible.
    #[cold]
    #[inline(never)]
    fn stack_rule(&mut self, old: Bits) {
        let new = self.registers[STACK_POINTER];
        let (first, last) = self.stack_pointers;
        let is_in_stack = |bits: Bits| bits.undef == 0 && (first..=last).contains(&bits.value);
        if is_in_stack(old) && is_in_stack(new) && new.value.abs_diff(old.value) <= LARGEST_FRAME {
            let len = new.value.abs_diff(old.value);
            if new.value < old.value {
                self.memory.set_range(new.value, len, RangeKind::Undefined);
            } else {
                self.memory.set_range(old.value, len, RangeKind::NoAccess);
            }
        }
    }

    /// Goes to an address, or stops where no instruction can be.
    #[inline(always)]
    fn jump<const UNIT: u32>(&mut self, to: u32) -> bool {
        if to % UNIT != 0 {
            self.status = Status::Misaligned;
            return false;
        }
        self.pc = to;
        true
    }

    #[inline(always)]
    fn load<const N: usize>(&mut self, word: u32, signed: bool) {
        let rs1 = field(word, 19, 15);
        let start = self.register(rs1).value.wrapping_add(imm_i(word));
        self.test(rs1, Kind::Value);
        self.note(Access::Read, start, N as u32);
        let loaded = self.memory.load::<N>(start);
        if let Some(bad) = loaded.bad {
            self.raise_at(Kind::Read(N as u8), bad);
        }
        let unused = 32 - 8 * N as u32;
        let extended = |x: u32| if signed { arithmetic(x << unused, unused) } else { x };
        let bits = Bits { value: extended(loaded.value), undef: extended(loaded.undef) };
        self.set(field(word, 11, 7), bits);
    }

    #[inline(always)]
    fn store<const N: usize>(&mut self, word: u32) {
        let rs1 = field(word, 19, 15);
        let start = self.register(rs1).value.wrapping_add(imm_s(word));
        self.test(rs1, Kind::Value);
        self.note(Access::Write, start, N as u32);
        let stored = self.register(field(word, 24, 20));
        if let Some(bad) = self.memory.store::<N>(start, stored.value, stored.undef) {
            self.raise_at(Kind::Write(N as u8), bad);
        }
    }

    /// Whether the next instruction is the one after it.
    #[inline(always)]
    fn branch<const UNIT: u32>(&mut self, word: u32) -> bool {
        let (rs1, rs2) = (field(word, 19, 15), field(word, 24, 20));
        let (x, y) = (self.register(rs1), self.register(rs2));
        let taken = match field(word, 14, 12) {
            0 => x.value == y.value,
            1 => x.value != y.value,
            4 => x.value.cast_signed() < y.value.cast_signed(),
            5 => x.value.cast_signed() >= y.value.cast_signed(),
            6 => x.value < y.value,
            7 => x.value >= y.value,
            _ => return self.illegal(),
        };
        let undefined = x.undef | y.undef;
        // A bit that is defined in both and differs decides BEQ and BNE.
        let decided = field(word, 14, 13) == 0 && (x.value ^ y.value) & !undefined != 0;
        if undefined != 0 && !decided {
            self.raise(Kind::Cond);
            self.set(rs1, known(x.value));
            self.set(rs2, known(y.value));
        }
        if taken {
            self.jump::<UNIT>(self.pc.wrapping_add(imm_b(word)));
        }
        !taken
    }

    #[cold]
    fn illegal(&mut self) -> bool {
        self.status = Status::Illegal;
        false
    }

    /// An operation by funct3 and by whether it is the alternate one of its row (SUB for ADD, SRA for SRL).
    #[inline(always)]
    fn operation(funct3: u32, alternate: bool, x: Bits, y: Bits) -> Bits {
        match funct3 {
            0 if alternate => difference(x, y),
            0 => sum(x, y),
            1 => shift(x, y, |word, by| word << by),
            2 => less(x.value.cast_signed() < y.value.cast_signed(), x, y),
            3 => less(x.value < y.value, x, y),
            4 => xor(x, y),
            5 if alternate => shift(x, y, arithmetic),
            5 => shift(x, y, |word, by| word >> by),
            6 => or(x, y),
            _ => and(x, y),
        }
    }

    #[inline(always)]
    fn immediate(&mut self, word: u32) -> bool {
        let funct3 = field(word, 14, 12);
        let is_shift = funct3 == 1 || funct3 == 5;
        let funct7 = field(word, 31, 25);
        let alternate = funct3 == 5 && funct7 == 0x20;
        if is_shift && funct7 != 0 && !alternate {
            return self.illegal();
        }
        let y = known(if is_shift { field(word, 24, 20) } else { imm_i(word) });
        let result = Self::operation(funct3, alternate, self.register(field(word, 19, 15)), y);
        self.set(field(word, 11, 7), result);
        true
    }

    #[inline(always)]
    fn registers(&mut self, word: u32) -> bool {
        let funct3 = field(word, 14, 12);
        let (x, y) = (self.register(field(word, 19, 15)), self.register(field(word, 24, 20)));
        let result = match (field(word, 31, 25), funct3) {
            (0x00, _) => Self::operation(funct3, false, x, y),
            (0x20, 0 | 5) => Self::operation(funct3, true, x, y),
            (0x01, 0) => product(x, y),
            (0x01, _) => wide(funct3, x, y),
            _ => return self.illegal(),
        };
        self.set(field(word, 11, 7), result);
        true
    }

    /// JAL and JALR, to an address: a call, a return or neither, by its link register and by the one that JALR goes by.
    #[inline(always)]
    fn linked_jump<const UNIT: u32>(&mut self, word: u32, len: u32, by: u32, to: u32) -> bool {
        let (site, link, rd) = (self.pc, self.pc.wrapping_add(len), field(word, 11, 7));
        if self.jump::<UNIT>(to) {
            let (returns, calls) = (is_link(by), is_link(rd));
            if returns && !(calls && by == rd) {
                self.stack.leave(to);
            }
            if calls {
                self.stack.enter(site, link);
            }
            self.set(rd, known(link));
        }
        false
    }

    /// Carries out the word of an instruction with this length in bytes, and says whether the next instruction is the one after it.
    #[inline(always)]
    fn execute<const UNIT: u32>(&mut self, word: u32, len: u32) -> bool {
        match word & 0x7F {
            0x37 => self.set(field(word, 11, 7), known(word & 0xFFFF_F000)),
            0x17 => self.set(field(word, 11, 7), known(self.pc.wrapping_add(word & 0xFFFF_F000))),
            0x6F => return self.linked_jump::<UNIT>(word, len, 0, self.pc.wrapping_add(imm_j(word))),
            0x67 if field(word, 14, 12) == 0 => {
                let rs1 = field(word, 19, 15);
                let to = self.register(rs1).value.wrapping_add(imm_i(word)) & !1;
                self.test(rs1, Kind::Value);
                return self.linked_jump::<UNIT>(word, len, rs1, to);
            }
            0x63 => return self.branch::<UNIT>(word),
            LOAD => match field(word, 14, 12) {
                0 => self.load::<1>(word, true),
                1 => self.load::<2>(word, true),
                2 => self.load::<4>(word, true),
                4 => self.load::<1>(word, false),
                5 => self.load::<2>(word, false),
                _ => return self.illegal(),
            },
            STORE => match field(word, 14, 12) {
                0 => self.store::<1>(word),
                1 => self.store::<2>(word),
                2 => self.store::<4>(word),
                _ => return self.illegal(),
            },
            0x13 => return self.immediate(word),
            0x33 => return self.registers(word),
            FENCE if field(word, 14, 12) == 0 => {}
            SYSTEM if word == ECALL => return self.call(),
            SYSTEM if word == 0x0010_0073 => {
                self.status = Status::Break;
                return false;
            }
            _ if UNIT == HALF => return self.extension(word),
            _ => return self.illegal(),
        }
        true
    }

    /// An instruction of an extension: FENCE.I and WFI, which do nothing, one of a control register, or an atomic one.
    #[cold]
    #[inline(never)]
    fn extension(&mut self, word: u32) -> bool {
        match word & 0x7F {
            FENCE | SYSTEM if !self.isa.has_controls() => self.illegal(),
            FENCE if field(word, 14, 12) == 1 => true,
            SYSTEM if word == WFI => true,
            SYSTEM => self.execute_control(word) || self.illegal(),
            _ => match self.atomic(word) {
                Some(atomic) => self.execute_atomic(atomic, word),
                None => self.illegal(),
            },
        }
    }

    fn atomic(&self, word: u32) -> Option<Atomic> {
        if self.isa.has_atomics() { atomic_of(word) } else { None }
    }

    /// The bytes of the instruction at pc, and how many there are. The first half says whether there is a second.
    #[inline(always)]
    fn take<const UNIT: u32>(&self) -> (Loaded, u32) {
        if UNIT == WORD {
            return (self.memory.load::<4>(self.pc), WORD);
        }
        let first = self.memory.load::<2>(self.pc);
        if first.bad.is_some() || !is_long(first.value) {
            return (first, HALF);
        }
        let second = self.memory.load::<2>(self.pc.wrapping_add(HALF));
        let (value, undef) = (first.value | second.value << 16, first.undef | second.undef << 16);
        (Loaded { value, undef, bad: second.bad }, WORD)
    }

    /// The word of the next instruction, if it can be taken and there is one.
    pub fn next_word(&self) -> Option<u32> {
        let (taken, len) = if self.isa.unit() == WORD { self.take::<WORD>() } else { self.take::<HALF>() };
        let can_be_taken = self.status == Status::Running && self.pc % self.isa.unit() == 0 && taken.bad.is_none();
        if can_be_taken { if len == HALF { expand(taken.value) } else { Some(taken.value) } } else { None }
    }

    /// How many bytes the next instruction has, by what its first ones hold.
    pub fn length(&self) -> u32 {
        let is_half = self.isa.unit() == HALF && !is_long(self.memory.load::<2>(self.pc).value);
        if is_half { HALF } else { WORD }
    }

    /// How many bytes of code the next step takes, if any: none where a function of the heap is called by name, and the first half alone
    /// of a word that is cut.
    pub fn taken(&self) -> Option<u32> {
        let stands = self.status == Status::Running && self.pc % self.isa.unit() == 0;
        if !stands || self.heap.function_at(self.pc).is_some() {
            return None;
        }
        let (taken, len) = if self.isa.unit() == WORD { self.take::<WORD>() } else { self.take::<HALF>() };
        match taken.bad {
            None => Some(len),
            Some(_) => (self.isa.unit() == HALF && len == WORD).then_some(HALF),
        }
    }

    /// One step of a machine that runs.
    #[inline(always)]
    pub fn step(&mut self) {
        if self.isa.unit() == WORD {
            self.step_by::<WORD>();
        } else {
            self.step_by::<HALF>();
            self.steps += 1;
        }
    }

    /// The same where instructions are at multiples of this number of bytes.
    #[inline(always)]
    fn step_by<const UNIT: u32>(&mut self) {
        if self.pc % UNIT != 0 {
            self.status = Status::Misaligned;
            return;
        }
        if let Some(function) = self.heap.function_at(self.pc) {
            self.call_by_name(function);
            return;
        }
        let (taken, len) = self.take::<UNIT>();
        if let Some(bad) = taken.bad {
            // The first half of a word says that there is a second one, so it is tested.
            if UNIT == HALF && len == WORD && taken.undef & 0xFFFF != 0 {
                self.raise(Kind::Value);
            }
            self.raise_at(Kind::Jump, bad);
            self.status = Status::Jump;
            return;
        }
        let stack_pointer = self.registers[STACK_POINTER];
        if taken.undef != 0 {
            self.raise(Kind::Value);
        }
        let word = if len == HALF { expand(taken.value) } else { Some(taken.value) };
        let goes_on = match word {
            Some(word) => self.execute::<UNIT>(word, len),
            None => self.illegal(),
        };
        if goes_on {
            self.pc = self.pc.wrapping_add(len);
        }
        if stack_pointer.value != self.registers[STACK_POINTER].value {
            self.stack_rule(stack_pointer);
        }
    }

    /// What the next step does with memory beside taking its word: where, and with how many bytes.
    pub fn access(&self) -> Option<(Access, u32, u32)> {
        let word = self.next_word()?;
        let funct3 = field(word, 14, 12);
        let base = self.register(field(word, 19, 15)).value;
        match field(word, 6, 0) {
            LOAD if matches!(funct3, 0 | 1 | 2 | 4 | 5) => {
                Some((Access::Read, base.wrapping_add(imm_i(word)), 1 << (funct3 % 4)))
            }
            STORE if funct3 < 3 => Some((Access::Write, base.wrapping_add(imm_s(word)), 1 << funct3)),
            _ if word == ECALL => self.call_access(),
            _ if base % 4 != 0 => None,
            _ => match self.atomic(word)? {
                Atomic::LoadReserved => Some((Access::Read, base, 4)),
                Atomic::StoreConditional => (self.reserved == Some(base)).then_some((Access::Write, base, 4)),
                Atomic::Update(_) => Some((Access::Update, base, 4)),
            },
        }
    }
}
