//! The calls that a program makes of its environment by ECALL, and those of the heap's functions by name.

use crate::errors::{Kind, Wrong};
use crate::heap::{Function, REDZONE};
use crate::looks::Access;
use crate::machine::{Machine, Status, known};
use crate::memory::RangeKind;

const RA: u32 = 1;
const A0: u32 = 10;
const A1: u32 = 11;
const A2: u32 = 12;
const A7: u32 = 17;

const READ: u32 = 63;
const WRITE: u32 = 64;
const EXIT: u32 = 93;
const EXIT_GROUP: u32 = 94;
/// The number of `malloc`; `free`, `calloc` and `realloc` follow.
const HEAP: u32 = 2001;
const FUNCTIONS: [Function; 4] = [Function::Malloc, Function::Free, Function::Calloc, Function::Realloc];

/// What a call answers that fails: an error number negated.
const NO_SUCH_CALL: u32 = 38u32.wrapping_neg();
const NO_ROOM: u32 = 28u32.wrapping_neg();
const BAD_DESCRIPTOR: u32 = 9u32.wrapping_neg();
/// How many bytes a call moves even if they may not be accessed.
const ALWAYS_MOVED: u32 = 4096;

impl Machine {
    fn argument(&self, r: u32) -> u32 {
        self.register(r).value
    }

    fn answer(&mut self, value: u32) {
        self.set(A0, known(value));
    }

    /// Tests the registers from a0 on.
    fn test_parameters(&mut self, names: &[&'static str]) {
        for (r, name) in (A0..).zip(names) {
            self.test(r, Kind::Parameter(name, Wrong::Contains));
        }
    }

    /// ECALL. Answers whether the next instruction is the one after it.
    #[cold]
    #[inline(never)]
    pub fn call(&mut self) -> bool {
        let number = self.argument(A7);
        self.test(A7, Kind::Parameter("(syscallno)", Wrong::Contains));
        match number {
            READ => self.read(),
            WRITE => self.write(),
            EXIT => return self.exit("exit(status)"),
            EXIT_GROUP => return self.exit("exit_group(status)"),
            _ => match FUNCTIONS.get(number.wrapping_sub(HEAP) as usize) {
                Some(function) => self.call_heap(*function),
                None => self.answer(NO_SUCH_CALL),
            },
        }
        true
    }

    fn exit(&mut self, name: &'static str) -> bool {
        self.test_parameters(&[name]);
        self.status = Status::Exited(self.argument(A0) as u8);
        false
    }

    /// How many bytes a call may move: those beyond the first 4,096 only up to the first that may not be accessed.
    fn moved(&self) -> u32 {
        let (start, asked) = (self.argument(A1), self.argument(A2).min(self.limits.moved));
        let is_bad = |i: &u32| self.memory.load::<1>(start.wrapping_add(*i)).bad.is_some();
        (0..asked).find(is_bad).unwrap_or(asked).max(asked.min(ALWAYS_MOVED))
    }

    /// How many bytes `read` gives, by its count and by what is left of the input.
    fn given(&self) -> usize {
        (self.moved() as usize).min(self.input.len() - self.position)
    }

    /// Whether there is room for so many bytes of output.
    fn has_room(&self, count: u32) -> bool {
        self.output + u64::from(count) <= self.limits.output
    }

    /// What ECALL does with memory if it is `read` of the input, or a `write` that finds room: where, and with how many bytes.
    pub fn call_access(&self) -> Option<(Access, u32, u32)> {
        match (self.argument(A7), self.argument(A0)) {
            (READ, 0) => Some((Access::Write, self.argument(A1), self.given() as u32)),
            (WRITE, 1 | 2) if self.has_room(self.moved()) => Some((Access::Read, self.argument(A1), self.moved())),
            _ => None,
        }
    }

    /// `read`: the buffer is tested for as many bytes as may come, and takes those that do, with no undefined bits.
    fn read(&mut self) {
        self.test_parameters(&["read(fd)", "read(buf)", "read(count)"]);
        if self.argument(A0) != 0 {
            return self.answer(BAD_DESCRIPTOR);
        }
        let places = self.buffer();
        if let Some(bad) = places.clone().find(|addr| self.memory.load::<1>(*addr).bad.is_some()) {
            self.raise_at(Kind::Parameter("read(buf)", Wrong::Inaccessible), bad);
        }
        let given = self.given();
        self.note(Access::Write, self.argument(A1), given as u32);
        for (addr, byte) in places.zip(&self.input[self.position..self.position + given]) {
            self.memory.store::<1>(addr, (*byte).into(), 0);
        }
        self.position += given;
        self.answer(given as u32);
    }

    /// The addresses from a1 on of as many bytes as a call may move.
    fn buffer(&self) -> impl Iterator<Item = u32> + Clone + use<> {
        let start = self.argument(A1);
        (0..self.moved()).map(move |i| start.wrapping_add(i))
    }

    /// `write`: the buffer is tested, and its bytes are written even so.
    fn write(&mut self) {
        self.test_parameters(&["write(fd)", "write(buf)", "write(count)"]);
        let count = self.moved();
        if !matches!(self.argument(A0), 1 | 2) {
            return self.answer(BAD_DESCRIPTOR);
        }
        if !self.has_room(count) {
            return self.answer(NO_ROOM);
        }
        self.note(Access::Read, self.argument(A1), count);
        let byte = |addr| (addr, self.memory.load::<1>(addr));
        let bad = self.buffer().map(byte).find(|(_, loaded)| loaded.bad.is_some() || loaded.undef != 0);
        if let Some((addr, loaded)) = bad {
            let wrong = if loaded.bad.is_some() { Wrong::Inaccessible } else { Wrong::Undefined };
            self.raise_at(Kind::Parameter("write(buf)", wrong), addr);
        }
        if self.said.is_some() {
            let bytes: Vec<u8> = self.buffer().map(|addr| self.memory.load::<1>(addr).value as u8).collect();
            let descriptor = self.argument(A0) as usize;
            self.said.iter_mut().for_each(|said| said[descriptor - 1].extend(&bytes));
        }
        self.output += u64::from(count);
        self.answer(count);
    }

    /// A step at the first address of a function of the heap: what it does, and the return to its caller.
    #[cold]
    #[inline(never)]
    pub fn call_by_name(&mut self, function: Function) {
        let to = self.argument(RA) & !1;
        self.test(RA, Kind::Value);
        if to % self.isa.unit() != 0 {
            self.status = Status::Misaligned;
            return;
        }
        self.call_heap(function);
        self.stack.leave(to);
        self.pc = to;
    }

    fn call_heap(&mut self, function: Function) {
        self.heap_calls += 1;
        self.test_parameters(function.parameters());
        let (x, y) = (self.argument(A0), self.argument(A1));
        let result = match function {
            Function::Malloc => self.allocate(x.into(), RangeKind::Undefined),
            Function::Calloc => self.allocate_zeros(u64::from(x) * u64::from(y)),
            Function::Free => self.free(x),
            Function::Realloc => self.resize(x, y),
        };
        self.answer(result);
    }

    /// A block whose bytes are made of a kind, between red zones; 0 if it has no place.
    fn allocate(&mut self, size: u64, kind: RangeKind) -> u32 {
        let Some(start) = self.heap.allocate(size, self.stack.trace(self.pc)) else { return 0 };
        let size = size as u32;
        self.memory.set_range(start - REDZONE, size.max(1) + 2 * REDZONE, RangeKind::NoAccess);
        self.memory.set_range(start, size, kind);
        start
    }

    fn allocate_zeros(&mut self, size: u64) -> u32 {
        let start = self.allocate(size, RangeKind::Defined);
        if start != 0 {
            self.note(Access::Write, start, size as u32);
            for i in 0..size as u32 {
                self.memory.store::<1>(start + i, 0, 0);
            }
        }
        start
    }

    /// `free`: it answers 0. An address at which no live block begins is an error.
    fn free(&mut self, start: u32) -> u32 {
        if start != 0 {
            match self.heap.release(start, self.stack.trace(self.pc)) {
                Some(block) => self.memory.set_range(block.start, block.size, RangeKind::NoAccess),
                None => self.raise_at(Kind::Free, start),
            }
        }
        0
    }

    /// `realloc`: the new block is allocated, the bytes are copied with their undefined bits, and the old one is freed.
    fn resize(&mut self, old: u32, size: u32) -> u32 {
        if old == 0 {
            return self.allocate(size.into(), RangeKind::Undefined);
        }
        let Some(len) = self.heap.live.get(&old).map(|it| it.size) else { return self.free(old) };
        if size == 0 {
            return self.free(old);
        }
        let new = self.allocate(size.into(), RangeKind::Undefined);
        if new != 0 {
            self.note(Access::Read, old, len.min(size));
            self.note(Access::Write, new, len.min(size));
            for i in 0..len.min(size) {
                let loaded = self.memory.load::<1>(old + i);
                self.memory.store::<1>(new + i, loaded.value, loaded.undef);
            }
            self.free(old);
        }
        new
    }
}
