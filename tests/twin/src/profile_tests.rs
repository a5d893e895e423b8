//! What the twin knows of 16-bit and atomic instructions and of control registers, by hand.

use crate::changes::Change;
use crate::elf::{Image, Segment};
use crate::errors::Kind;
use crate::isa::Isa;
use crate::looks::Access;
use crate::machine::{Bits, Machine, Status};
use crate::memory::RangeKind;
use crate::regions::Regions;
use crate::session::{LAST_STEP, Session};

const START: u32 = 0x0001_0000;
/// Where a program's data is, behind its code.
const DATA: u32 = START + 0x100;
const RD: usize = 10;

/// A machine before its first step, of halves and of as many bytes of memory.
fn of_halves(isa: Isa, halves: &[u16], len: u32) -> Machine {
    let padded: Vec<u16> = halves.iter().copied().chain([0]).collect();
    let words: Vec<u32> = padded.chunks_exact(2).map(|it| u32::from(it[0]) | u32::from(it[1]) << 16).collect();
    Machine::start(isa, START, &words, len)
}

fn after(isa: Isa, halves: &[u16], steps: u32) -> Machine {
    let mut machine = of_halves(isa, halves, 0x1000);
    for _ in 0..steps {
        machine.step();
    }
    machine
}

/// A machine at a word, with these bits in x11 and x12, and DATA in x13.
fn before(isa: Isa, word: u32, x: Bits, y: Bits) -> Machine {
    let mut machine = Machine::start(isa, START, &[word], 0x1000);
    machine.memory.store::<4>(DATA, x.value, x.undef);
    (machine.registers[11], machine.registers[12]) = (x, y);
    machine.registers[13] = Bits { value: DATA, undef: 0 };
    machine
}

fn bits(value: u32, undef: u32) -> Bits {
    Bits { value, undef }
}

/// The word of an atomic instruction with rd x10, the address in x13, and rs2 x12.
fn atomic(funct5: u32) -> u32 {
    funct5 << 27 | 12 << 20 | 13 << 15 | 2 << 12 | 10 << 7 | 0x2F
}

/// LR.W x10, (x13).
const LOAD_RESERVED: u32 = 2 << 27 | 13 << 15 | 2 << 12 | 10 << 7 | 0x2F;

#[test]
fn a_short_call_links_the_half_after_it() {
    // c.jal .+6; c.nop; c.nop; c.jr x1
    let machine = after(Isa::Rv32imc, &[0x2019, 0x0001, 0x0001, 0x8082], 1);
    assert_eq!((machine.pc, machine.registers[1].value), (START + 6, START + 2));
    assert_eq!(machine.stack.trace(machine.pc), [START + 6, START]);
    let returned = after(Isa::Rv32imc, &[0x2019, 0x0001, 0x0001, 0x8082], 2);
    assert_eq!((returned.pc, returned.stack.trace(0).len()), (START + 2, 1));
}

#[test]
fn halves_are_illegal_without_the_extension_and_misaligned_targets_stop() {
    let machine = after(Isa::Rv32im, &[0x0001, 0x0001], 1);
    assert_eq!((machine.status, machine.pc), (Status::Illegal, START));
    // jal x0, 2
    let words = [0x006F, 0x0020];
    assert_eq!(after(Isa::Rv32im, &words, 1).status, Status::Misaligned);
    assert_eq!(after(Isa::Rv32imc, &words, 1).status, Status::Running);
    // A shift by 32 in 16 bits, and the half 0.
    assert_eq!(after(Isa::Rv32imc, &[0x1002], 1).status, Status::Illegal);
    assert_eq!(after(Isa::Rv32imc, &[0x0000], 1).status, Status::Illegal);
}

#[test]
fn an_instruction_that_is_cut_at_the_end_of_memory_stops_at_its_second_half() {
    let mut machine = of_halves(Isa::Rv32imc, &[0x0001, 0x0001, 0x0001, 0x0013], 8);
    for _ in 0..4 {
        machine.step();
    }
    assert_eq!((machine.status, machine.pc), (Status::Jump, START + 6));
    assert_eq!(machine.errors.by_place().into_iter().collect::<Vec<_>>(), [((Kind::Jump, START + 6), (1, Some(START + 8)))]);
    let mut machine = of_halves(Isa::Rv32imc, &[0x0001], 2);
    machine.step();
    machine.step();
    assert_eq!((machine.status, machine.errors.at(Kind::Jump, START + 2)), (Status::Jump, 1));
    let mut machine = of_halves(Isa::Rv32imc, &[0x0013], 2);
    machine.memory.set_range(START, 2, RangeKind::Undefined);
    machine.step();
    assert_eq!((machine.errors.at(Kind::Value, START), machine.errors.at(Kind::Jump, START)), (1, 1));
}

#[test]
fn undefined_bits_of_a_half_are_one_error_and_a_skip_goes_on_by_the_length() {
    let mut machine = of_halves(Isa::Rv32imc, &[0x0001, 0x0013, 0x0000], 8);
    machine.memory.set_range(START, 8, RangeKind::Undefined);
    machine.step();
    machine.step();
    assert_eq!((machine.errors.at(Kind::Value, START), machine.errors.at(Kind::Value, START + 2)), (1, 1));
    let mut machine = of_halves(Isa::Rv32imc, &[0x0001, 0x0013, 0x0000], 8);
    machine.change(Change::Skip);
    assert_eq!(machine.pc, START + 2);
    machine.change(Change::Skip);
    assert_eq!(machine.pc, START + 6);
}

#[test]
fn an_update_reads_and_writes_four_bytes() {
    for (funct5, x, y, stored) in [
        (0, bits(5, 0), bits(7, 0), bits(12, 0)),
        (0, bits(16, 16), bits(16, 0), bits(32, 0x30)),
        (1, bits(5, 1), bits(7, 2), bits(7, 2)),
        (4, bits(5, 1), bits(6, 8), bits(3, 9)),
        (8, bits(0xF0, 3), bits(1, 0), bits(0xF1, 2)),
        (12, bits(0xF0, 3), bits(0xF1, 0), bits(0xF0, 1)),
        (16, bits(5, 0), bits(u32::MAX, 0), bits(u32::MAX, 0)),
        (20, bits(5, 0), bits(u32::MAX, 0), bits(5, 0)),
        (24, bits(5, 0), bits(u32::MAX, 1), bits(5, u32::MAX)),
        (28, bits(5, 0), bits(u32::MAX, 0), bits(u32::MAX, 0)),
    ] {
        let mut machine = before(Isa::Rv32imac, atomic(funct5), x, y);
        assert!(machine.access() == Some((Access::Update, DATA, 4)), "{funct5}");
        machine.step();
        let loaded = machine.memory.load::<4>(DATA);
        assert_eq!((loaded.value, loaded.undef), (stored.value, stored.undef), "{funct5}");
        assert_eq!((machine.registers[RD].value, machine.registers[RD].undef), (x.value, x.undef), "{funct5}");
        assert_eq!((machine.errors.total(), machine.pc), (0, START + 4), "{funct5}");
    }
}

#[test]
fn an_update_tests_its_address_and_both_its_accesses() {
    let mut machine = before(Isa::Rv32imac, atomic(0), bits(0, 0), bits(0, 0));
    machine.registers[13] = bits(DATA + 2, 2);
    machine.step();
    assert_eq!((machine.status, machine.pc, machine.errors.at(Kind::Value, START)), (Status::Misaligned, START, 1));
    let mut machine = before(Isa::Rv32imac, atomic(0), bits(0, 0), bits(0, 0));
    machine.registers[13] = bits(0x0002_0000, 0);
    machine.step();
    let found = (machine.errors.at(Kind::Read(4), START), machine.errors.at(Kind::Write(4), START));
    assert_eq!((found, machine.status), ((1, 1), Status::Running));
    let mut machine = before(Isa::Rv32imc, atomic(0), bits(0, 0), bits(0, 0));
    machine.step();
    assert_eq!(machine.status, Status::Illegal);
}

/// What SC answers after these words and it, and what the memory then has.
fn conditional(words: &[u32]) -> (u32, u32) {
    let mut machine = Machine::start(Isa::Rv32imac, START, &[words, &[atomic(3)]].concat(), 0x1000);
    machine.registers[12] = bits(9, 0xF0);
    machine.registers[13] = bits(DATA, 0);
    for _ in 0..=words.len() {
        machine.step();
    }
    assert_eq!((machine.errors.total(), machine.registers[RD].undef), (0, 0));
    (machine.registers[RD].value, machine.memory.load::<4>(DATA).value)
}

#[test]
fn a_store_is_made_only_after_a_load_that_reserved_its_address() {
    // addi x13, x13, 4 and -4; sw x0, 0(x13)
    let (there, back, store) = (0x0046_8693, 0xFFC6_8693, 0x0006_A023);
    assert_eq!(conditional(&[]), (1, 0));
    assert_eq!(conditional(&[LOAD_RESERVED]), (0, 9));
    assert_eq!(conditional(&[LOAD_RESERVED, store]), (0, 9));
    assert_eq!(conditional(&[LOAD_RESERVED, atomic(3)]), (1, 9));
    assert_eq!(conditional(&[there, LOAD_RESERVED, back]), (1, 0));
    assert_eq!(conditional(&[LOAD_RESERVED, there, atomic(3), back]), (1, 0));
    let machine = after(Isa::Rv32imac, &[(LOAD_RESERVED | 1 << 20) as u16, ((LOAD_RESERVED | 1 << 20) >> 16) as u16], 1);
    assert_eq!(machine.status, Status::Illegal);
}

/// The word of an instruction of a control register, with rd x10.
fn control(number: u32, funct3: u32, rs1: u32) -> u32 {
    number << 20 | rs1 << 15 | funct3 << 12 | 10 << 7 | 0x73
}

/// What a control register has after an instruction of it, and what x10 has got, where it had bits before, and x11 has others.
fn controlled(funct3: u32, rs1: u32, old: Bits) -> (Bits, Bits) {
    let mut machine = before(Isa::Rv32imc, control(0x340, funct3, rs1), bits(0b1100, 0b1010_0000), bits(0, 0));
    machine.controls.insert(0x340, old);
    machine.step();
    assert_eq!((machine.pc, machine.errors.total()), (START + 4, 0));
    (machine.controls[&0x340], machine.registers[RD])
}

#[test]
fn control_registers_keep_bits_with_those_that_are_undefined() {
    let old = bits(0b1010, 0b0110_0000);
    for (funct3, rs1, value, undef) in [
        (1, 11, 0b1100, 0b1010_0000),
        (2, 11, 0b1110, 0b1110_0000),
        (3, 11, 0b0010, 0b0110_0000),
        (5, 17, 17, 0),
        (6, 17, 0b1_1011, 0b0110_0000),
        (7, 10, 0, 0b0110_0000),
        (2, 0, 0b1010, 0b0110_0000),
        (7, 0, 0b1010, 0b0110_0000),
    ] {
        let (new, answered) = controlled(funct3, rs1, old);
        assert_eq!((new.value, new.undef), (value, undef), "funct3 {funct3}");
        assert_eq!((answered.value, answered.undef), (old.value, old.undef), "funct3 {funct3}");
    }
}

#[test]
fn the_usual_profile_has_no_control_registers() {
    // fence.i, wfi, and mscratch read
    for word in [0x0000_100F, 0x1050_0073, control(0x340, 2, 0)] {
        for (isa, status) in [(Isa::Rv32imac, Status::Running), (Isa::Rv32imc, Status::Running), (Isa::Rv32im, Status::Illegal)] {
            let mut machine = Machine::start(isa, START, &[word], 0x1000);
            machine.step();
            assert_eq!(machine.status, status, "{word:#010x} of {}", isa.name());
        }
    }
    for (isa, status) in [(Isa::Rv32imac, Status::Running), (Isa::Rv32imc, Status::Illegal)] {
        assert_eq!(after(isa, &[LOAD_RESERVED as u16, (LOAD_RESERVED >> 16) as u16], 1).status, status);
    }
}

#[test]
fn counters_are_the_steps_before_and_keep_nothing() {
    // minstret written, then read; mhartid, which nobody writes; cycle
    let words = [control(0xB02, 1, 13), control(0xB02, 2, 0), control(0xF14, 2, 0), control(0xC00, 2, 0), control(0xB82, 2, 0)];
    let mut machine = Machine::start(Isa::Rv32imac, START, &words, 0x1000);
    let mut answered = Vec::new();
    for _ in words {
        machine.step();
        answered.push(machine.registers[RD].value);
    }
    assert_eq!((answered, machine.status), (vec![0, 1, 0, 3, 0], Status::Running));
    let mut written = Machine::start(Isa::Rv32imac, START, &[control(0xC03, 1, 13)], 0x1000);
    written.step();
    assert_eq!(written.status, Status::Illegal);
}

#[test]
fn counters_count_an_instruction_that_is_left_out() {
    let words = [0x0000_0013, 0x0000_0013, control(0xB02, 2, 0)];
    for isa in [Isa::Rv32imc, Isa::Rv32imac] {
        let mut machine = Machine::start(isa, START, &words, 0x1000);
        machine.step();
        machine.change(Change::Skip);
        machine.step();
        assert_eq!(machine.registers[RD].value, 2);
    }
}

#[test]
fn a_fence_of_instructions_and_a_wait_do_nothing_and_a_return_from_a_trap_is_illegal() {
    for (word, status) in [(0x0000_100F, Status::Running), (0x1050_0073, Status::Running), (0x3020_0073, Status::Illegal)] {
        let mut machine = Machine::start(Isa::Rv32imc, START, &[word], 0x1000);
        machine.step();
        assert_eq!(machine.status, status, "{word:#x}");
        let mut usual = Machine::start(Isa::Rv32im, START, &[word], 0x1000);
        usual.step();
        assert_eq!(usual.status, Status::Illegal, "{word:#x}");
    }
}

#[test]
fn patches_are_at_each_half_and_later_ones_are_over_earlier_ones() {
    let image = || Image {
        segments: vec![Segment { start: START, bytes: vec![1, 0, 1, 0, 1, 0, 1, 0], len: 8 }],
        entry: START,
        functions: Vec::new(),
        regions: Regions::default(),
    };
    for isa in [Isa::Rv32imc, Isa::Rv32imac] {
        let mut session = Session::new(isa, image(), Vec::new(), LAST_STEP);
        for (line, reply) in [
            ("patch 0x10002 0x04030201", "ok"),
            ("patch16 0x10004 0xffff", "ok"),
            ("look memory 0x10000 8", "bytes 01000102ffff0100\nundef 0000000000000000"),
            ("patch16 0x10006 65535", "ok"),
            ("patch 0x10006 0", "refused 4"),
            ("patch16 0x10008 0", "refused 4"),
            ("patch16 0x10001 0", "refused 4"),
            ("patch16 0x10000 0x10000", "refused 2"),
            ("patch16 0x10001 0x10000", "refused 2"),
            ("patch16 0x10000", "refused 2"),
            ("patch16 0x10000 0 0", "refused 2"),
            ("patch16 10000x 0", "refused 2"),
        ] {
            assert_eq!(session.reply(line), reply, "{line}");
        }
    }
    let mut usual = Session::new(Isa::Rv32im, image(), Vec::new(), LAST_STEP);
    for line in ["patch16 0x10000 0", "patch16 0x10001 0x10000", "patch16"] {
        assert_eq!(usual.reply(line), "refused 2", "{line}");
    }
    assert_eq!(usual.reply("patch 0x10002 0"), "refused 4");
}
