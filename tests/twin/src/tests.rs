//! What the twin knows of accessible and undefined bits and of changes at a step, by hand.

use crate::changes::{Change, Place};
use crate::elf::{Image, Segment, Symbol};
use crate::errors::Kind;
use crate::hash::sha256;
use crate::isa::Isa;
use crate::leaks::{self, LeakKind};
use crate::machine::{Bits, Machine, Status};
use crate::memory::RangeKind;
use crate::regions::Regions;
use crate::request::Request;
use crate::session::{LAST_STEP, Session};
use crate::suppressions::{self, Target};
use crate::work::Work;
use std::collections::BTreeMap;
use std::rc::Rc;

const START: u32 = 0x0001_0000;

/// The machine after so many steps of a program.
fn after(words: &[u32], steps: u32) -> Machine {
    let mut machine = Machine::start(Isa::Rv32im, START, words, 0x1000);
    for _ in 0..steps {
        machine.step();
    }
    machine
}

#[test]
fn a_frame_is_undefined_and_a_branch_on_it_is_an_error() {
    // addi x2,x2,-16; lbu x5,3(x2); andi x6,x5,15; beq x6,x0,8; addi x2,x2,16; lb x5,3(x2)
    let words = [0xFF01_0113, 0x0031_4283, 0x00F2_F313, 0x0003_0463, 0x0101_0113, 0x0031_0283];
    let loaded = after(&words, 2);
    assert_eq!((loaded.registers[5].value, loaded.registers[5].undef), (0, 0xFF));
    assert_eq!(after(&words, 3).registers[6].undef, 0xF);
    let branched = after(&words, 4);
    assert_eq!(branched.errors.at(Kind::Cond, START + 12), 1);
    assert_eq!((branched.pc, branched.registers[6].undef), (START + 20, 0));
}

#[test]
fn a_sum_carries_and_a_defined_bit_decides_equality() {
    // addi x2,x2,-16; lbu x5,3(x2); andi x5,x5,16; add x6,x5,x5; sub x7,x0,x5; ori x5,x5,256; beq x5,x0,8; blt x5,x0,8
    let words = [0xFF01_0113, 0x0031_4283, 0x0102_F293, 0x0052_8333, 0x4050_03B3, 0x1002_E293, 0x0002_8463, 0x0002_C463];
    let machine = after(&words, 7);
    assert_eq!((machine.registers[6].undef, machine.registers[7].undef), (0x30, 0xFFFF_FFF0));
    assert_eq!((machine.registers[5].undef, machine.errors.total()), (0x10, 0));
    let compared = after(&words, 8);
    assert_eq!(compared.errors.at(Kind::Cond, START + 28), 1);
    assert_eq!(compared.registers[5].undef, 0);
}

#[test]
fn an_inaccessible_byte_takes_its_value_and_loads_as_defined() {
    // lui x5,0x20; addi x6,x0,-1; sb x6,1(x5); lhu x7,0(x5)
    let words = [0x0002_02B7, 0xFFF0_0313, 0x0062_80A3, 0x0002_D383];
    let machine = after(&words, 4);
    assert_eq!((machine.registers[7].value, machine.registers[7].undef), (0xFF00, 0));
    assert_eq!(machine.errors.at(Kind::Write(1), START + 8), 1);
    assert_eq!(machine.errors.at(Kind::Read(2), START + 12), 1);
}

#[test]
fn a_jump_away_stops_at_the_first_inaccessible_byte() {
    // jal x1,0x2000
    let machine = after(&[0x0000_20EF], 2);
    assert!(machine.status == Status::Jump);
    assert_eq!((machine.pc, machine.registers[1].value), (START + 0x2000, START + 4));
    assert_eq!(machine.errors.at(Kind::Jump, START + 0x2000), 1);
}

/// A machine before its first step, of a program without an end: jal x0,0.
fn waiting() -> Machine {
    Machine::start(Isa::Rv32im, START, &[0x0000_006F], 0x1000)
}

fn changed(machine: &mut Machine, change: Change) -> Bits {
    machine.change(change);
    machine.registers[5]
}

#[test]
fn a_set_register_is_defined_or_as_asked_and_a_flip_keeps_undefined_bits() {
    let (mut machine, place) = (waiting(), Place::Register(5));
    let set = changed(&mut machine, Change::Set { place, bits: Bits { value: 6, undef: 3 } });
    assert_eq!((set.value, set.undef), (6, 3));
    let flipped = changed(&mut machine, Change::Flip { place, mask: 0xFF });
    assert_eq!((flipped.value, flipped.undef), (0xF9, 3));
    machine.change(Change::Flip { place: Place::Pc, mask: 8 });
    machine.change(Change::Skip);
    assert_eq!(machine.pc, START + 12);
    machine.change(Change::Set { place: Place::Pc, bits: Bits { value: 3, undef: 0 } });
    assert_eq!(machine.pc, 3);
}

#[test]
fn a_write_defines_accessible_bytes_and_a_flip_of_memory_defines_none() {
    let (mut machine, end) = (waiting(), START + 0x1000);
    machine.change(Change::Mark { start: end - 4, len: 4, kind: RangeKind::Undefined });
    machine.change(Change::Write { start: end - 2, len: 4, value: 0x0403_0201 });
    let loaded = machine.memory.load::<4>(end - 4);
    assert_eq!((loaded.value, loaded.undef, loaded.bad), (0x0201_0000, 0xFFFF, None));
    let beyond = machine.memory.load::<2>(end);
    assert_eq!((beyond.value, beyond.undef, beyond.bad), (0x0403, 0, Some(end)));
    machine.change(Change::FlipBytes { start: end - 3, mask: 0x0100_FF80 });
    let flipped = machine.memory.load::<4>(end - 4);
    assert_eq!((flipped.value, flipped.undef), (0x02FE_8000, 0xFFFF));
    assert_eq!(machine.memory.load::<1>(end).value, 0x02);
    assert!(machine.errors.is_empty());
}

#[test]
fn a_machine_that_has_ended_takes_marks_only() {
    // ebreak
    let mut machine = after(&[0x0010_0073], 1);
    let before = (machine.pc, machine.memory.load::<4>(START).value);
    let place = Place::Register(5);
    let bits = Bits { value: 1, undef: 1 };
    let changes =
        [Change::Skip, Change::Set { place, bits }, Change::Flip { place, mask: 1 }, Change::FlipBytes { start: START, mask: 1 }];
    for change in [changes.as_slice(), &[Change::Write { start: START, len: 4, value: 0 }]].concat() {
        machine.change(change);
    }
    assert_eq!((machine.pc, machine.memory.load::<4>(START).value, machine.registers[5].value), (before.0, before.1, 0));
    machine.change(Change::Mark { start: START, len: 4, kind: RangeKind::NoAccess });
    assert_eq!(machine.memory.load::<4>(START).bad, Some(START));
}

/// A session on the program that waits, whose segment has so many bytes.
fn session(len: u32) -> Session {
    let segments = vec![Segment { start: START, bytes: 0x6Fu32.to_le_bytes().to_vec(), len }];
    Session::new(
        Isa::Rv32im,
        Image { segments, entry: START, functions: Vec::new(), regions: Regions::default() },
        vec![1, 2, 3],
        LAST_STEP,
    )
}

#[test]
fn a_line_is_refused_for_its_form_then_its_step_then_its_range_then_the_number_of_marks() {
    let mut session = session(0x1000);
    for (line, number) in [
        ("skip", 2),
        ("skip 0 0", 2),
        ("skip -1", 2),
        ("skip 00000000001", 2),
        ("skip 4294967296", 2),
        ("skip 4194305", 5),
        ("set 4194305 x0 1", 2),
        ("set 0 x32 1", 2),
        ("set 0 x05 1", 2),
        ("set 0 a0 1", 2),
        ("set 0 x5 1 2 3", 2),
        ("set 0 pc 1 1", 2),
        ("set 4194305 x5 1", 5),
        ("flip 0 x0 1", 2),
        ("flip 0 0x 1", 2),
        ("flip 4194305 0 1", 5),
        ("write 0 0 1", 2),
        ("write 4194305 0 3 0", 5),
        ("write 0 0 0 0", 6),
        ("write 0 0 3 0", 6),
        ("write 0 0 5 0", 6),
        ("write 0 0 1 256", 6),
        ("write 0 0 2 0x10000", 6),
        ("write 0 0xfffffffd 4 0", 6),
        ("flip 0 0xfffffffd 1", 6),
        ("unmark 0", 7),
        ("patch 0x10002 0", 4),
        ("patch 0x11000 0", 4),
        (" skip 0", 2),
    ] {
        assert_eq!(session.reply(line), format!("refused {number}"), "{line}");
    }
    for line in ["write 0 0xffffffff 1 255", "flip 0 0xfffffffc 0xffffffff", "set 4194304 x31 4294967295 0xFF", "patch 0x10ffc 0"]
    {
        assert_eq!(session.reply(line), "ok", "{line}");
    }
    for _ in 3..4096 {
        assert_eq!(session.reply("skip 1"), "ok");
    }
    for (line, number) in [("skip 1", 10), ("mark 0 0 1 defined", 10), ("write 0 0 3 0", 6), ("unmark 4096", 7)] {
        assert_eq!(session.reply(line), format!("refused {number}"), "{line}");
    }
    assert_eq!((session.reply("unmark 4095"), session.reply("skip 1")), ("ok".to_string(), "ok".to_string()));
}

#[test]
fn a_session_ends_at_its_limit() {
    let segments = vec![Segment { start: START, bytes: 0x6Fu32.to_le_bytes().to_vec(), len: 0x1000 }];
    let image = Image { segments, entry: START, functions: Vec::new(), regions: Regions::default() };
    let mut session = Session::new(Isa::Rv32im, image, vec![1, 2, 3], 5_000_000);
    for line in
        ["goto 5000001", "skip 5000001", "mark 5000001 0 1 defined", "look next run 0 4 5000001", "look last run 0 4 5000001"]
    {
        assert_eq!(session.reply(line), "refused 5", "{line}");
    }
    let replies =
        ["goto 5000", "input 3 0", "input 0 256", "input 0 9", "skip 5000000", "look next run 0x10000 4 5000000", "worked"];
    let wanted = ["ok", "refused 3", "refused 2", "ok", "ok", "step 5000", "worked 5000"];
    assert_eq!(replies.map(|line| session.reply(line)), wanted);
    // Machines are 2,048 apart, so that one is held at step 4,096.
    let replies = ["look calls 0 5000001", "look calls 0 100", "look sides 0x10000 4", "look stack", "look blocks 0", "worked"];
    let wanted = ["refused 5", "end", "sides 2", "stack 0x00010000", "end", "worked 6908"];
    assert_eq!(replies.map(|line| session.reply(line)), wanted);
}

/// The steps of a session that goes to step 20,000,000, again after each of some marks, with machines 8,192 apart: 2,441 times that is
/// 19,996,672. A mark at the step of a held machine leaves that one.
#[test]
fn machines_are_as_far_apart_as_the_limit_asks_for() {
    let mut work = Work::new(30_000_000);
    work.show(20_000_000);
    assert_eq!((work.made(), work.last()), (20_000_000, 19_996_672));
    for (mark, made) in [(19_996_671, 20_011_520), (19_996_672, 20_014_848), (8192, 40_006_656), (8191, 60_006_656)] {
        work.keep(mark);
        work.show(20_000_000);
        assert_eq!(work.made(), made, "{mark}");
    }
    for (limit, last) in [(1, 1024), (4_194_304, 1024), (4_194_305, 0), (2_147_483_647, 0)] {
        let mut work = Work::new(limit);
        work.show(1500);
        assert_eq!(work.last(), last, "{limit}");
    }
    let mut furthest = Work::new(2_147_483_647);
    furthest.show(2_147_483_647);
    assert_eq!(furthest.last(), 4095 << 19);
}

#[test]
fn a_hash_is_that_of_the_standard() {
    // FIPS 180-4's examples: https://csrc.nist.gov/projects/cryptographic-standards-and-guidelines/example-values
    assert_eq!(sha256(b"abc"), "ba7816bf8f01cfea414140de5dae2223b00361a396177a9cb410ff61f20015ad");
    let long = b"abcdbcdecdefdefgefghfghighijhijkijkljklmklmnlmnomnopnopq";
    assert_eq!(sha256(long), "248d6a61d20638b8e5c026930c3e6039a33ce45964ff2167f6ecedd419db06c1");
}

/// A machine at the first address of a function of the heap, with these arguments, which returns to the same address.
fn at_function(name: &str) -> Machine {
    let functions = vec![Symbol { start: START, len: 0, name: name.into() }];
    let segments = vec![Segment { start: START, bytes: Vec::new(), len: 0x1000 }];
    let image = Image { segments, entry: START, functions, regions: Regions::default() };
    let mut machine = Machine::of(Isa::Rv32im, &image, &BTreeMap::new(), Rc::default());
    machine.registers[1].value = START;
    machine
}

/// What the function answers to these arguments.
fn asked(machine: &mut Machine, x: u32, y: u32) -> u32 {
    (machine.registers[10], machine.registers[11]) = (Bits { value: x, undef: 0 }, Bits { value: y, undef: 0 });
    machine.step();
    machine.registers[10].value
}

#[test]
fn each_block_is_at_its_lowest_place_and_a_freed_one_keeps_its_own() {
    let mut machine = at_function("malloc");
    let places = [8, 0, 40, 16_777_216, 16_777_217].map(|size| asked(&mut machine, size, 0));
    assert_eq!(places, [0x4000_0010, 0x4000_0040, 0x4000_0070, 0x4000_00C0, 0]);
    machine.heap.release(0x4000_0040, Vec::new());
    assert_eq!(asked(&mut machine, 1, 0), 0x4100_00E0);
    assert!(machine.memory.load::<1>(0x4000_0018).bad.is_some() && machine.memory.load::<1>(0x4000_0017).undef == 0xFF);
}

#[test]
fn a_resized_block_keeps_its_bytes_and_a_wrong_address_is_an_error() {
    let mut machine = at_function("realloc");
    let block = asked(&mut machine, 0, 8);
    machine.memory.store::<4>(block, 77, 0);
    let other = asked(&mut machine, block, 4);
    assert_eq!((other, machine.memory.load::<4>(other).value, machine.memory.load::<4>(other).undef), (0x4000_0040, 77, 0));
    assert_eq!((machine.memory.load::<1>(block).bad, machine.errors.total()), (Some(block), 0));
    assert_eq!((asked(&mut machine, block, 4), machine.errors.at(Kind::Free, START)), (0, 1));
    assert_eq!((asked(&mut machine, other, 0), machine.heap.live.len()), (0, 0));
}

#[test]
fn of_a_lost_ring_the_lowest_block_is_definitely_lost() {
    let mut machine = at_function("malloc");
    let blocks = [16; 5].map(|size| asked(&mut machine, size, 0));
    for (from, to) in [(0, 1), (1, 0), (1, 2), (3, 4)] {
        machine.memory.store::<4>(blocks[from], blocks[to], 0);
    }
    machine.registers[10].value = blocks[3] + 15;
    let kinds: Vec<LeakKind> = leaks::search(&machine).into_iter().map(|it| it.1).collect();
    let (lost, held, possible) = (LeakKind::Definite, LeakKind::Indirect, LeakKind::Possible);
    assert_eq!(kinds, [lost, held, held, possible, possible]);
    machine.registers[11].value = blocks[4];
    assert_eq!(leaks::search(&machine)[4].1, LeakKind::Reachable);
}

#[test]
fn a_suppression_fits_the_first_names_of_a_trace() {
    let text =
        b"{\n a\n Memcheck:Param\n write(buf)\n fun:w*\n ...\n fun:ma?n\n}\n{\nb\nMemcheck:Leak\nmatch-leak-kinds: possible\n}\n";
    let rules = suppressions::parse(text).expect("two blocks");
    let error = Target::Error(Kind::Parameter("write(buf)", crate::errors::Wrong::Undefined));
    let names: [&[u8]; 4] = [b"write", b"a", b"b", b"main"];
    assert!(rules[0].matches(error, &names) && rules[0].matches(error, &[b"w", b"main"]));
    assert!(!rules[0].matches(error, &names[1..]) && !rules[0].matches(error, &names[..3]));
    assert!(rules[1].matches(Target::Leak(LeakKind::Possible), &[]) && !rules[1].matches(Target::Leak(LeakKind::Definite), &[]));
    assert!(!rules[1].matches(error, &names) && suppressions::parse(b"a\n").is_none());
}

#[test]
fn a_sweep_is_refused_before_it_begins() {
    for words in ["--faults=skip", "--at=0", "--at=0 --faults=skip,skip", "--at=0 --faults=memory", "--at=2..1 --faults=skip"] {
        let words: Vec<String> = words.split(' ').map(String::from).collect();
        assert!(Request::of(Isa::Rv32im, Regions::default(), &words).is_err(), "{words:?}");
    }
    for words in ["--at=5 --faults=skip --step=5", "--at=0.. --faults=skip --step=0", "--at=0 --faults=skip --part=2/1"] {
        let words: Vec<String> = words.split(' ').map(String::from).collect();
        assert!(Request::of(Isa::Rv32im, Regions::default(), &words).is_err(), "{words:?}");
    }
}
