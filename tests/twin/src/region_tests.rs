//! What the twin knows of regions of heap and stack, by hand.

use crate::elf::{Image, Segment};
use crate::isa::Isa;
use crate::machine::Machine;
use crate::regions::Regions;
use std::collections::BTreeMap;
use std::rc::Rc;

const RAM: u32 = 0x3FC8_0000;
const RAM_LEN: u32 = 0x2_0000;

fn image(start: u32, bytes: usize, len: u32, heap: Option<&str>, stack: Option<&str>) -> Option<Image> {
    let regions = Regions::of(heap, stack).expect("they are right");
    Image::with(vec![Segment { start, bytes: vec![0x13; bytes], len }], start, Vec::new(), regions)
}

#[test]
fn the_first_fault_of_regions_is_said() {
    let heap = "not a multiple of 0x10000000 from 0x10000000 to 0xd0000000: --heap-region ";
    let stack = "not A..B, multiples of 4096 at least 65536 apart: --stack-region ";
    for text in
        ["0x0", "0x8000000", "0xe0000000", "0x30000001", "", "x", "0x100000000", "0X10000000", "+0x10000000", "4294967296"]
    {
        assert_eq!(Regions::of(Some(text), Some("1")), Err(format!("{heap}{text}")));
    }
    for text in ["1", "0x1000", "..", "0x10000..", "0x10000..0x1f000", "0x10000..0x20001", "0x10001..0x30001", "0x20000..0x10000"]
    {
        assert_eq!(Regions::of(Some("0x60000000"), Some(text)), Err(format!("{stack}{text}")));
    }
    let meet = "heap region and stack region overlap:";
    assert_eq!(
        Regions::of(Some("0x70000000"), None),
        Err(format!("{meet} --heap-region 0x70000000 --stack-region 0x7f000000..0x80000000"))
    );
    let (heap, stack) = ("0x20000000", "0x3fff0000..0x40000000");
    assert_eq!(Regions::of(Some(heap), Some(stack)), Err(format!("{meet} --heap-region {heap} --stack-region {stack}")));
    assert_eq!(
        Regions::of(None, Some("0x4..0x5")).map(|_| ()),
        Err("not A..B, multiples of 4096 at least 65536 apart: --stack-region 0x4..0x5".to_string())
    );
    assert_eq!(
        Regions::of(None, Some("0x5fff0000..0x60000000")).map(|_| ()),
        Err(format!("{meet} --heap-region 0x40000000 --stack-region 0x5fff0000..0x60000000"))
    );
}

#[test]
fn regions_beside_each_other_are_right() {
    for (heap, stack) in
        [("0x10000000", "0x0..0x10000"), ("0xd0000000", "0xf0000000..0xfffff000"), ("2684354560", "0x7f000000..0x80000000")]
    {
        assert!(Regions::of(Some(heap), Some(stack)).is_ok(), "{heap} {stack}");
    }
    assert_eq!(Regions::of(None, Some("0x3fc80000..0x3fca0000")).unwrap().lines(), "stack-region 0x3fc80000..0x3fca0000\n");
    assert_eq!(Regions::of(Some("0x30000000"), None).unwrap().lines(), "heap-region 0x30000000\n");
    assert_eq!(Regions::of(Some("0x40000000"), Some("0x7f000000..0x80000000")).unwrap().lines(), "");
}

#[test]
fn a_segment_has_a_stack_only_past_its_bytes() {
    let stack = Some("0x3fc90000..0x3fca0000");
    let inside = image(RAM, 0x1_0000, RAM_LEN, None, stack).expect("the stack is past the bytes");
    let machine = Machine::of(Isa::Rv32im, &inside, &BTreeMap::new(), Rc::default());
    assert_eq!(machine.registers[2].value, 0x3FC9_FFF0);
    let is_bad = |addr| machine.memory.load::<1>(addr).bad.is_some();
    assert_eq!(
        [0x3FC8_FFFF, 0x3FC9_0000, 0x3FC9_FFEF, 0x3FC9_FFF0, 0x3FC9_FFFF, 0x3FCA_0000].map(is_bad),
        [false, true, true, false, false, true]
    );
    assert!(!inside.has_bytes(0x3FC9_0000, 4) && !inside.has_bytes(0x3FC9_FFF0, 4));
    assert!(image(RAM, 0x1_0001, RAM_LEN, None, stack).is_none(), "bytes of the file in the stack");
    assert!(image(RAM, 0x1_0000, RAM_LEN - 1, None, stack).is_none(), "a part of the stack only");
    assert!(image(RAM, 0, RAM_LEN, None, Some("0x3fc70000..0x3fc90000")).is_none(), "a stack from before it on");
    let past = image(RAM, 4, RAM_LEN, None, Some("0x3fc88000..0x3fc98000")).expect("a stack amid it");
    assert!(past.has_bytes(0x3FC9_8000, 0x8000) && past.has_bytes(RAM, 0x8000));
    assert!(image(0x7F00_0000, 0, 0x100_0000, None, None).is_none(), "the usual stack");
    assert!(image(0x7F00_0000, 0, 0x100_0000, None, Some("0x7f000000..0x7fff0000")).is_some());
}

#[test]
fn a_heap_is_where_it_is_put() {
    assert!(image(0x4000_0000, 4, 4, None, None).is_none());
    let image = image(0x4000_0000, 4, 4, Some("0x90000000"), None).expect("the heap is elsewhere");
    let mut machine = Machine::of(Isa::Rv32im, &image, &BTreeMap::new(), Rc::default());
    assert_eq!([1, 1].map(|size| machine.heap.allocate(size, Vec::new())), [Some(0x9000_0010), Some(0x9000_0040)]);
    for _ in 0..31 {
        machine.heap.allocate(16_777_216, Vec::new());
    }
    assert_eq!(machine.heap.allocate(16_777_216, Vec::new()), None);
}
