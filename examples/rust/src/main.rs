//! Reads a line for each station of a river, its name and the level of its water in centimetres, and prints the highest level. The first
//! byte of the input chooses how: 0 is right, and the others have a bug each.
#![no_std]
#![no_main]

extern crate alloc;

mod kit;

use alloc::{boxed::Box, format, string::String, vec::Vec};
use core::fmt::Write;
use core::mem::{self, MaybeUninit};
use core::{ptr, slice};

struct Station {
    name: String,
    level: u32,
}

fn station_of(line: &str) -> Option<Station> {
    let (name, level) = line.split_once(' ')?;
    Some(Station { name: String::from(name), level: level.parse().ok()? })
}

/// Returns the highest level.
fn highest(levels: &[u32]) -> u32 {
    levels.iter().copied().max().unwrap_or(0)
}

/// Bug: the last turn reads after the Vec.
#[inline(never)]
fn by_pointer(levels: &Vec<u32>) -> u32 {
    let first = levels.as_ptr();
    let mut highest = 0;
    for at in 0..=levels.len() {
        highest = highest.max(unsafe { *first.add(at) });
    }
    highest
}

/// Bug: if there are fewer than four levels, the last entries of the array are uninitialised.
#[inline(never)]
fn of_four(levels: &[u32]) -> u32 {
    let mut entries = [MaybeUninit::uninit(); 4];
    for (entry, level) in entries.iter_mut().zip(levels) {
        *entry = MaybeUninit::new(*level);
    }
    let entries: [u32; 4] = unsafe { mem::transmute(entries) };
    highest(&entries)
}

/// Takes levels away, as a queue does that sends them.
#[inline(never)]
fn send(_: Box<[u32]>) {}

/// Bug: the box is freed when it is sent, and its levels are read after that.
#[inline(never)]
fn of_sent(levels: &[u32]) -> u32 {
    let copy: Box<[u32]> = levels.into();
    let kept: *const [u32] = &*copy;
    send(copy);
    highest(unsafe { &*kept })
}

/// Bug: nothing frees the copy, or keeps where it is.
#[inline(never)]
fn kept_for_ever(levels: &[u32]) -> &'static [u32] {
    Box::leak(levels.into())
}

/// Bug: there is no level at the last index.
#[inline(never)]
fn by_index(levels: &[u32]) -> u32 {
    (0..=levels.len()).map(|at| levels[at]).max().unwrap_or(0)
}

/// Bug: the length includes an entry for which there is room only.
#[inline(never)]
fn with_room(levels: &[u32]) -> u32 {
    let mut copy = Vec::with_capacity(8);
    copy.extend_from_slice(levels);
    highest(unsafe { slice::from_raw_parts(copy.as_ptr(), copy.len() + 1) })
}

/// A line of a cache of 64 bytes.
#[repr(align(64))]
struct Line([u32; 16]);

/// Not a bug, but more than the heap of the kit can do.
#[inline(never)]
fn of_line(levels: &[u32]) -> u32 {
    let mut line = Box::new(Line([0; 16]));
    for (entry, level) in line.0.iter_mut().zip(levels) {
        unsafe { ptr::write_volatile(entry, *level) };
    }
    highest(&line.0)
}

#[no_mangle]
extern "C" fn main() -> i32 {
    let bytes = kit::input();
    let text = core::str::from_utf8(&bytes).expect("no text");
    let stations: Vec<Station> = text.lines().skip(1).filter_map(station_of).collect();
    let levels: Vec<u32> = stations.iter().map(|it| it.level).collect();
    let level = match bytes[0] {
        b'1' => by_pointer(&levels),
        b'2' => of_four(&levels),
        b'3' => of_sent(&levels),
        b'4' => highest(kept_for_ever(&levels)),
        b'5' => by_index(&levels),
        b'6' => with_room(&levels),
        b'7' => of_line(&levels),
        _ => highest(&levels),
    };
    let name = stations.iter().find(|it| it.level == level).map_or("nowhere", |it| it.name.as_str());
    let line = format!("{name}: {level} cm\n");
    kit::Console.write_str(&line).is_err().into()
}
