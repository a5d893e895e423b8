//! What a program in Rust needs where there is no operating system: a heap, a console, its input, and an end for panics. Each is a call
//! of a function in C, of `heap_by_name.c` or `system.c`.
use alloc::vec::Vec;
use core::alloc::{GlobalAlloc, Layout};
use core::fmt::{self, Write};
use core::panic::PanicInfo;
use core::ptr;

mod c {
    extern "C" {
        pub fn malloc(size: usize) -> *mut u8;
        pub fn realloc(block: *mut u8, size: usize) -> *mut u8;
        pub fn free(block: *mut u8);
        pub fn read(file: i32, bytes: *mut u8, count: usize) -> isize;
        pub fn write(file: i32, bytes: *const u8, count: usize) -> isize;
        pub fn _exit(status: i32) -> !;
    }
}

/// The heap of `malloc`, whose blocks are at multiples of 16.
struct Heap;

const ALIGNMENT: usize = 16;

#[global_allocator]
static HEAP: Heap = Heap;

unsafe impl GlobalAlloc for Heap {
    /// Returns a block, or null if there is no room or the alignment is above 16.
    unsafe fn alloc(&self, layout: Layout) -> *mut u8 {
        if layout.align() > ALIGNMENT {
            return ptr::null_mut();
        }
        c::malloc(layout.size())
    }

    unsafe fn dealloc(&self, block: *mut u8, _: Layout) {
        c::free(block)
    }

    unsafe fn realloc(&self, block: *mut u8, _: Layout, size: usize) -> *mut u8 {
        c::realloc(block, size)
    }
}

/// Writes text to standard output.
pub struct Console;

impl Write for Console {
    fn write_str(&mut self, text: &str) -> fmt::Result {
        let mut rest = text.as_bytes();
        while !rest.is_empty() {
            let count = unsafe { c::write(1, rest.as_ptr(), rest.len()) };
            if count <= 0 {
                return Err(fmt::Error);
            }
            rest = &rest[count as usize..];
        }
        Ok(())
    }
}

/// Returns all that is left of standard input.
pub fn input() -> Vec<u8> {
    let mut all = Vec::new();
    let mut some = [0; 64];
    loop {
        let count = unsafe { c::read(0, some.as_mut_ptr(), some.len()) };
        if count <= 0 {
            return all;
        }
        all.extend_from_slice(&some[..count as usize]);
    }
}

/// Prints what went wrong and where, and ends with 101, as a program of Rust does.
#[panic_handler]
fn panic(info: &PanicInfo) -> ! {
    let _ = writeln!(Console, "{info}");
    unsafe { c::_exit(101) }
}
