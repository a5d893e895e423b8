//! What a program without an operating system needs of the kit.
#![no_std]
use core::panic::PanicInfo;

extern "C" {
    fn write(file: i32, bytes: *const u8, count: usize) -> isize;
    fn _exit(status: i32) -> !;
    fn malloc(size: usize) -> *mut u8;
    fn free(block: *mut u8);
}

/// Writes a text to standard output.
pub fn say(text: &str) {
    unsafe { write(1, text.as_ptr(), text.len()) };
}

/// Returns the sum of some levels in a block of the heap, as many as `count` says.
pub fn sum_of(levels: &[u8], count: usize) -> u32 {
    let mut sum = 0;
    unsafe {
        let block = malloc(levels.len());
        core::ptr::copy_nonoverlapping(levels.as_ptr(), block, levels.len());
        for at in 0..count {
            sum += u32::from(*block.add(at));
        }
        free(block);
    }
    sum
}

#[panic_handler]
fn panic(_: &PanicInfo) -> ! {
    unsafe { _exit(101) }
}
