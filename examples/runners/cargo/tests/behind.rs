//! A byte is read after a block; the test itself sees nothing of it.
#![no_std]
#![no_main]

#[no_mangle]
extern "C" fn main() -> i32 {
    assert!(gauge::sum_of(&[1, 2, 3], 4) >= 6);
    gauge::say("behind: ok\n");
    0
}
