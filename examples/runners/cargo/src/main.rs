//! Right.
#![no_std]
#![no_main]

#[no_mangle]
extern "C" fn main() -> i32 {
    assert!(gauge::sum_of(&[1, 2, 3], 3) == 6);
    gauge::say("levels: ok\n");
    0
}
