//! In place of the crate compiler_builtins, whose source Debian's rust-src doesn't have. Its functions are those of `memory.c` and libgcc.
#![feature(compiler_builtins, no_core)]
#![compiler_builtins]
#![no_builtins]
#![no_core]
