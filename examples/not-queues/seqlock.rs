// seqlock.cpp in Rust; --flag=--cfg=wrong for -DWRONG.
#![no_std]
use core::sync::atomic::{fence, AtomicU32, Ordering::*};

pub static NUMBER: AtomicU32 = AtomicU32::new(0);
pub static FIRST: AtomicU32 = AtomicU32::new(0);
pub static SECOND: AtomicU32 = AtomicU32::new(0);

#[no_mangle]
pub extern "C" fn P0() {
    #[cfg(not(wrong))]
    {
        NUMBER.store(1, Relaxed);
        fence(Release);
    }
    FIRST.store(1, Relaxed);
    SECOND.store(1, Relaxed);
    NUMBER.store(2, Release);
}

#[no_mangle]
pub extern "C" fn P1() -> i32 {
    let number = NUMBER.load(Acquire);
    let (first, second) = (FIRST.load(Relaxed), SECOND.load(Relaxed));
    fence(Acquire);
    if number % 2 != 0 || number != NUMBER.load(Relaxed) {
        return -1;
    }
    (first != second) as i32
}

// exists (1:a0=1)
