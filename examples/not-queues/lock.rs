// lock.cpp in Rust; --flag=--cfg=wrong for -DWRONG.
#![no_std]
use core::sync::atomic::{AtomicU32, Ordering::*};

pub static HELD: AtomicU32 = AtomicU32::new(0);
pub static COUNT: AtomicU32 = AtomicU32::new(0);

#[inline(always)]
fn add() {
    #[cfg(not(wrong))]
    while HELD.swap(1, Acquire) != 0 {}
    #[cfg(wrong)]
    {
        while HELD.load(Acquire) != 0 {}
        HELD.store(1, Relaxed);
    }
    COUNT.store(COUNT.load(Relaxed) + 1, Relaxed);
    HELD.store(0, Release);
}

#[no_mangle]
pub extern "C" fn P0() {
    add()
}

#[no_mangle]
pub extern "C" fn P1() {
    add()
}

// exists (COUNT=1)
