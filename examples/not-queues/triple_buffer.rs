// triple_buffer.cpp in Rust; --flag=--cfg=wrong for -DWRONG.
#![no_std]
use core::sync::atomic::{AtomicU32, Ordering::*};

const EMPTY: [AtomicU32; 2] = [AtomicU32::new(0), AtomicU32::new(0)];
pub static BUFFERS: [[AtomicU32; 2]; 4] = [EMPTY; 4];
pub static SPARE: AtomicU32 = AtomicU32::new(1); // a buffer's number, and 4 if its record is new

#[no_mangle]
pub extern "C" fn P0() {
    let mut mine = 0;
    for n in 1..=3 {
        BUFFERS[mine & 3][0].store(n, Relaxed);
        BUFFERS[mine & 3][1].store(n, Relaxed);
        mine = SPARE.swap(mine as u32 | 4, AcqRel) as usize;
    }
}

#[no_mangle]
pub extern "C" fn P1() -> bool {
    if SPARE.load(Relaxed) & 4 == 0 {
        return false;
    }
    #[cfg(not(wrong))]
    let mine = SPARE.swap(2, AcqRel) as usize;
    #[cfg(wrong)]
    let mine = SPARE.load(Acquire) as usize;
    #[cfg(wrong)]
    SPARE.store(2, Release);
    let first = BUFFERS[mine & 3][0].load(Relaxed);
    first != BUFFERS[mine & 3][1].load(Relaxed)
}

// exists (1:a0=1)
