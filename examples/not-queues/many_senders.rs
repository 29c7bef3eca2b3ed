// many_senders.cpp in Rust; --flag=--cfg=wrong for -DWRONG.
#![no_std]
use core::sync::atomic::{AtomicU32, Ordering::*};

const ZERO: AtomicU32 = AtomicU32::new(0);
pub static NEXT: AtomicU32 = AtomicU32::new(0);
pub static FULL: [AtomicU32; 2] = [ZERO; 2];
pub static RECORD: [AtomicU32; 2] = [ZERO; 2];

#[inline(always)]
fn send(record: u32) {
    #[cfg(not(wrong))]
    let position = NEXT.fetch_add(1, Relaxed) as usize & 1;
    #[cfg(wrong)]
    let position = NEXT.load(Relaxed) as usize & 1;
    #[cfg(wrong)]
    NEXT.store(position as u32 + 1, Relaxed);
    RECORD[position].store(record, Relaxed);
    FULL[position].store(1, Release);
}

#[no_mangle]
pub extern "C" fn P0() {
    send(5)
}

#[no_mangle]
pub extern "C" fn P1() {
    send(7)
}

#[no_mangle]
pub extern "C" fn P2() -> u32 {
    if FULL[0].load(Acquire) != 0 {
        RECORD[0].load(Relaxed)
    } else {
        1
    }
}

// exists (NEXT=1 \/ 2:a0=0)
