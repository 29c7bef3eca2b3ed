// The consumer of the queue that mixed-producer.cpp defines: one queue, whose harts are of two languages.
#![no_std]
use core::cell::UnsafeCell;
use core::sync::atomic::{AtomicU32, Ordering};

#[repr(C)]
struct Queue {
    head: AtomicU32,
    tail: AtomicU32,
    slots: [UnsafeCell<u32>; 2],
}

unsafe impl Sync for Queue {}

extern "C" {
    #[link_name = "queue"]
    static QUEUE: Queue;
}

impl Queue {
    fn pop(&self) -> Option<u32> {
        let head = self.head.load(Ordering::Relaxed);
        if head == self.tail.load(Ordering::Acquire) {
            return None;
        }
        let word = unsafe { *self.slots[head as usize % 2].get() };
        self.head.store(head.wrapping_add(1), Ordering::Release);
        Some(word)
    }
}

#[no_mangle]
pub extern "C" fn P1() -> u32 {
    let mut seen = 0;
    for _ in 0..2 {
        if let Some(word) = unsafe { QUEUE.pop() } {
            seen = 16 * seen + word;
        }
    }
    seen
}
