//! A queue of words from one hart to another, for Rust without the standard library: the blocks, and the functions of functions.S,
//! which is assembled and linked beside it. docs/functions.md has what callers owe and what they get.
//!
//! ```ignore
//! mod queue;
//! pub static QUEUE: queue::Lamport<8> = queue::Lamport::new(); // 8 slots: at most 7 words wait in it
//! unsafe { QUEUE.try_send(word) } // on the hart that sends: whether it sent the word, or found the queue full
//! unsafe { QUEUE.try_receive() } // on the hart that receives: the word, or None if it found the queue empty
//! ```
//!
//! `Cached` reads the receiver's index only if its copy of it says that the queue is full; `FastForward` has 8 words in 8 slots,
//! none of them 0. On a hart leave `c` out of the target's features, as rule 7 asks.
#![allow(dead_code)]

use core::cell::UnsafeCell;
use core::ffi::c_void;

/// A part of a block that begins a cache line.
#[repr(C, align(64))]
struct Line<T>(UnsafeCell<T>);

impl<T> Line<T> {
    const fn new(value: T) -> Self {
        Line(UnsafeCell::new(value))
    }
}

/// What a receive returns, in a0 and a1.
#[repr(C)]
struct Received {
    ok: u32,
    word: u32,
}

impl Received {
    fn word(self) -> Option<u32> {
        if self.ok != 0 {
            Some(self.word)
        } else {
            None
        }
    }
}

extern "C" {
    fn lamport_try_send(block: *mut c_void, word: u32, bytes: u32) -> u32;
    fn lamport_try_receive(block: *mut c_void, unused: u32, bytes: u32) -> Received;
    fn cached_try_send(block: *mut c_void, word: u32, bytes: u32) -> u32;
    fn fastforward_try_send(block: *mut c_void, word: u32, bytes: u32) -> u32;
    fn fastforward_try_receive(block: *mut c_void, unused: u32, bytes: u32) -> Received;
}

/// The methods of a block, by its functions.
macro_rules! queue {
    ($block:ident, $send:ident, $receive:ident) => {
        unsafe impl<const SLOTS: usize> Sync for $block<SLOTS> {}

        impl<const SLOTS: usize> $block<SLOTS> {
            const BYTES: u32 = 4 * SLOTS as u32;

            fn block(&self) -> *mut c_void {
                self as *const Self as *mut c_void
            }

            /// Sends the word, or returns false and stores nothing: it found the queue full.
            ///
            /// # Safety
            ///
            /// The rules of docs/functions.md: one hart sends, and nothing else writes to the block.
            pub unsafe fn try_send(&self, word: u32) -> bool {
                $send(self.block(), word, Self::BYTES) != 0
            }

            /// Receives the oldest word, or returns None and stores nothing: it found the queue empty.
            ///
            /// # Safety
            ///
            /// The rules of docs/functions.md: one hart receives, and nothing else writes to the block.
            pub unsafe fn try_receive(&self) -> Option<u32> {
                $receive(self.block(), 0, Self::BYTES).word()
            }
        }
    };
}

/// A block of Lamport's queue, empty, with at least 2 slots.
#[repr(C, align(64))]
pub struct Lamport<const SLOTS: usize> {
    head: UnsafeCell<u32>,
    tail: Line<u32>,
    slots: Line<[u32; SLOTS]>,
}

impl<const SLOTS: usize> Lamport<SLOTS> {
    pub const fn new() -> Self {
        assert!(SLOTS >= 2);
        Lamport { head: UnsafeCell::new(0), tail: Line::new(0), slots: Line::new([0; SLOTS]) }
    }
}

/// The same with a cached tail: the sender keeps a copy of the tail beside the head.
#[repr(C, align(64))]
pub struct Cached<const SLOTS: usize> {
    head: UnsafeCell<u32>,
    copy: UnsafeCell<u32>,
    tail: Line<u32>,
    cached_slots: Line<[u32; SLOTS]>,
}

impl<const SLOTS: usize> Cached<SLOTS> {
    pub const fn new() -> Self {
        assert!(SLOTS >= 2);
        Cached { head: UnsafeCell::new(0), copy: UnsafeCell::new(0), tail: Line::new(0), cached_slots: Line::new([0; SLOTS]) }
    }
}

/// A block of FastForward's queue, empty, with at least 1 slot. A slot that holds 0 is free, so no word is 0.
#[repr(C, align(64))]
pub struct FastForward<const SLOTS: usize> {
    head: UnsafeCell<u32>,
    tail: Line<u32>,
    words_or_0: Line<[u32; SLOTS]>,
}

impl<const SLOTS: usize> FastForward<SLOTS> {
    pub const fn new() -> Self {
        assert!(SLOTS >= 1);
        FastForward { head: UnsafeCell::new(0), tail: Line::new(0), words_or_0: Line::new([0; SLOTS]) }
    }
}

queue!(Lamport, lamport_try_send, lamport_try_receive);
queue!(Cached, cached_try_send, lamport_try_receive);
queue!(FastForward, fastforward_try_send, fastforward_try_receive);
