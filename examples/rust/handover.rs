// The queue of docs/functions.md called from Rust, behind a channel that passes whole values: may the second hart miss one of two
// messages?
#![no_std]
use core::cell::UnsafeCell;

#[path = "../bare-metal/queue.rs"]
mod queue;

pub struct Channel<T, const SLOTS: usize, const BUFFERS: usize> {
    places: queue::Lamport<SLOTS>,
    buffers: [UnsafeCell<T>; BUFFERS],
}

unsafe impl<T: Send, const SLOTS: usize, const BUFFERS: usize> Sync for Channel<T, SLOTS, BUFFERS> {}

pub struct Sender<'a, T, const SLOTS: usize, const BUFFERS: usize> {
    channel: &'a Channel<T, SLOTS, BUFFERS>,
    next: usize,
}

pub struct Receiver<'a, T, const SLOTS: usize, const BUFFERS: usize>(&'a Channel<T, SLOTS, BUFFERS>);

impl<T, const SLOTS: usize, const BUFFERS: usize> Sender<'_, T, SLOTS, BUFFERS> {
    pub fn send(&mut self, value: T) {
        unsafe {
            *self.channel.buffers[self.next].get() = value;
            while !self.channel.places.try_send(self.next as u32) {}
        }
        self.next = if self.next + 1 == BUFFERS { 0 } else { self.next + 1 };
    }
}

impl<T: Copy, const SLOTS: usize, const BUFFERS: usize> Receiver<'_, T, SLOTS, BUFFERS> {
    pub fn receive(&mut self) -> T {
        loop {
            if let Some(place) = unsafe { self.0.places.try_receive() } {
                return unsafe { *self.0.buffers.get_unchecked(place as usize).get() };
            }
        }
    }
}

pub static MAIL: Channel<u32, 2, 3> =
    Channel { places: queue::Lamport::new(), buffers: [UnsafeCell::new(0), UnsafeCell::new(0), UnsafeCell::new(0)] };

#[no_mangle]
pub extern "C" fn P0() {
    let mut sender = Sender { channel: &MAIL, next: 0 };
    sender.send(7);
    sender.send(8);
}

#[no_mangle]
pub extern "C" fn P1() -> u32 {
    let mut receiver = Receiver(&MAIL);
    receiver.receive() + receiver.receive()
}

// exists (~ 1:a0=15)
