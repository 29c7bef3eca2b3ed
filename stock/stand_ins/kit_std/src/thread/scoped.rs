//! Threads that borrow, each with a promise that contracts know of what it returns.

use super::{Threads, system};
use std::io;
use std::marker::PhantomData;
use std::sync::{Arc, Mutex};

/// What a thread promises of its answer. It is nothing when the program runs.
pub trait Promise<T> {}

/// Where threads are started that are joined before [`scope`] returns, so they may borrow what lives as long as `'s`.
pub struct Scope<'s, E> {
    started: Mutex<Vec<Started<'s>>>,
    lifetime: PhantomData<Lifetime<'s>>,
    environment: PhantomData<fn() -> E>,
}

/// Neither longer nor shorter than `'s`.
type Lifetime<'s> = fn(&'s ()) -> &'s ();

type Work<'s> = Box<dyn FnMut() + Send + 's>;

/// A thread, and its work, which stays in its place until the thread was joined.
struct Started<'s> {
    thread: Arc<Running>,
    work: *mut Work<'s>,
}

/// A thread, until it was joined.
#[derive(Default)]
struct Running(Mutex<Option<system::Thread>>);

/// A thread's answer, for which one may wait.
pub struct PromisedHandle<T, P> {
    thread: Arc<Running>,
    answer: Arc<Mutex<Option<T>>>,
    promise: PhantomData<fn() -> P>,
}

/// What a scope may borrow; contracts alone name it.
pub fn scope_env() {}

/// Does work that may start threads, and waits for them.
pub fn scope<'s, E, R: Threads, T, F: FnOnce(&Scope<'s, E>) -> T>(_env: E, _rt: &R, work: F) -> T {
    let scope = Scope { started: Mutex::default(), lifetime: PhantomData, environment: PhantomData };
    work(&scope)
}

impl<E> Drop for Scope<'_, E> {
    fn drop(&mut self) {
        for Started { thread, work } in self.started.get_mut().unwrap().drain(..) {
            thread.join();
            // SAFETY: `spawn_with` made the address of a box, and the thread that used it has ended.
            drop(unsafe { Box::from_raw(work) });
        }
    }
}

impl<'s, E> Scope<'s, E> {
    /// Starts a thread that does this work.
    pub fn spawn_with<T: Send + 's, P, F: FnOnce() -> T + Send + 's>(
        &self,
        _promise: P,
        work: F,
    ) -> io::Result<PromisedHandle<T, P>> {
        let answer = Arc::new(Mutex::new(None));
        let (place, mut work) = (answer.clone(), Some(work));
        let work: Work<'s> = Box::new(move || {
            if let Some(work) = work.take() {
                let answer = work();
                *place.lock().unwrap() = Some(answer);
            }
        });
        let thread = self.start(work)?;
        Ok(PromisedHandle { thread, answer, promise: PhantomData })
    }

    /// Starts a thread that does this work, which the scope keeps.
    fn start(&self, work: Work<'s>) -> io::Result<Arc<Running>> {
        let work = Box::into_raw(Box::new(work));
        let thread = Arc::new(Running::default());
        let mut started = self.started.lock().unwrap();
        started.reserve(1);
        // SAFETY: the box stays in its place and untouched until `drop` has joined the thread, and it borrows only
        // what lives as long as `'s`, which the scope doesn't outlive.
        match unsafe { system::start(work) } {
            Ok(running) => *thread.0.lock().unwrap() = Some(running),
            Err(error) => {
                // SAFETY: the address is that of a box, and no thread has it.
                drop(unsafe { Box::from_raw(work) });
                return Err(error);
            }
        }
        started.push(Started { thread: thread.clone(), work });
        Ok(thread)
    }
}

impl Running {
    /// Waits until the thread has ended, if nobody has waited for it.
    fn join(&self) {
        if let Some(thread) = self.0.lock().unwrap().take() {
            thread.join();
        }
    }
}

impl<T, P> PromisedHandle<T, P> {
    /// Waits for the thread's answer.
    pub fn join<R: Threads>(self, _rt: &R) -> T {
        self.thread.join();
        self.answer.lock().unwrap().take().expect("a thread that was joined has answered")
    }
}

#[cfg(test)]
mod tests {
    use super::*;
    use crate::rt::HostRuntime;

    #[test]
    fn threads_borrow_and_answer() {
        let rt = HostRuntime::new();
        let texts = [String::from("one"), String::from("three")];
        let lengths = scope(0, &rt, |scope: &Scope<'_, i32>| {
            let handles: Vec<_> = texts.iter().map(|text| scope.spawn_with((), || text.len()).unwrap()).collect();
            handles.into_iter().map(|handle| handle.join(&rt)).collect::<Vec<_>>()
        });
        assert_eq!(lengths, [3, 5]);
    }

    #[test]
    fn a_scope_waits_for_threads_that_nobody_joins() {
        let done = Mutex::new(0);
        scope(0, &HostRuntime::new(), |scope: &Scope<'_, i32>| {
            for _ in 0..8 {
                let _ = scope.spawn_with((), || *done.lock().unwrap() += 1);
            }
        });
        assert_eq!(done.into_inner().unwrap(), 8);
    }
}
