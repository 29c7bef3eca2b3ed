//! The same work at each index, side by side.

use super::{Threads, system};
use crate::alloc::{AllocError, Global};
use crate::vec::Vec;

/// What `work` returns at each of `count` indices, in order. Each is done in a thread of its own where the system has
/// one, and by the caller where it hasn't.
pub fn map_indices<R: Threads, T: Send, F: Fn(usize) -> T + Sync>(
    _rt: &R,
    alloc: Global,
    count: usize,
    work: &F,
) -> Result<Vec<T>, AllocError> {
    let mut answers = Vec::with_capacity(alloc, count)?;
    answers.resize_with(count, || None)?;
    if let [answer] = answers.as_mut_slice() {
        *answer = Some(work(0));
    } else {
        do_side_by_side(alloc, &mut answers, work)?;
    }
    let mut taken = Vec::with_capacity(alloc, count)?;
    for answer in answers {
        taken.push_reserved(answer.expect("each index was done"));
    }
    Ok(taken)
}

/// Puts what `work` returns at each index into its place.
fn do_side_by_side<T: Send, F: Fn(usize) -> T + Sync>(
    alloc: Global,
    answers: &mut [Option<T>],
    work: &F,
) -> Result<(), AllocError> {
    let count = answers.len();
    let mut jobs = Vec::with_capacity(alloc, count)?;
    let mut started = Vec::with_capacity(alloc, count)?;
    let mut refused = Vec::with_capacity(alloc, count)?;
    for (index, answer) in answers.iter_mut().enumerate() {
        jobs.push_reserved(move || *answer = Some(work(index)));
    }
    for job in jobs.iter_mut() {
        // SAFETY: a job stays in `jobs`, and its only reference is this one, which is given away unless the system
        // refused the thread. All threads are joined below, before anything can return or panic.
        match unsafe { system::start(&raw mut *job) } {
            Ok(thread) => started.push_reserved(thread),
            Err(_) => refused.push_reserved(job),
        }
    }
    for thread in started {
        thread.join();
    }
    for job in refused {
        job();
    }
    Ok(())
}

#[cfg(test)]
mod tests {
    use super::*;
    use crate::rt::HostRuntime;
    use std::sync::atomic::{AtomicUsize, Ordering};

    #[test]
    fn answers_stand_in_order() {
        let calls = AtomicUsize::new(0);
        for count in [0, 1, 2, 64] {
            let square = |index: usize| {
                calls.fetch_add(1, Ordering::Relaxed);
                index * index
            };
            let answers = map_indices(&HostRuntime::new(), Global, count, &square).unwrap();
            assert_eq!(answers.as_slice(), (0..count).map(|index| index * index).collect::<std::vec::Vec<_>>());
        }
        assert_eq!(calls.into_inner(), 67);
    }
}
