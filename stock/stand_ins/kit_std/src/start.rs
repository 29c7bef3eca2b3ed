//! How a program begins, and how it ends where nobody can be told that there is no memory.

use crate::streams::{IsTerminal, Stream};
use std::io::Write;
use std::sync::OnceLock;
use std::sync::atomic::{AtomicBool, Ordering};

/// What ends a program that has no memory: its status, and what it writes on standard error.
static NO_MEMORY: OnceLock<(u8, &str)> = OnceLock::new();

/// Stands in each program that rustc builds of the sources, so that its bytes say what built it, wherever they lie: scripts/build and
/// tools/bring_parts/provenance.py look for it.
static BUILT: &str = "ztso: built by rustc, and nothing is proved of this program";

/// Says how the program ends without memory, before it asks for any.
pub fn begin(status: u8, said: &'static str) {
    let _ = std::hint::black_box(BUILT);
    let _ = NO_MEMORY.set((status, said));
}

/// Ends the process, as the program wants it without memory.
pub(crate) fn end_without_memory() -> ! {
    static ENDS: AtomicBool = AtomicBool::new(false);

    while ENDS.swap(true, Ordering::Relaxed) {
        // another thread ends the process
        std::hint::spin_loop();
    }
    let (status, said) = NO_MEMORY.get().copied().unwrap_or((70, "no memory\n"));
    let mut errors = Stream::standard(2);
    if errors.is_terminal() {
        // a line that says how far the program is may stand there
        let _ = errors.write_all(b"\r\x1b[K");
    }
    let _ = errors.write_all(said.as_bytes());
    end(status)
}

#[cfg(unix)]
mod system {
    use std::ffi::{CStr, c_char, c_int};
    use std::sync::atomic::{AtomicPtr, AtomicUsize, Ordering};

    static COUNT: AtomicUsize = AtomicUsize::new(0);
    static WORDS: AtomicPtr<*const c_char> = AtomicPtr::new(std::ptr::null_mut());

    /// Keeps the words of the command line.
    ///
    /// # Safety
    ///
    /// These are the arguments of the system's call of `main`.
    pub unsafe fn keep_words(count: c_int, words: *const *const c_char) {
        COUNT.store(count as usize, Ordering::Relaxed);
        WORDS.store(words.cast_mut(), Ordering::Relaxed);
    }

    /// The words of the command line.
    pub(crate) fn words() -> impl Iterator<Item = &'static [u8]> {
        let (count, words) = (COUNT.load(Ordering::Relaxed), WORDS.load(Ordering::Relaxed));
        // SAFETY: the system keeps as many words until the process ends, each of which ends in a zero byte.
        (0..count).map(move |place| unsafe { CStr::from_ptr(*words.add(place)) }.to_bytes())
    }

    /// Ends the process at once.
    pub(crate) fn end(status: u8) -> ! {
        unsafe extern "C" {
            safe fn _exit(status: c_int) -> !;
        }
        _exit(status.into())
    }
}

#[cfg(unix)]
pub use system::keep_words;
#[cfg(unix)]
pub(crate) use system::{end, words};

#[cfg(target_arch = "wasm32")]
pub(crate) use crate::streams::{end, words};

/// Ends a program whose `main` returned.
#[cfg(target_arch = "wasm32")]
pub fn end_with(status: u8) -> ! {
    end(status)
}

/// Makes the process's `main` of one that takes the handle: `program!(main, STATUS, TEXT)`, with the status and the
/// text on standard error of an end without memory. Stock Rust's own start would open closed streams again.
#[macro_export]
macro_rules! program {
    ($main:ident, $status:literal, $said:literal) => {
        #[global_allocator]
        static ALLOCATOR: $crate::OrEnd = $crate::OrEnd;

        mod start {
            #[cfg(unix)]
            #[unsafe(no_mangle)]
            extern "C" fn main(count: ::core::ffi::c_int, words: *const *const ::core::ffi::c_char) -> ::core::ffi::c_int {
                // SAFETY: the system calls this function, with these arguments.
                unsafe { $crate::start::keep_words(count, words) };
                $crate::start::begin($status, $said);
                super::$main($crate::rt::HostRuntime::new()).0.into()
            }

            #[cfg(target_arch = "wasm32")]
            #[unsafe(no_mangle)]
            extern "C" fn _start() {
                $crate::start::begin($status, $said);
                $crate::start::end_with(super::$main($crate::rt::HostRuntime::new()).0)
            }
        }
    };
}
