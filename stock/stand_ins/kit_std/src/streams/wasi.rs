//! Streams by WASI's calls, which a page or Node.js gives.

use std::ffi::CStr;
use std::io::{self, Read, Write};

#[link(wasm_import_module = "wasi_snapshot_preview1")]
unsafe extern "C" {
    fn args_sizes_get(count: *mut usize, bytes: *mut usize) -> u32;
    fn args_get(words: *mut *const u8, bytes: *mut u8) -> u32;
    fn fd_read(fd: u32, parts: *const Part, count: usize, done: *mut usize) -> u32;
    fn fd_write(fd: u32, parts: *const Part, count: usize, done: *mut usize) -> u32;
    fn fd_close(fd: u32) -> u32;
    fn path_open(
        folder: u32, lookup: u32, path: *const u8, length: usize, how: u32, rights: u64, inherited: u64, flags: u32,
        fd: *mut u32,
    ) -> u32;
    fn proc_exit(status: u32) -> !;
}

/// Bytes to read into or to write.
#[repr(C)]
struct Part {
    start: *const u8,
    length: usize,
}

/// The folder that the host opened first.
const FOLDER: u32 = 3;
const FOLLOW_LINKS: u32 = 1;
const RIGHT_TO_READ: u64 = 1 << 1;
/// WASI's number of a call that was interrupted.
const INTERRUPTED: u32 = 27;

fn result(error: u32, value: usize) -> io::Result<usize> {
    match error {
        0 => Ok(value),
        INTERRUPTED => Err(io::ErrorKind::Interrupted.into()),
        _ => Err(io::ErrorKind::Other.into()),
    }
}

/// The words of the command line, which stay as long as the process.
pub(crate) fn words() -> impl Iterator<Item = &'static [u8]> {
    let (mut count, mut bytes) = (0, 0);
    // SAFETY: the host writes two numbers, then as many addresses and bytes; each word ends in a zero byte.
    unsafe {
        args_sizes_get(&mut count, &mut bytes);
        let mut starts = vec![std::ptr::null(); count];
        args_get(starts.as_mut_ptr(), vec![0; bytes + 1].leak().as_mut_ptr());
        starts.into_iter().map(|start| CStr::from_ptr(start.cast()).to_bytes())
    }
}

/// Ends the process.
pub(crate) fn end(status: u8) -> ! {
    // SAFETY: the call takes any number and doesn't return.
    unsafe { proc_exit(status.into()) }
}

/// A stream or a file, by its descriptor.
pub struct File(u32);

/// A standard stream, which is never closed here.
pub type Stream = File;

impl File {
    /// The stream of this descriptor: 0, 1 or 2.
    pub(crate) fn standard(number: i32) -> File {
        File(number as u32)
    }
}

/// Opens a file of the folder that the host opened, to read it.
pub fn open(path: &str) -> io::Result<File> {
    let mut fd = 0;
    // SAFETY: the host reads the path and writes a number.
    let error =
        unsafe { path_open(FOLDER, FOLLOW_LINKS, path.as_ptr(), path.len(), 0, RIGHT_TO_READ, 0, 0, &mut fd) };
    result(error, 0).map(|_| File(fd))
}

impl super::IsTerminal for File {
    fn is_terminal(&self) -> bool {
        false
    }
}

impl Drop for File {
    fn drop(&mut self) {
        if self.0 > FOLDER {
            // SAFETY: the descriptor is this value's own.
            unsafe { fd_close(self.0) };
        }
    }
}

impl Read for File {
    fn read(&mut self, buffer: &mut [u8]) -> io::Result<usize> {
        let mut done = 0;
        let part = Part { start: buffer.as_mut_ptr(), length: buffer.len() };
        // SAFETY: the host writes at most as many bytes there, and their number.
        let error = unsafe { fd_read(self.0, &part, 1, &mut done) };
        result(error, done)
    }
}

impl Write for File {
    fn write(&mut self, bytes: &[u8]) -> io::Result<usize> {
        let mut done = 0;
        let part = Part { start: bytes.as_ptr(), length: bytes.len() };
        // SAFETY: the host reads these bytes and writes a number.
        let error = unsafe { fd_write(self.0, &part, 1, &mut done) };
        result(error, done)
    }

    fn flush(&mut self) -> io::Result<()> {
        Ok(())
    }
}
