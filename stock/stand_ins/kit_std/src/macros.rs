//! Macros that take an allocator (`in alloc`) or a handle (`rt;`) before their other arguments.

/// A vector of these items, or of an item and how often it stands there.
#[macro_export]
macro_rules! vec {
    [in $alloc:expr; $item:expr; $count:expr] => { $crate::vec::Vec::from_elem($alloc, $item, $count) };
    [in $alloc:expr; $($item:expr),* $(,)?] => { $crate::vec::Vec::from_array($alloc, [$($item),*]) };
}

/// A text.
#[macro_export]
macro_rules! format {
    (in $alloc:expr; $($said:tt)*) => { $crate::string::String::of_arguments($alloc, ::core::format_args!($($said)*)) };
}

/// Writes on standard error.
#[macro_export]
macro_rules! eprint {
    ($rt:expr; $($said:tt)*) => { $crate::io::eprint(&$rt, ::core::format_args!($($said)*)) };
}

/// Writes a line on standard error.
#[macro_export]
macro_rules! eprintln {
    ($rt:expr; $($said:tt)*) => { $crate::io::eprint(&$rt, ::core::format_args!("{}\n", ::core::format_args!($($said)*))) };
}

/// Panics where a test finds something else.
#[macro_export]
macro_rules! assert {
    ($rt:expr; $($said:tt)*) => { ::core::assert!($($said)*) };
}

/// Panics where a test finds two values that differ.
#[macro_export]
macro_rules! assert_eq {
    ($rt:expr; $($said:tt)*) => { ::core::assert_eq!($($said)*) };
}

/// Panics.
#[macro_export]
macro_rules! panic {
    ($rt:expr; $($said:tt)*) => { ::core::panic!($($said)*) };
}
