//! `derive(Error)`: the `Display` that the attributes `#[error(..)]` state. The published `thiserror`, as far as the
//! crates call it: without `source`, `from` and `std::error::Error`, and for types that aren't `Debug` too.

mod item;
mod writing;

use proc_macro::TokenStream;

/// Makes a `Display` for a struct with one `#[error(..)]`, or for an enum with one at each variant.
/// `#[error_bound(T: Display)]` is for the kit: here each type argument is asked to be `Display`.
#[proc_macro_derive(Error, attributes(error, error_bound))]
pub fn error(item: TokenStream) -> TokenStream {
    match item::read(item) {
        Ok(item) => writing::display_of(&item).parse().expect("Rust"),
        Err(why) => format!("::core::compile_error!({why:?});").parse().expect("Rust"),
    }
}
