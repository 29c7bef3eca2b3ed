//! The texts of the shapes that the crates' errors have.

use thiserror::Error;

#[derive(Error)]
#[error("{fault} at line {line}")]
#[error_bound(F: Display)]
struct AtLine<F> {
    line: u64,
    fault: F,
}

#[derive(Error)]
enum Failure<R> {
    #[error("no memory")]
    OutOfMemory,

    /// Two fields in places, one of them of a type with a comma.
    #[error("{1} in place of {0}")]
    Other(Pair<u8, u8>, &'static str),

    #[error(transparent)]
    Below(R),

    #[error("not found in {states} states of {{}}")]
    NotFound { states: u32 },
}

#[derive(Error)]
#[error("{0} and {1}")]
struct Pair<A, B>(A, B);

#[test]
fn texts_are_those_that_the_attributes_state() {
    let shown = [
        AtLine { line: 7, fault: "bad token" }.to_string(),
        Failure::<u8>::OutOfMemory.to_string(),
        Failure::<u8>::Other(Pair(1, 2), "x").to_string(),
        Failure::Below(AtLine { line: 1, fault: 2 }).to_string(),
        Failure::<u8>::NotFound { states: 3 }.to_string(),
    ];
    assert_eq!(shown, ["bad token at line 7", "no memory", "x in place of 1 and 2", "2 at line 1", "not found in 3 states of {}"]);
}
