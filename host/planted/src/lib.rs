//! The second program with small faults planted in it, one at a time (`faults.txt`), to show that the
//! comparison can fail. The source is the second program's own, copied when this is built (`build.rs`).
#![forbid(unsafe_code)]
#![allow(
    clippy::all,
    clippy::pedantic,
    dead_code,
    unused_parens,
    unused_variables,
    reason = "faults are put in as text, and leave code behind that nobody would write"
)]

use std::sync::atomic::{AtomicUsize, Ordering};

include!(concat!(env!("OUT_DIR"), "/reference.rs"));

/// The number of the fault that is planted now; past the last one: none.
static PLANTED: AtomicUsize = AtomicUsize::new(usize::MAX);

/// Plants the fault with this place in `FAULTS`, and no other.
pub fn plant(number: usize) {
    PLANTED.store(number, Ordering::Relaxed);
}

fn is_planted(number: usize) -> bool {
    PLANTED.load(Ordering::Relaxed) == number
}
