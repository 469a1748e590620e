//! A count of the crate's steps. Two of its recursions double at each level (rendering again with
//! parentheses, record lists that start over), so a run is stopped after a number of steps.

use std::cell::Cell;

thread_local! {
    static LEFT: Cell<u64> = const { Cell::new(u64::MAX) };
}

/// What a stopped run unwinds with.
pub struct TooLong;

/// Allows the next run so many steps.
pub fn allow(steps: u64) {
    LEFT.with(|left| left.set(steps));
}

/// One step: the children of one node are about to be looked at.
#[inline]
pub(crate) fn take() {
    LEFT.with(|left| match left.get().checked_sub(1) {
        Some(rest) => left.set(rest),
        None => stop(),
    });
}

#[cold]
fn stop() -> ! {
    std::panic::resume_unwind(Box::new(TooLong))
}
