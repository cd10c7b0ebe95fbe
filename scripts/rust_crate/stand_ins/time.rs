// In the place of the crate's own clock: one that the workloads set.

use std::{
    cell::Cell,
    time::{Duration, Instant},
};

thread_local! {
    static BASE: Instant = Instant::now();
    static NOW: Cell<Option<Instant>> = const { Cell::new(None) };
}

/// What the crate's code calls.
pub fn now() -> Instant {
    NOW.with(|now| now.get()).unwrap_or_else(Instant::now)
}

/// The instant of a moment, in nanoseconds.
pub fn instant(moment: u64) -> Instant {
    BASE.with(|base| *base) + Duration::from_nanos(moment)
}

/// The moment of an instant that `instant` gave.
pub fn moment(instant: Instant) -> u64 {
    (instant - BASE.with(|base| *base)).as_nanos() as u64
}

pub fn set(now: Instant) {
    NOW.with(|cell| cell.set(Some(now)));
}
