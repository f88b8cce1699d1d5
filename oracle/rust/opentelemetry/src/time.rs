//! A clock that the caller sets, so that a run gives the same times each time.

use std::cell::Cell;
use std::time::{Duration, SystemTime, UNIX_EPOCH};

thread_local! {
    static NOW: Cell<u64> = const { Cell::new(0) };
}

/// Sets what `now` answers, in nanoseconds since the epoch.
pub fn set(nanoseconds: u64) {
    NOW.with(|now| now.set(nanoseconds));
}

pub fn now() -> SystemTime {
    UNIX_EPOCH + Duration::from_nanos(NOW.with(Cell::get))
}
