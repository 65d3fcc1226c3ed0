//! What the watched copies of sphere.rs note of their last walk on this thread.
//! Cells keep the notes cheap: `solves` times them.

use crate::reference::TOO_MANY_SECONDS;
use std::cell::Cell;
use std::time::Duration;

/// How many of the last times and corrections are kept; a power of two spares a check.
pub const KEPT: usize = 8;

pub struct Notes {
    /// Calls of functions of time, and the last times they were handed.
    calls: Cell<usize>,
    times: [Cell<f64>; KEPT],
    /// An intercept's last corrections.
    corrections: [Cell<f64>; KEPT],
    flat: Cell<bool>,
    spent: Cell<bool>,
    accepted: Cell<Option<f64>>,
}

thread_local! {
    static NOTES: Notes = const {
        Notes {
            calls: Cell::new(0),
            times: [const { Cell::new(0.0) }; KEPT],
            corrections: [const { Cell::new(0.0) }; KEPT],
            flat: Cell::new(false),
            spent: Cell::new(false),
            accepted: Cell::new(None),
        }
    };
}

impl Notes {
    pub fn calls(&self) -> usize {
        self.calls.get()
    }

    /// The time that a call was handed, one of the last.
    pub fn time(&self, call: usize) -> f64 {
        self.times[call % KEPT].get()
    }

    /// The correction of an intercept's step, one of the last.
    pub fn correction(&self, call: usize) -> f64 {
        self.corrections[call % KEPT].get()
    }

    /// Whether a derivative was zero.
    pub fn was_flat(&self) -> bool {
        self.flat.get()
    }

    /// Whether an intercept's steps were spent.
    pub fn was_spent(&self) -> bool {
        self.spent.get()
    }

    /// The time of the walk, before the questions 14 and 15; an intercept's only if zero or more.
    pub fn accepted(&self) -> Option<f64> {
        self.accepted.get()
    }
}

/// Before a walk: the times and corrections of the last one need no clearing.
pub fn begin() {
    NOTES.with(|notes| {
        notes.calls.set(0);
        notes.flat.set(false);
        notes.spent.set(false);
        notes.accepted.set(None);
    });
}

/// After a walk.
pub fn read<A>(reader: impl FnOnce(&Notes) -> A) -> A {
    NOTES.with(reader)
}

#[inline]
pub fn time(t: f64) {
    NOTES.with(|notes| {
        let calls = notes.calls.get() + 1;
        notes.times[calls % KEPT].set(t);
        notes.calls.set(calls);
    });
}

/// The correction of the step that the last call began.
#[inline]
pub fn correction(correction: f64) -> f64 {
    NOTES.with(|notes| {
        notes.corrections[notes.calls.get() % KEPT].set(correction);
    });
    correction
}

pub fn flat() {
    NOTES.with(|notes| notes.flat.set(true));
}

pub fn spent(answer: f64) -> f64 {
    NOTES.with(|notes| notes.spent.set(true));
    answer
}

pub fn accepted(time: f64) -> f64 {
    NOTES.with(|notes| notes.accepted.set(Some(time)));
    time
}

/// An intercept's duration; none where the standard library may panic, outside the domain.
pub fn duration(seconds: f64) -> Option<Duration> {
    accepted(seconds);
    (seconds < TOO_MANY_SECONDS).then(|| Duration::from_secs_f64(seconds))
}
