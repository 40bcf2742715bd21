//! A clock that counts whole milliseconds.

use crate::tree::LONGEST;
use std::time::Instant;

/// A clock for ticks by whole milliseconds, the times for which a
/// [finish bound](crate::BT::finish_bound) holds. What is left of a millisecond is kept for the next
/// time, so none is lost.
#[derive(Clone, Debug)]
pub struct Timer {
    start: Instant,
    given: f64,
}

impl Timer {
    /// A clock that starts now.
    pub fn init_time() -> Timer {
        Timer { start: Instant::now(), given: 0.0 }
    }

    /// Whole milliseconds since the clock started.
    pub fn ms_since_start(&self) -> f64 {
        // Exact for as many milliseconds as a clock will ever see.
        self.start.elapsed().as_millis() as f64
    }

    /// Whole milliseconds since the last that were given, 2^40 at most.
    pub fn dt_ms(&mut self) -> f64 {
        let dt = (self.ms_since_start() - self.given).min(LONGEST);
        self.given += dt;
        dt
    }

    /// As [`dt_ms`](Timer::dt_ms), but nothing until `step` has passed. A host that ticks with what
    /// this gives keeps to what the finish bound for that step asks of its updates.
    pub fn dt_ms_from(&mut self, step: f64) -> Option<f64> {
        if self.ms_since_start() - self.given < step {
            return None;
        }
        Some(self.dt_ms())
    }
}
