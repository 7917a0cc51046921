//! The time that paths count by.

use std::time::{Duration, Instant};

/// Counts nanoseconds since it began.
pub(crate) struct Clock {
    began: Instant,
    /// In tests it may stand still: then nobody wakes by itself.
    #[cfg(test)]
    pub(crate) stands_at: Option<u64>,
}

impl Clock {
    pub(crate) fn new() -> Clock {
        Clock {
            began: Instant::now(),
            #[cfg(test)]
            stands_at: None,
        }
    }

    pub(crate) fn now(&self) -> u64 {
        #[cfg(test)]
        if let Some(now) = self.stands_at {
            return now;
        }
        u64::try_from(self.began.elapsed().as_nanos()).unwrap_or(u64::MAX)
    }

    /// The time so many nanoseconds behind the beginning; none for 0, and for one that no clock reaches.
    pub(crate) fn time(&self, at: u64) -> Option<Instant> {
        #[cfg(test)]
        if self.stands_at.is_some() {
            return None;
        }
        self.began.checked_add(Duration::from_nanos(at)).filter(|_| at > 0)
    }
}
