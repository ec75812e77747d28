//! What the original's oracle takes from `scan_core`: its own trait, unchanged, and this project's `Time` and
//! `TimeRange`, which the original's files use and do not define.

use std::ops::{Bound, RangeBounds};

include!(concat!(env!("OUT_DIR"), "/original.rs"));

pub use oracle::Oracle;

/// An instant.
pub type Time = u64;

/// The instants lower..=upper; an upper of MAX means unbounded.
#[derive(Debug, Clone, Copy, PartialEq, Eq, Hash)]
pub struct TimeRange {
    lower: Time,
    upper: Time,
}

impl TimeRange {
    /// The range lower..=upper.
    pub fn new(lower: Time, upper: Time) -> Self {
        Self { lower, upper }
    }

    /// The range counted from t: t+lower..=t+upper, or up to MAX if it is unbounded.
    pub fn shift(&self, t: Time) -> Self {
        let upper = if self.upper == Time::MAX { Time::MAX } else { t + self.upper };
        Self { lower: t + self.lower, upper }
    }
}

impl RangeBounds<Time> for TimeRange {
    fn start_bound(&self) -> Bound<&Time> {
        Bound::Included(&self.lower)
    }

    fn end_bound(&self) -> Bound<&Time> {
        Bound::Included(&self.upper)
    }
}

#[cfg(test)]
mod tests {
    use super::*;

    #[test]
    fn a_range_is_counted_from_an_instant() {
        assert_eq!(TimeRange::new(2, 3).shift(5), TimeRange::new(7, 8));
        assert_eq!(TimeRange::new(2, Time::MAX).shift(5), TimeRange::new(7, Time::MAX));
        let h = Time::MAX / 2;
        assert_eq!(TimeRange::new(h, h).shift(h), TimeRange::new(Time::MAX - 1, Time::MAX - 1));
        assert!(TimeRange::new(0, 0).contains(&0));
        assert!(!TimeRange::new(1, Time::MAX).contains(&0));
    }
}
