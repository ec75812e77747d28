//! The original's interval set, its file unchanged.

use numset::NumSet;
use std::ops::RangeInclusive;
use std::panic;

include!(concat!(env!("OUT_DIR"), "/original.rs"));

pub type Interval = RangeInclusive<u64>;

/// A set of the original.
#[derive(Clone)]
pub struct Set(NumSet);

impl Set {
    /// The set of these intervals, each of which begins after the end of the one before it, and does not touch it.
    pub fn of(intervals: &[Interval]) -> Self {
        let mut set = NumSet::empty();
        intervals.iter().for_each(|i| set += i.clone());
        Self(set)
    }

    /// The set after the addition, or what the original panics with.
    pub fn added(&self, addition: Interval) -> Result<Self, String> {
        let mut set = self.0.clone();
        let result = panic::catch_unwind(panic::AssertUnwindSafe(|| set += addition));
        match result {
            Ok(()) => Ok(Self(set)),
            Err(why) => Err(why.downcast_ref::<String>().cloned().unwrap_or_default()),
        }
    }

    pub fn contains(&self, t: u64) -> bool {
        self.0.contains(t)
    }

    pub fn contains_unbounded_interval(&self, lower: u64) -> bool {
        self.0.contains_unbounded_interval(lower)
    }

    /// Its pairs, which the original shows only for debugging: `NumSet([(0, 1), (4, 5)])`.
    pub fn intervals(&self) -> Vec<Interval> {
        let shown = format!("{:?}", self.0);
        let words = shown.split(|c: char| !c.is_ascii_digit()).filter(|word| !word.is_empty());
        let ends: Vec<u64> = words.map(|word| word.parse().expect("the original shows its ends as words")).collect();
        ends.chunks(2).map(|pair| pair[0]..=pair[1]).collect()
    }
}

/// Whether an interval, before the addition or added, is not wholly in the set.
pub fn loses(after: &Set, before: &[Interval], addition: &Interval) -> bool {
    let has = |i: &Interval| after.intervals().iter().any(|pair| pair.start() <= i.start() && i.end() <= pair.end());
    !before.iter().all(has) || !(addition.is_empty() || has(addition))
}
