//! How the transcription writes what the original works on.

use crate::sets::Interval;
use scan_core::TimeRange;
use scan_pmtl::Pmtl;
use std::ops::{Bound, RangeBounds};

/// A number; the largest has a name.
pub fn number(n: u64) -> String {
    if n == u64::MAX {
        "MAX".into()
    } else {
        n.to_string()
    }
}

/// A list of things that are written already.
pub fn list(items: impl IntoIterator<Item = String>) -> String {
    items.into_iter().map(|item| item + " ∷ ").collect::<String>() + "[]"
}

/// A range of two ends.
pub fn range(lower: u64, upper: u64) -> String {
    format!("({} to {})", number(lower), number(upper))
}

/// A set, as its pairs.
pub fn set(intervals: &[Interval]) -> String {
    list(intervals.iter().map(|i| format!("run {} {}", number(*i.start()), number(*i.end()))))
}

/// What is left, or that there was a panic.
pub fn ran(left: Option<String>) -> String {
    left.map_or("panic".into(), |left| format!("done ({left})"))
}

/// An early answer.
pub fn option(answer: Option<bool>) -> String {
    answer.map_or("None".into(), |answer| format!("Some {answer}"))
}

fn time_range(given: &TimeRange) -> String {
    match (given.start_bound(), given.end_bound()) {
        (Bound::Included(lower), Bound::Included(upper)) => range(*lower, *upper),
        _ => unreachable!("both ends of a range are in it"),
    }
}

fn formulas(given: &[Pmtl<usize>]) -> String {
    given.iter().rev().fold("Pmtls.nil".into(), |rest, f| format!("(Pmtls.cons {} {rest})", formula(f)))
}

/// A formula.
pub fn formula(given: &Pmtl<usize>) -> String {
    match given {
        Pmtl::True => "Pmtl.True".into(),
        Pmtl::False => "Pmtl.False".into(),
        Pmtl::Atom(n) => format!("(Pmtl.Atom {n})"),
        Pmtl::And(fs) => format!("(Pmtl.And {})", formulas(fs)),
        Pmtl::Or(fs) => format!("(Pmtl.Or {})", formulas(fs)),
        Pmtl::Not(f) => format!("(Pmtl.Not {})", formula(f)),
        Pmtl::Implies(fs) => format!("(Pmtl.Implies {} {})", formula(&fs.0), formula(&fs.1)),
        Pmtl::Historically(f, r) => format!("(Pmtl.Historically {} {})", formula(f), time_range(r)),
        Pmtl::Once(f, r) => format!("(Pmtl.Once {} {})", formula(f), time_range(r)),
        Pmtl::Since(fs, r) => format!("(Pmtl.Since {} {} {})", formula(&fs.0), formula(&fs.1), time_range(r)),
    }
}
