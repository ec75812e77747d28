//! P1 to P5 of REFERENCE in one list: what the original's interval set does, shown by running it, and beside it what the transcription
//! is proved to give. It ends with 1 where the two differ.

use std::process::ExitCode;
use std::{fmt, panic};
use vectors::notation;
use vectors::sets::{Interval, Set};

/// The proved examples of the transcription.
const TRANSCRIBED: &str = include_str!("../../../crates/original/proofs/Examples.antt");

/// An addition to a set of intervals, by its name in REFERENCE.
struct Example {
    name: &'static str,
    before: Vec<Interval>,
    addition: Interval,
}

/// What the original did: the intervals that it left, or what it panicked with.
type Outcome = Result<Vec<Interval>, String>;

impl Example {
    fn new(name: &'static str, before: &[Interval], addition: Interval) -> Self {
        Self { name, before: before.to_vec(), addition }
    }

    fn outcome(&self) -> Outcome {
        Set::of(&self.before).added(self.addition.clone()).map(|set| set.intervals())
    }

    /// The instants that were there, or are added, and are not in what is left.
    fn lost(&self, left: &[Interval]) -> Vec<u64> {
        let there = self.before.iter().chain([&self.addition]).flat_map(|i| i.clone());
        there.filter(|t| !left.iter().any(|i| i.contains(t))).collect()
    }

    /// The line that the transcription must have for this example to come out as it does on the original.
    fn line(&self, outcome: &Outcome) -> String {
        let left = notation::ran(outcome.as_ref().ok().map(|left| notation::set(left)));
        let range = notation::range(*self.addition.start(), *self.addition.end());
        format!("(add_assign ({}) {range} gives {left})", notation::set(&self.before))
    }

    /// The line that it has: the one after the example's name.
    fn transcribed(&self) -> &'static str {
        let named = format!("-- {} {{", self.name);
        let mut lines = TRANSCRIBED.lines().skip_while(|line| !line.trim().starts_with(&named));
        lines.nth(1).map_or("nothing", |line| line.trim().trim_start_matches("∷ "))
    }
}

/// Intervals as REFERENCE writes them.
struct Shown<'a>(&'a [Interval]);

impl fmt::Display for Shown<'_> {
    fn fmt(&self, f: &mut fmt::Formatter<'_>) -> fmt::Result {
        let intervals: Vec<String> = self.0.iter().map(|i| format!("[{},{}]", i.start(), i.end())).collect();
        write!(f, "{{{}}}", intervals.join(","))
    }
}

fn examples() -> [Example; 5] {
    #[allow(clippy::reversed_empty_ranges)]
    let empty = 3..=2;
    [
        Example::new("P1", &[0..=1], 2..=3),
        Example::new("P2", &[0..=1, 4..=5], 2..=3),
        Example::new("P3", &[0..=1], empty),
        Example::new("P4", &[0..=1, 10..=20], 5..=9),
        Example::new("P5", &[0..=1, 10..=20, 30..=40], 15..=29),
    ]
}

/// Prints an example, and says whether the transcription agrees.
fn show(example: &Example) -> bool {
    let outcome = example.outcome();
    let agrees = example.transcribed() == example.line(&outcome);
    println!("{} {} add [{},{}]", example.name, Shown(&example.before), example.addition.start(), example.addition.end());
    match &outcome {
        Err(why) => println!("  the original    panics: {why}"),
        Ok(left) => println!("  the original    {}, lost {:?}", Shown(left), example.lost(left)),
    }
    println!("  transcribed     {}{}", example.transcribed(), if agrees { "" } else { ": NOT THE SAME" });
    agrees
}

fn main() -> ExitCode {
    panic::set_hook(Box::new(|_| ()));
    let differ = examples().iter().filter(|example| !show(example)).count();
    if differ == 0 {
        ExitCode::SUCCESS
    } else {
        ExitCode::FAILURE
    }
}

#[cfg(test)]
mod tests {
    use super::*;

    #[test]
    fn p4_panics() {
        assert!(examples()[3].outcome().unwrap_err().contains("index out of bounds"));
    }

    #[test]
    fn p5_loses_10_to_14() {
        let p5 = &examples()[4];
        assert_eq!(p5.lost(&p5.outcome().unwrap()), [10, 11, 12, 13, 14]);
    }

    #[test]
    fn the_transcription_gives_the_same() {
        for example in examples() {
            assert_eq!(example.transcribed(), example.line(&example.outcome()), "{}", example.name);
        }
    }
}
