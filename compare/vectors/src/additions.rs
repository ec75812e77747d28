//! Additions to sets, and questions asked of them, drawn at random and run on the original.

use crate::notation;
use crate::sets::{loses, Interval, Set};
use compare::chance::Chance;

/// What was drawn: examples as the transcription writes them, and how many of the additions show the fault.
#[derive(Default)]
pub struct Drawn {
    pub additions: Vec<String>,
    pub questions: Vec<String>,
    pub unbounded: Vec<String>,
    pub panics: usize,
    pub losses: usize,
}

/// The most pairs of a drawn set.
const PAIRS: u64 = 4;

/// How wide a pair and a gap between two may be, a gap being at least 2 so that pairs do not touch.
const WIDTH: u64 = 5;

/// Draws one set, and of it one addition and two questions.
pub fn draw(chance: &mut Chance, drawn: &mut Drawn) {
    let before = pairs(chance);
    let set = Set::of(&before);
    assert_eq!(set.intervals(), before, "pairs that do not touch stay as they are");
    let addition = addition(chance, &before);
    let after = set.added(addition.clone()).ok();
    drawn.panics += usize::from(after.is_none());
    drawn.losses += usize::from(after.as_ref().is_some_and(|after| loses(after, &before, &addition)));
    let written = notation::set(&before);
    let range = notation::range(*addition.start(), *addition.end());
    let left = notation::ran(after.map(|after| notation::set(&after.intervals())));
    drawn.additions.push(format!("(add_assign ({written}) {range} gives {left})"));
    let t = near(chance, &before);
    let number = notation::number(t);
    drawn.questions.push(format!("(contains ({written}) {number} gives done {})", set.contains(t)));
    drawn.unbounded.push(format!("(contains_unbounded_interval ({written}) {number} gives {})", set.contains_unbounded_interval(t)));
}

/// An interval to add: often one that ends just before a pair, which is where the fault is; now and then an empty one.
fn addition(chance: &mut Chance, pairs: &[Interval]) -> Interval {
    if !pairs.is_empty() && chance.one_in(3) {
        let place = chance.below(pairs.len());
        let upper = pairs[place].start().saturating_sub(1);
        return near(chance, &pairs[..=place]).min(upper)..=upper;
    }
    let (one, other) = (near(chance, pairs), near(chance, pairs));
    if chance.one_in(12) {
        one.max(other)..=one.min(other)
    } else {
        one.min(other)..=one.max(other)
    }
}

/// Pairs that do not touch, low or just below MAX; the last one may be unbounded.
fn pairs(chance: &mut Chance) -> Vec<Interval> {
    let high = u64::MAX - (PAIRS + 1) * 2 * (WIDTH + 1);
    let mut at = if chance.one_in(6) { high } else { 0 } + chance.within(0..=WIDTH);
    let mut pairs = Vec::new();
    let least = u64::from(!chance.one_in(20));
    for _ in 0..chance.within(least..=PAIRS) {
        let upper = at + chance.within(0..=WIDTH);
        pairs.push(at..=upper);
        at = upper + 2 + chance.within(0..=WIDTH - 2);
    }
    if chance.one_in(5) {
        pairs.push(at..=u64::MAX);
    }
    pairs
}

/// An instant near an end of one of the pairs, where the ways through the original part.
fn near(chance: &mut Chance, pairs: &[Interval]) -> u64 {
    if pairs.is_empty() || chance.one_in(8) {
        return chance.among(&[0, 1, WIDTH, u64::MAX - 1, u64::MAX]);
    }
    let pair = &pairs[chance.below(pairs.len())];
    let end = if chance.one_in(2) { *pair.start() } else { *pair.end() };
    let step = chance.within(0..=3);
    if chance.one_in(2) {
        end.saturating_add(step)
    } else {
        end.saturating_sub(step)
    }
}

#[cfg(test)]
mod tests {
    use super::*;
    use crate::file::Asked;
    use std::collections::BTreeSet;

    /// The way that an addition takes through the original, by what its two searches find.
    fn way(before: &[Interval], addition: &Interval) -> &'static str {
        if addition.is_empty() {
            return "empty";
        }
        let first = before.binary_search_by_key(&addition.start().saturating_sub(1), |i| *i.end());
        let (Ok(i) | Err(i)) = first;
        let second = before[i..].binary_search_by_key(&addition.end().saturating_add(1), |i| *i.start());
        match (first, second) {
            (Ok(_), Ok(_)) => "joined on both sides",
            (Ok(_), Err(_)) => "joined below",
            (Err(_), Ok(_)) => "joined above",
            (Err(i), Err(_)) if i == before.len() => "after all",
            (Err(_), Err(0)) => "between",
            (Err(_), Err(_)) => "over some",
        }
    }

    #[test]
    fn every_way_is_drawn_and_the_fault_shows() {
        let asked = Asked::default();
        let mut ways = BTreeSet::new();
        let mut drawn = Drawn::default();
        for i in 0..asked.additions {
            let mut chance = Chance::new(asked.seed, i);
            let before = pairs(&mut chance);
            ways.insert(way(&before, &addition(&mut chance, &before)));
            draw(&mut Chance::new(asked.seed, i), &mut drawn);
        }
        assert_eq!(ways.len(), 7, "{ways:?}");
        assert!(drawn.panics > 0 && drawn.losses > 0);
    }
}
