//! A running monitor by the rules of docs/REFERENCE.md alone.

use crate::book::{Book, Range, Row, H};
use crate::rules::{self, Answer};
use crate::runs::Runs;

pub const ACCEPTED: u64 = 0;
/// A state width over 256.
pub const PAST_LIMIT: u64 = 2;
pub const TIME_BELOW_CLOCK: u64 = 7;
pub const TIME_ABOVE_H: u64 = 8;
pub const STATE_TOO_SHORT: u64 = 9;
pub const BAD_STATE: u64 = 10;
pub const NO_ROOM: u64 = 11;
pub const STATE_TOO_LONG: u64 = 16;

/// The widest state.
pub const MOST_WIDTH: usize = 256;
/// The most runs in a set.
pub const MOST_RUNS: usize = 64;

#[derive(Clone)]
pub struct Monitor {
    pub book: Book,
    pub clock: u64,
    atoms: Vec<bool>,
    /// A set for each row; only temporal rows ever have instants in theirs.
    pub sets: Vec<Runs>,
    /// The instants of each row by REFERENCE 3.5, from every accepted call so far: nothing is ever dropped for its age.
    instants: Vec<Runs>,
    /// Each row's value after the last accepted call.
    pub values: Vec<bool>,
}

impl Monitor {
    pub fn new(book: Book) -> Self {
        let rows = book.rows.len();
        let atoms = vec![false; book.width];
        Self { book, clock: 0, atoms, sets: vec![Runs::default(); rows], instants: vec![Runs::default(); rows], values: vec![false; rows] }
    }

    pub fn time_call(&mut self, time: u64) -> u64 {
        let wrong = self.wrong_time(time);
        if wrong != ACCEPTED {
            return wrong;
        }
        let atoms = self.atoms.clone();
        self.step(time, atoms, MOST_RUNS)
    }

    /// A time call that is put in: it is never refused for room. The time is none that is refused.
    pub fn put_in(&mut self, time: u64) {
        let atoms = self.atoms.clone();
        self.step(time, atoms, usize::MAX);
    }

    pub fn state_call(&mut self, state: &[u64]) -> u64 {
        let wrong = self.wrong_state(state);
        if wrong != ACCEPTED {
            return wrong;
        }
        let atoms = state.iter().map(|&word| word == 1).collect();
        self.step(self.clock, atoms, MOST_RUNS)
    }

    /// The time call and then the state call, made on a copy that is kept if both are accepted; what is wrong with either comes first.
    pub fn stamped_call(&mut self, time: u64, state: &[u64]) -> u64 {
        let mut after = self.clone();
        let numbers = [self.wrong_time(time), self.wrong_state(state), after.time_call(time), after.state_call(state)];
        let refusal = numbers.into_iter().find(|&number| number != ACCEPTED);
        if refusal.is_none() {
            *self = after;
        }
        refusal.unwrap_or(ACCEPTED)
    }

    pub fn wrong_time(&self, time: u64) -> u64 {
        if time < self.clock {
            TIME_BELOW_CLOCK
        } else if time > H {
            TIME_ABOVE_H
        } else {
            ACCEPTED
        }
    }

    pub fn wrong_state(&self, state: &[u64]) -> u64 {
        if state.len() > MOST_WIDTH {
            PAST_LIMIT
        } else if state.len() < self.book.width {
            STATE_TOO_SHORT
        } else if state.len() > self.book.width {
            STATE_TOO_LONG
        } else if state.iter().any(|&word| word > 1) {
            BAD_STATE
        } else {
            ACCEPTED
        }
    }

    /// Re-evaluates every row at this clock and these atoms; nothing changes if one of the sets needs more runs than it may have.
    fn step(&mut self, clock: u64, atoms: Vec<bool>, most_runs: usize) -> u64 {
        let mut values = Vec::with_capacity(self.book.rows.len());
        let mut sets = Vec::with_capacity(self.book.rows.len());
        let mut instants = Vec::with_capacity(self.book.rows.len());
        for ((row, old), all) in self.book.rows.iter().zip(&self.sets).zip(&self.instants) {
            let set = changed(row, &values, old.kept(clock), clock);
            if set.list().len() > most_runs {
                return NO_ROOM;
            }
            instants.push(changed(row, &values, all.clone(), clock));
            values.push(rules::value(row, &values, &set, &atoms, clock));
            sets.push(set);
        }
        self.sets = sets;
        self.instants = instants;
        self.clock = clock;
        self.atoms = atoms;
        self.values = values;
        ACCEPTED
    }

    /// How full the fullest row is: the runs that its instants at and after the clock form. 0 if no row is temporal.
    pub fn count(&self) -> usize {
        self.instants.iter().map(|all| all.count_from(self.clock)).max().unwrap_or(0)
    }

    /// The runs that the fullest row keeps.
    pub fn kept(&self) -> usize {
        self.sets.iter().map(|set| set.list().len()).max().unwrap_or(0)
    }

    /// Each row's early answer.
    pub fn early(&self) -> Vec<Answer> {
        rules::early(&self.book, &self.sets, self.clock)
    }

    /// Each row's settled answer after an accepted call.
    pub fn settled(&self) -> Vec<Answer> {
        rules::settled(&self.book, &self.sets, self.clock)
    }
}

/// A row's set after the call, from what stays of it at the new clock: Once counts calls after which the argument held,
/// Historically those after which it failed, Since those after which right held, as long as left holds after each later
/// call.
fn changed(row: &Row, values: &[bool], kept: Runs, clock: u64) -> Runs {
    let with = |set: Runs, range: &Range| {
        let (lower, upper) = range.counted_from(clock);
        set.with(lower, upper)
    };
    match row {
        Row::Once(argument, range) if values[*argument] => with(kept, range),
        Row::Historically(argument, range) if !values[*argument] => with(kept, range),
        Row::Since(left, right, range) => {
            let stays = if values[*left] { kept } else { Runs::default() };
            if values[*right] {
                with(stays, range)
            } else {
                stays
            }
        }
        _ => kept,
    }
}

#[cfg(test)]
mod tests {
    use super::*;
    use crate::book;
    use crate::text::Reader;

    fn monitor(book: &str) -> Monitor {
        Monitor::new(book::judge(&book::read(&mut Reader::new(book.as_bytes())).unwrap()).unwrap())
    }

    /// Once[0,5] a0 in row 1, after a state in which a0 holds, at 0.
    fn once_to_5() -> Monitor {
        let mut monitor = monitor("2 2 0 0 0 8 1 0 5 1 0 0 1 1");
        assert_eq!(monitor.state_call(&[1]), ACCEPTED);
        monitor
    }

    #[test]
    fn a_run_that_ends_at_the_clock_stays() {
        let mut monitor = once_to_5();
        monitor.state_call(&[0]);
        monitor.time_call(5);
        assert_eq!(monitor.sets[1].list(), [(0, 5)]);
        monitor.time_call(6);
        assert_eq!(monitor.sets[1].list(), []);
    }

    #[test]
    fn a_run_that_is_over_is_not_joined() {
        let mut monitor = once_to_5();
        monitor.time_call(6);
        assert_eq!(monitor.sets[1].list(), [(6, 11)]);
        assert_eq!((monitor.count(), monitor.kept()), (1, 1));
    }

    #[test]
    fn the_count_is_of_what_is_not_over() {
        let mut monitor = once_to_5();
        monitor.state_call(&[0]);
        assert_eq!((monitor.count(), monitor.kept()), (1, 1));
        monitor.time_call(6);
        assert_eq!((monitor.count(), monitor.kept()), (0, 0));
    }

    #[test]
    fn a_refused_call_drops_nothing() {
        let mut monitor = once_to_5();
        monitor.state_call(&[0]);
        assert_eq!(monitor.time_call(H + 1), TIME_ABOVE_H);
        assert_eq!(monitor.sets[1].list(), [(0, 5)]);
    }
}
