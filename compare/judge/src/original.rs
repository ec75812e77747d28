//! The original's oracle, built from a book and driven by accepted calls.

use crate::book::{Book, Range, Row};
use crate::rules::Answer;
use scan_core::{Oracle, TimeRange};
use scan_pmtl::{Pmtl, PmtlOracle};

pub struct Original(PmtlOracle);

impl Original {
    pub fn new(book: &Book) -> Self {
        let formulae = |rows: &[usize]| rows.iter().map(|&r| formula(book, r)).collect::<Vec<_>>();
        Self(PmtlOracle::new(&formulae(&book.assumes), &formulae(&book.guarantees)))
    }

    pub fn time_call(&mut self, time: u64) {
        self.0.update_time(time);
    }

    pub fn state_call(&mut self, state: &[u64]) {
        let state: Vec<bool> = state.iter().map(|&word| word == 1).collect();
        self.0.update_state(&state);
    }

    /// The properties' values, assumes first.
    pub fn values(&self) -> Vec<bool> {
        self.0.final_output_assumes().chain(self.0.final_output_guarantees()).collect()
    }

    /// The properties' early answers, assumes first.
    pub fn early(&self) -> Vec<Answer> {
        let answers = self.0.output_assumes().chain(self.0.output_guarantees());
        answers.map(|a| a.map_or(Answer::Open, Answer::of)).collect()
    }
}

/// The original's tree for a row.
fn formula(book: &Book, row: usize) -> Pmtl<usize> {
    let one = |r: &usize| Box::new(formula(book, *r));
    let two = |l: &usize, r: &usize| Box::new((formula(book, *l), formula(book, *r)));
    let all = |rows: &[usize]| rows.iter().map(|&r| formula(book, r)).collect();
    let range = |r: &Range| TimeRange::new(r.lower, r.upper);
    match &book.rows[row] {
        Row::False => Pmtl::False,
        Row::True => Pmtl::True,
        Row::Atom(n) => Pmtl::Atom(*n),
        Row::And(operands) => Pmtl::And(all(operands)),
        Row::Or(operands) => Pmtl::Or(all(operands)),
        Row::Not(o) => Pmtl::Not(one(o)),
        Row::Implies(left, right) => Pmtl::Implies(two(left, right)),
        Row::Historically(o, r) => Pmtl::Historically(one(o), range(r)),
        Row::Once(o, r) => Pmtl::Once(one(o), range(r)),
        Row::Since(left, right, r) => Pmtl::Since(two(left, right), range(r)),
    }
}
