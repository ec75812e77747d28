//! Traces of the original's oracle: formulas and calls drawn at random, and what it answers before the first call and after each.

use crate::notation;
use compare::chance::Chance;
use scan_core::{Oracle, TimeRange};
use scan_pmtl::{Pmtl, PmtlOracle};
use std::panic;

/// What was drawn: examples as the transcription writes them, and how many of them end in a panic.
#[derive(Default)]
pub struct Drawn {
    pub traces: Vec<String>,
    pub panics: usize,
}

/// How deep a formula is nested, how many atoms there are, and how many calls a trace has.
const DEPTH: usize = 3;
const ATOMS: usize = 3;
const CALLS: u64 = 7;

/// The largest time and the largest bound.
const H: u64 = u64::MAX / 2;

/// A call of the original.
enum Call {
    Time(u64),
    State(Vec<bool>),
}

/// Draws one oracle and one trace of it.
pub fn draw(chance: &mut Chance, drawn: &mut Drawn) {
    let assumes = formulas(chance, 1);
    let guarantees = formulas(chance, 0);
    let calls = calls(chance);
    let mut oracle = PmtlOracle::new(&assumes, &guarantees);
    let mut answers = vec![notation::ran(Some(answered(&oracle)))];
    for call in &calls {
        let made = panic::catch_unwind(panic::AssertUnwindSafe(|| make(&mut oracle, call))).is_ok();
        answers.push(notation::ran(made.then(|| answered(&oracle))));
        if !made {
            drawn.panics += 1;
            break;
        }
    }
    let written = |fs: &[Pmtl<usize>]| notation::list(fs.iter().map(notation::formula));
    let calls = notation::list(calls.iter().map(shown));
    let new = format!("done (new ({}) ({}))", written(&assumes), written(&guarantees));
    drawn.traces.push(format!("(trace ({calls}) ({new}) gives {})", notation::list(answers)));
}

fn make(oracle: &mut PmtlOracle, call: &Call) {
    match call {
        Call::Time(time) => oracle.update_time(*time),
        Call::State(state) => oracle.update_state(state),
    }
}

/// The early answers and the values that the four iterators give, assumes first.
fn answered(oracle: &PmtlOracle) -> String {
    let early = oracle.output_assumes().chain(oracle.output_guarantees());
    let values = oracle.final_output_assumes().chain(oracle.final_output_guarantees());
    format!("{}, {}", notation::list(early.map(notation::option)), notation::list(values.map(|value| value.to_string())))
}

fn shown(call: &Call) -> String {
    match call {
        Call::Time(time) => format!("time {}", notation::number(*time)),
        Call::State(state) => format!("state ({})", notation::list(state.iter().map(|&b| u8::from(b).to_string()))),
    }
}

/// Calls with small steps, equal times and jumps; a few go back in time or have too short a state, on which the original panics.
fn calls(chance: &mut Chance) -> Vec<Call> {
    let mut clock = 0;
    let mut calls = Vec::new();
    for _ in 0..CALLS {
        if chance.one_in(2) {
            let width = if chance.one_in(20) { ATOMS - 1 } else { ATOMS };
            calls.push(Call::State((0..width).map(|_| chance.one_in(2)).collect()));
            continue;
        }
        clock = match chance.weighed(&[30, 1, 2]) {
            0 => (clock + chance.within(0..=3)).min(H),
            1 => H - chance.within(0..=3),
            _ => clock.saturating_sub(1),
        };
        calls.push(Call::Time(clock));
    }
    calls
}

/// One or two formulas if at least one is asked for, else none or one.
fn formulas(chance: &mut Chance, least: u64) -> Vec<Pmtl<usize>> {
    (0..chance.within(least..=least + 1)).map(|_| formula(chance, DEPTH)).collect()
}

/// A formula, with temporal ones likely; the outermost is no leaf, and the innermost is one.
fn formula(chance: &mut Chance, depth: usize) -> Pmtl<usize> {
    let weights: &[usize] = match depth {
        0 => &[1, 1, 6],
        DEPTH => &[0, 0, 0, 2, 2, 2, 2, 4, 4, 4],
        _ => &[1, 1, 6, 2, 2, 2, 2, 4, 4, 4],
    };
    match chance.weighed(weights) {
        0 => Pmtl::True,
        1 => Pmtl::False,
        2 => Pmtl::Atom(chance.below(ATOMS)),
        3 => Pmtl::And(operands(chance, depth)),
        4 => Pmtl::Or(operands(chance, depth)),
        5 => Pmtl::Not(one(chance, depth)),
        6 => Pmtl::Implies(two(chance, depth)),
        7 => Pmtl::Historically(one(chance, depth), range(chance)),
        8 => Pmtl::Once(one(chance, depth), range(chance)),
        _ => Pmtl::Since(two(chance, depth), range(chance)),
    }
}

fn one(chance: &mut Chance, depth: usize) -> Box<Pmtl<usize>> {
    Box::new(formula(chance, depth - 1))
}

fn two(chance: &mut Chance, depth: usize) -> Box<(Pmtl<usize>, Pmtl<usize>)> {
    Box::new((formula(chance, depth - 1), formula(chance, depth - 1)))
}

fn operands(chance: &mut Chance, depth: usize) -> Vec<Pmtl<usize>> {
    (0..chance.within(0..=3)).map(|_| formula(chance, depth - 1)).collect()
}

/// A range that a book may have: small, unbounded, or up to H.
fn range(chance: &mut Chance) -> TimeRange {
    let lower = if chance.one_in(2) { 0 } else { chance.within(0..=3) };
    match chance.weighed(&[10, 8, 1]) {
        0 => TimeRange::new(lower, lower + chance.within(0..=3)),
        1 => TimeRange::new(lower, u64::MAX),
        _ => TimeRange::new(H - lower, H),
    }
}
