//! What an input decides, as short sentences: which kinds, rules and ranges, and which way. Only rows that are properties
//! count, since their answers stand in the report as they are.

use judge::book::{Range, Row, H, MAX};
use judge::monitor::{Monitor, ACCEPTED, MOST_RUNS};
use judge::report::{report, Call, Watch};
use judge::rules::Answer;
use judge::runs::Runs;
use std::collections::BTreeSet;

pub type Sentences = BTreeSet<String>;

/// Bounds this close to H are near it.
const NEAR: u64 = 1000;

/// What a text decides.
pub fn decided(text: &[u8]) -> Sentences {
    let mut seen = Seen::default();
    report(text, &mut seen).expect("original and rules agree");
    seen.sentences
}

#[derive(Default)]
struct Seen {
    sentences: Sentences,
    /// Of each row, whether its set got an instant and was not dropped whole since: where it is empty, it has lapsed.
    filled: Vec<bool>,
}

impl Watch for Seen {
    fn book(&mut self, number: u64) {
        self.sentences.insert(format!("book {number}"));
    }

    fn call(&mut self, call: &Call, number: u64, monitor: &Monitor) {
        self.sentences.insert(format!("{} call {number}", call_kind(call)));
        if number == ACCEPTED {
            self.sentences.insert(format!("count {}", count_kind(monitor.count())));
            self.fill(monitor);
            self.rows(monitor);
        }
    }

    fn stop(&mut self, number: u64) {
        self.sentences.insert(format!("stop {number}"));
    }
}

impl Seen {
    fn fill(&mut self, monitor: &Monitor) {
        self.filled.resize(monitor.book.rows.len(), false);
        for (number, row) in monitor.book.rows.iter().enumerate() {
            let stays = !matches!(row, Row::Since(left, ..) if !monitor.values[*left]);
            self.filled[number] = (self.filled[number] && stays) || !monitor.sets[number].list().is_empty();
        }
    }

    fn rows(&mut self, monitor: &Monitor) {
        let (early, settled) = (monitor.early(), monitor.settled());
        for number in monitor.book.properties() {
            let (row, value, set) = (&monitor.book.rows[number], monitor.values[number], &monitor.sets[number]);
            self.sentences.insert(format!("{} value {}", name(row), u8::from(value)));
            for (rule, answers) in [("early", &early), ("settled", &settled)] {
                self.sentences.insert(format!("{} {rule} {}", name(row), told(answers[number])));
                self.sentences.extend(operands(row, answers).map(|operands| format!("{} {rule} of {operands}", name(row))));
            }
            if let Some(range) = range(row) {
                self.sentences.insert(format!("{} over {} value {}", name(row), range_kind(range), u8::from(value)));
                let lower = if range.lower == 0 { "lower 0" } else { "lower over 0" };
                let covers = if set.covers(monitor.clock) { "covers" } else { "does not cover" };
                let (told_early, told_settled) = (operands(row, &early).unwrap_or_default(), operands(row, &settled).unwrap_or_default());
                self.sentences.insert(format!("{} early: {told_early}, {lower}, {covers}", name(row)));
                let set = set_kind(set, self.filled[number], monitor.clock);
                self.sentences.insert(format!("{} settled: {told_settled}, {lower}, {set}", name(row)));
            }
        }
    }
}

pub fn told(answer: Answer) -> &'static str {
    match answer {
        Answer::False => "false",
        Answer::True => "true",
        Answer::Open => "open",
    }
}

fn call_kind(call: &Call) -> &'static str {
    match call {
        Call::Time(_) => "time",
        Call::State(_) => "state",
        Call::Stamped(..) => "stamped",
    }
}

fn name(row: &Row) -> &'static str {
    match row {
        Row::False => "False",
        Row::True => "True",
        Row::Atom(_) => "Atom",
        Row::And(_) => "And",
        Row::Or(_) => "Or",
        Row::Not(_) => "Not",
        Row::Implies(..) => "Implies",
        Row::Historically(..) => "Historically",
        Row::Once(..) => "Once",
        Row::Since(..) => "Since",
    }
}

fn range(row: &Row) -> Option<&Range> {
    match row {
        Row::Historically(_, range) | Row::Once(_, range) | Row::Since(_, _, range) => Some(range),
        _ => None,
    }
}

/// The operands' answers; for And and Or, which answers there are among them.
fn operands(row: &Row, answers: &[Answer]) -> Option<String> {
    match row {
        Row::And(operands) | Row::Or(operands) => {
            let all: BTreeSet<&str> = operands.iter().map(|&o| told(answers[o])).collect();
            Some(if all.is_empty() { "none".to_string() } else { all.into_iter().collect::<Vec<_>>().join(" and ") })
        }
        Row::Not(o) | Row::Historically(o, _) | Row::Once(o, _) => Some(told(answers[*o]).to_string()),
        Row::Implies(left, right) | Row::Since(left, right, _) => Some(format!("{} {}", told(answers[*left]), told(answers[*right]))),
        _ => None,
    }
}

fn range_kind(range: &Range) -> String {
    let lower = match range.lower {
        0 => "0",
        lower if lower < NEAR => "small",
        lower if lower < H - NEAR => "large",
        _ => "near H",
    };
    let upper = match range.upper {
        MAX => "unbounded",
        upper if upper == range.lower => "the same",
        upper if upper < NEAR => "small",
        upper if upper < H - NEAR => "large",
        _ => "near H",
    };
    format!("[{lower}, {upper}]")
}

fn count_kind(count: usize) -> &'static str {
    match count {
        0 => "0",
        1 => "1",
        2..MOST_RUNS => "over 1",
        _ => "full",
    }
}

fn set_kind(set: &Runs, filled: bool, clock: u64) -> &'static str {
    if set.covers(clock) {
        "covers"
    } else if !set.list().is_empty() {
        "does not cover"
    } else if filled {
        "lapsed"
    } else {
        "empty"
    }
}
