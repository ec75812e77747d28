//! The rules of REFERENCE 4 for value, early and settled, each as a table from row 0 upward.

use crate::book::{Book, Range, Row};
use crate::runs::Runs;

/// An early or settled answer.
#[derive(Debug, Clone, Copy, PartialEq, Eq)]
pub enum Answer {
    False,
    True,
    Open,
}

use Answer::{False, Open, True};

impl Answer {
    pub fn of(value: bool) -> Answer {
        if value {
            True
        } else {
            False
        }
    }

    /// The digit in the report.
    pub fn digit(self) -> u8 {
        match self {
            False => b'0',
            True => b'1',
            Open => b'2',
        }
    }

    fn reversed(self) -> Answer {
        match self {
            False => True,
            True => False,
            Open => Open,
        }
    }
}

/// The value of a row, from its operands' values and, for a temporal row, its set.
pub fn value(row: &Row, values: &[bool], set: &Runs, atoms: &[bool], clock: u64) -> bool {
    match row {
        Row::False => false,
        Row::True => true,
        Row::Atom(n) => atoms[*n],
        Row::And(operands) => operands.iter().all(|&o| values[o]),
        Row::Or(operands) => operands.iter().any(|&o| values[o]),
        Row::Not(o) => !values[*o],
        Row::Implies(left, right) => !values[*left] || values[*right],
        Row::Historically(..) => !set.contains(clock),
        Row::Once(..) | Row::Since(..) => set.contains(clock),
    }
}

/// The early answers of all rows.
pub fn early(book: &Book, sets: &[Runs], clock: u64) -> Vec<Answer> {
    table(book, |row, answers, number| early_rule(row, answers, sets[number].covers(clock)))
}

/// The settled answers of all rows after an accepted call.
pub fn settled(book: &Book, sets: &[Runs], clock: u64) -> Vec<Answer> {
    table(book, |row, answers, number| settled_rule(row, answers, sets[number].covers(clock), sets[number].gone(clock)))
}

fn table(book: &Book, rule: impl Fn(&Row, &[Answer], usize) -> Answer) -> Vec<Answer> {
    let mut answers = Vec::with_capacity(book.rows.len());
    for (number, row) in book.rows.iter().enumerate() {
        let answer = rule(row, &answers, number);
        answers.push(answer);
    }
    answers
}

fn early_rule(row: &Row, answers: &[Answer], covers: bool) -> Answer {
    match row {
        Row::And(operands) => {
            let any = |a: Answer| operands.iter().any(|&o| answers[o] == a);
            if any(Open) {
                Open
            } else {
                Answer::of(!any(False))
            }
        }
        Row::Or(operands) => {
            let any = |a: Answer| operands.iter().any(|&o| answers[o] == a);
            if any(Open) {
                Open
            } else {
                Answer::of(any(True))
            }
        }
        Row::Historically(argument, Range { lower, .. }) => match answers[*argument] {
            True => True,
            False if *lower == 0 => False,
            _ if covers => False,
            _ => Open,
        },
        Row::Once(argument, Range { lower, .. }) => match answers[*argument] {
            False => False,
            True if *lower == 0 => True,
            _ if covers => True,
            _ => Open,
        },
        Row::Since(left, right, Range { lower, .. }) => match (answers[*left], answers[*right]) {
            (_, False) => False,
            (True, _) if covers => True,
            (False, _) if covers && *lower == 0 => False,
            _ => Open,
        },
        _ => common_rule(row, answers),
    }
}

fn settled_rule(row: &Row, answers: &[Answer], covers: bool, gone: bool) -> Answer {
    match row {
        Row::And(operands) => {
            let all = |a: Answer| operands.iter().all(|&o| answers[o] == a);
            let any = |a: Answer| operands.iter().any(|&o| answers[o] == a);
            two_tests(all(True), any(False))
        }
        Row::Or(operands) => {
            let all = |a: Answer| operands.iter().all(|&o| answers[o] == a);
            let any = |a: Answer| operands.iter().any(|&o| answers[o] == a);
            two_tests(any(True), all(False))
        }
        Row::Once(argument, Range { lower, .. }) => {
            let argument = answers[*argument];
            two_tests(covers || (argument == True && *lower == 0), argument == False && gone)
        }
        Row::Historically(argument, Range { lower, .. }) => {
            let argument = answers[*argument];
            two_tests(argument == True && gone, covers || (argument == False && *lower == 0))
        }
        Row::Since(left, right, Range { lower, .. }) => {
            let (left, right) = (answers[*left], answers[*right]);
            two_tests(
                (left == True && covers) || (right == True && *lower == 0),
                (right == False && gone) || (left == False && *lower > 0),
            )
        }
        _ => common_rule(row, answers),
    }
}

/// "True if .., false if .., else open"; no state of a monitor meets both tests.
fn two_tests(true_if: bool, false_if: bool) -> Answer {
    assert!(!(true_if && false_if), "a settled rule gives both answers");
    if true_if {
        True
    } else if false_if {
        False
    } else {
        Open
    }
}

/// The rules that early and settled share.
fn common_rule(row: &Row, answers: &[Answer]) -> Answer {
    match row {
        Row::False => False,
        Row::True => True,
        Row::Not(o) => answers[*o].reversed(),
        Row::Implies(left, right) => match (answers[*left], answers[*right]) {
            (_, True) | (False, _) => True,
            (True, False) => False,
            _ => Open,
        },
        _ => Open,
    }
}
