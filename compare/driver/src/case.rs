//! A book and its calls, as rows that know their operands, and as text.

use crate::chance::Chance;
use judge::book::{self, operands_taken, Sections};
use judge::report::{read_call, Call as ReadCall};
use judge::text::{Reader, ENDS_EARLY};

pub const FALSE: u64 = 0;
pub const TRUE: u64 = 1;
pub const ATOM: u64 = 2;
pub const AND: u64 = 3;
pub const OR: u64 = 4;
pub const NOT: u64 = 5;
pub const IMPLIES: u64 = 6;
pub const HISTORICALLY: u64 = 7;
pub const ONCE: u64 = 8;
pub const SINCE: u64 = 9;

#[derive(Debug, Clone, PartialEq, Eq)]
pub struct Row {
    pub kind: u64,
    /// The atom's number; 0 for every other kind.
    pub atom: u64,
    pub lower: u64,
    pub upper: u64,
    pub operands: Vec<usize>,
}

impl Row {
    /// A row without bounds.
    pub fn plain(kind: u64, atom: u64, operands: Vec<usize>) -> Self {
        Self { kind, atom, lower: 0, upper: 0, operands }
    }

    fn words(&self) -> [u64; 4] {
        let arg = if self.kind == ATOM { self.atom } else { self.operands.len() as u64 };
        [self.kind, arg, self.lower, self.upper]
    }
}

#[derive(Debug, Clone, PartialEq, Eq)]
pub enum Call {
    Time(u64),
    State(Vec<u64>),
    Stamped(u64, Vec<u64>),
}

impl Call {
    fn words(&self) -> Vec<u64> {
        match self {
            Call::Time(time) => vec![0, *time],
            Call::State(state) => [1, state.len() as u64].iter().chain(state).copied().collect(),
            Call::Stamped(time, state) => [2, *time, state.len() as u64].iter().chain(state).copied().collect(),
        }
    }

    /// Its time and its state, each if it has one.
    pub fn parts(&self) -> (Option<u64>, Option<&[u64]>) {
        match self {
            Call::Time(time) => (Some(*time), None),
            Call::State(state) => (None, Some(state)),
            Call::Stamped(time, state) => (Some(*time), Some(state)),
        }
    }

    /// The same, to be changed.
    pub fn parts_mut(&mut self) -> (Option<&mut u64>, Option<&mut Vec<u64>>) {
        match self {
            Call::Time(time) => (Some(time), None),
            Call::State(state) => (None, Some(state)),
            Call::Stamped(time, state) => (Some(time), Some(state)),
        }
    }
}

#[derive(Debug, Clone, PartialEq, Eq, Default)]
pub struct Case {
    pub rows: Vec<Row>,
    pub assumes: Vec<usize>,
    pub guarantees: Vec<usize>,
    pub calls: Vec<Call>,
}

/// How words are parted.
#[derive(Clone, Copy)]
pub enum Layout {
    /// As in docs/REFERENCE.md 8.6: each row, section and call on a line of its own.
    Lines,
    OneLine,
    /// Spaces and line feeds in any number.
    Ragged,
}

impl Case {
    /// The state width that the book asks for.
    pub fn width(&self) -> usize {
        self.rows.iter().filter(|r| r.kind == ATOM).map(|r| r.atom as usize + 1).max().unwrap_or(0)
    }

    pub fn sections(&self) -> Sections {
        let numbers = |rows: &[usize]| rows.iter().map(|&r| r as u64).collect::<Vec<u64>>();
        Sections {
            rows: self.rows.iter().map(Row::words).collect(),
            operands: self.rows.iter().flat_map(|r| numbers(&r.operands)).collect(),
            assumes: numbers(&self.assumes),
            guarantees: numbers(&self.guarantees),
        }
    }

    /// The input's text, one line for each row, section and call.
    pub fn text(&self) -> Vec<u8> {
        text(&self.sections(), &self.calls, Layout::Lines, &mut Chance::new(0, 0))
    }

    /// The case that a text writes, if its book is accepted and its calls are read to the end.
    pub fn of_text(text: &[u8]) -> Option<Case> {
        let mut words = Reader::new(text);
        let sections = book::read(&mut words).ok()?;
        book::judge(&sections).ok()?;
        let count = words.next_word().ok()?;
        let mut calls = Vec::new();
        for _ in 0..count {
            calls.push(match read_call(&mut words).ok()? {
                ReadCall::Time(time) => Call::Time(time),
                ReadCall::State(state) => Call::State(state),
                ReadCall::Stamped(time, state) => Call::Stamped(time, state),
            });
        }
        (words.next_word() == Err(ENDS_EARLY)).then(|| Case { calls, ..Case::of_book(&sections) })
    }

    /// The rows of an accepted book, with no calls.
    fn of_book(sections: &Sections) -> Case {
        let numbers = |words: &[u64]| words.iter().map(|&w| w as usize).collect::<Vec<usize>>();
        let mut operands = numbers(&sections.operands).into_iter();
        let rows = sections.rows.iter().map(|&[kind, arg, lower, upper]| Row {
            kind,
            atom: if kind == ATOM { arg } else { 0 },
            lower,
            upper,
            operands: operands.by_ref().take(operands_taken(kind, arg)).collect(),
        });
        Case { rows: rows.collect(), assumes: numbers(&sections.assumes), guarantees: numbers(&sections.guarantees), calls: Vec::new() }
    }
}

/// The text of a book's sections and its calls.
pub fn text(sections: &Sections, calls: &[Call], layout: Layout, chance: &mut Chance) -> Vec<u8> {
    let mut lines: Vec<Vec<u64>> = vec![vec![sections.rows.len() as u64]];
    lines.extend(sections.rows.iter().map(|row| row.to_vec()));
    for section in [&sections.operands, &sections.assumes, &sections.guarantees] {
        lines.push([section.len() as u64].iter().chain(section).copied().collect());
    }
    lines.push(vec![calls.len() as u64]);
    lines.extend(calls.iter().map(Call::words));
    let mut out = Vec::new();
    for line in lines {
        for (place, word) in line.iter().enumerate() {
            if place > 0 {
                part(&mut out, b' ', layout, chance);
            }
            out.extend_from_slice(word.to_string().as_bytes());
        }
        part(&mut out, b'\n', layout, chance);
    }
    out
}

/// What parts two words.
fn part(out: &mut Vec<u8>, usual: u8, layout: Layout, chance: &mut Chance) {
    match layout {
        Layout::Lines => out.push(usual),
        Layout::OneLine => out.push(b' '),
        Layout::Ragged => {
            for _ in 0..1 + chance.weighed(&[8, 2, 1]) {
                out.push(chance.among(b" \n"));
            }
        }
    }
}

#[cfg(test)]
mod tests {
    use super::*;

    #[test]
    fn text_and_back() {
        let case = Case {
            rows: vec![
                Row::plain(ATOM, 3, vec![]),
                Row { kind: ONCE, atom: 0, lower: 2, upper: 5, operands: vec![0] },
                Row::plain(OR, 0, vec![]),
                Row::plain(IMPLIES, 0, vec![2, 1]),
            ],
            assumes: vec![3],
            guarantees: vec![],
            calls: vec![Call::Time(4), Call::State(vec![0, 1, 7]), Call::Stamped(5, vec![1])],
        };
        assert_eq!(case.text(), b"4\n2 3 0 0\n8 1 2 5\n4 0 0 0\n6 2 0 0\n3 0 2 1\n1 3\n0\n3\n0 4\n1 3 0 1 7\n2 5 1 1\n");
        assert_eq!(Case::of_text(&case.text()), Some(case));
    }
}
