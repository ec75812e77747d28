//! The summaries of the properties, recounted from a report's lines of calls as they are printed.

use crate::monitor::ACCEPTED;
use std::io::Write;

/// The lines of a report that are those of its calls: they are numbered from 1, which no summary after them goes on with, since it begins
/// with how many calls were accepted.
pub fn calls_of(report: &str) -> impl Iterator<Item = &str> {
    let after_book = report.lines().skip(1).zip(1u64..);
    after_book.take_while(|(line, number)| word(line, 0) == number.to_string()).map(|(line, _)| line)
}

fn word(line: &str, place: usize) -> &str {
    line.split(' ').nth(place).unwrap_or_default()
}

/// An accepted call's line: its number, and the property's three digits.
struct Told<'a> {
    number: &'a str,
    digits: &'a str,
}

impl Told<'_> {
    fn is_false(&self) -> bool {
        self.digits.starts_with('0')
    }

    fn is_settled(&self) -> bool {
        !self.digits.ends_with('2')
    }
}

/// A line for each property.
pub fn summaries(calls: &[u8], properties: usize) -> Vec<u8> {
    let calls = std::str::from_utf8(calls).expect("a report is of ASCII");
    let mut out = Vec::new();
    for property in 0..properties {
        let accepted = calls.lines().filter(|line| word(line, 1) == ACCEPTED.to_string());
        let told: Vec<Told> = accepted.map(|line| Told { number: word(line, 0), digits: word(line, 2 + property) }).collect();
        let failed: Vec<&str> = told.iter().filter(|call| call.is_false()).map(|call| call.number).collect();
        let (first, last) = (failed.first().unwrap_or(&"0"), failed.last().unwrap_or(&"0"));
        let longest = told.split(|call| !call.is_false()).map(<[Told]>::len).max().unwrap_or(0);
        let settled = told.iter().find(|call| call.is_settled()).map_or("0", |call| call.number);
        writeln!(out, "{} {} {first} {last} {longest} {settled}", told.len(), failed.len()).expect("a vector takes all bytes");
    }
    out
}
