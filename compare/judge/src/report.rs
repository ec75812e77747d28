//! The report, byte for byte.

use crate::book::{self, Book, Row, COULD_RUN_OUT, MAX, NESTED, PASSES_LIMIT};
use crate::monitor::{Monitor, ACCEPTED, MOST_WIDTH};
use crate::original::Original;
use crate::rules::Answer;
use crate::summaries::summaries;
use crate::text::{Reader, BAD_WORD, ENDS_EARLY};
use std::io::Write;
use std::ops::Range;

/// The longest input, in bytes.
pub const LONGEST_INPUT: usize = 65536;

/// Sees what the report is made of, while it is made.
pub trait Watch {
    /// The book's number.
    fn book(&mut self, _number: u64) {}
    /// A call, its number of refusal, or 0, and the monitor after it.
    fn call(&mut self, _call: &Call, _number: u64, _monitor: &Monitor) {}
    /// The number after `stop`.
    fn stop(&mut self, _number: u64) {}
}

/// Watches nothing.
pub struct Nobody;

impl Watch for Nobody {}

/// A call as it is read.
#[derive(Clone, PartialEq, Eq)]
pub enum Call {
    Time(u64),
    State(Vec<u64>),
    Stamped(u64, Vec<u64>),
}

impl Call {
    /// Its time, if it has one.
    fn time(&self) -> Option<u64> {
        match self {
            Call::Time(time) | Call::Stamped(time, _) => Some(*time),
            Call::State(_) => None,
        }
    }
}

/// At which of the instants between two clocks the judge of the lasting way puts a call in.
#[derive(Clone, Copy, PartialEq, Eq)]
pub enum Gaps {
    /// At every one.
    Whole,
    /// At the first and at the last ones, as many as the largest finite upper bound says. What a call at another instant adds to a set is
    /// over before the new clock or, where the range has no end, lies in what the first one adds; and all see the same state.
    Ends,
}

/// A way of monitoring.
#[derive(Clone, Copy)]
enum Way {
    Ordinary,
    /// Time calls are put in: so many in all may still be.
    Lasting(Gaps, u64),
}

/// The report expected for an input; or, in words, where the original leaves the rules of REFERENCE 4.1 and 4.3 for value and early.
pub fn report(input: &[u8], watch: &mut impl Watch) -> Result<Vec<u8>, String> {
    Ok(report_in(Way::Ordinary, input, watch)?.expect("the ordinary way puts nothing in"))
}

/// The report expected in the lasting way, in which the calls of REFERENCE 3.9 are put in one by one, on the original, too; none where there
/// are more of them than `most`.
pub fn lasting(input: &[u8], gaps: Gaps, most: u64, watch: &mut impl Watch) -> Result<Option<Vec<u8>>, String> {
    report_in(Way::Lasting(gaps, most), input, watch)
}

fn report_in(way: Way, input: &[u8], watch: &mut impl Watch) -> Result<Option<Vec<u8>>, String> {
    let mut out = Vec::new();
    if input.len() > LONGEST_INPUT {
        stop_line(&mut out, PASSES_LIMIT, watch);
        return Ok(Some(out));
    }
    let mut words = Reader::new(input);
    let judged = book::read(&mut words).and_then(|sections| book::judge(&sections)).and_then(|book| match way {
        Way::Lasting(..) if book.is_nested() => Err(NESTED),
        _ => Ok(book),
    });
    let number = judged.as_ref().err().copied().unwrap_or(ACCEPTED);
    watch.book(number);
    out.extend_from_slice(format!("book {number}\n").as_bytes());
    if let Ok(book) = judged {
        match call_lines(way, &mut words, book, &mut out, watch)? {
            None => return Ok(None),
            Some(ENDED) => out.extend_from_slice(b"end\n"),
            Some(number) => stop_line(&mut out, number, watch),
        }
    }
    Ok(Some(out))
}

/// The report of an input whose book is loaded strictly, from that of the same way where it is not: one line if a row can need more runs
/// than there is room for, before 17.
pub fn strictly(input: &[u8], report: &[u8]) -> Vec<u8> {
    let judged = book::read(&mut Reader::new(input)).and_then(|sections| book::judge(&sections));
    match judged.ok().filter(|_| input.len() <= LONGEST_INPUT).as_ref().and_then(book::over) {
        Some((row, count)) => format!("book {COULD_RUN_OUT} {row} {count}\n").into_bytes(),
        None => report.to_vec(),
    }
}

/// All calls were read, and nothing is left over.
const ENDED: u64 = 0;

fn stop_line(out: &mut Vec<u8>, number: u64, watch: &mut impl Watch) {
    watch.stop(number);
    out.extend_from_slice(format!("stop {number}\n").as_bytes());
}

/// A line for each call; then the summaries and `ENDED`, or the number that stops the reading; none where too many calls would be put in.
fn call_lines(way: Way, words: &mut Reader, book: Book, out: &mut Vec<u8>, watch: &mut impl Watch) -> Result<Option<u64>, String> {
    let count = match words.next_word() {
        Ok(count) => count,
        Err(number) => return Ok(Some(number)),
    };
    let start = out.len();
    let mut pair = Pair { way, original: Original::new(&book), monitor: Monitor::new(book) };
    for number in 1..=count {
        let call = match read_call(words) {
            Ok(call) => call,
            Err(refusal) => return Ok(Some(refusal)),
        };
        let Some(refusal) = pair.call(&call) else { return Ok(None) };
        watch.call(&call, refusal, &pair.monitor);
        write!(out, "{number} {refusal}").expect("a vector takes all bytes");
        if refusal == ACCEPTED {
            pair.answers(number, out)?;
        }
        out.push(b'\n');
    }
    Ok(Some(match words.next_word() {
        Ok(_) => ENDS_EARLY,
        Err(ENDS_EARLY) => {
            let summaries = summaries(&out[start..], pair.monitor.book.properties().count());
            out.extend_from_slice(&summaries);
            ENDED
        }
        Err(number) => number,
    }))
}

/// A call, or the number that stops the reading: a kind over 2 and a width over 256 are refused at once.
pub fn read_call(words: &mut Reader) -> Result<Call, u64> {
    match words.next_word()? {
        0 => Ok(Call::Time(words.next_word()?)),
        1 => Ok(Call::State(read_state(words)?)),
        2 => Ok(Call::Stamped(words.next_word()?, read_state(words)?)),
        _ => Err(BAD_WORD),
    }
}

/// A width and that many words.
fn read_state(words: &mut Reader) -> Result<Vec<u64>, u64> {
    let width = words.next_word()?;
    if width > MOST_WIDTH as u64 {
        return Err(PASSES_LIMIT);
    }
    (0..width).map(|_| words.next_word()).collect()
}

/// The monitor by the rules and the original beside it; a refused call does not reach the original, and a stamped call is two calls there.
struct Pair {
    way: Way,
    monitor: Monitor,
    original: Original,
}

impl Pair {
    /// The call's number of refusal, or 0; none where too many calls would be put in. What is put in before a call that is then refused is
    /// put into a copy alone.
    fn call(&mut self, call: &Call) -> Option<u64> {
        let [first, last] = self.between(call);
        let count = [&first, &last].iter().map(|instants| instants.end.saturating_sub(instants.start)).sum();
        let before = (count > 0).then(|| self.monitor.clone());
        if let Way::Lasting(_, left) = &mut self.way {
            *left = left.checked_sub(count)?;
        }
        let between = first.chain(last);
        between.clone().for_each(|instant| self.monitor.put_in(instant));
        let refusal = match call {
            Call::Time(time) => self.monitor.time_call(*time),
            Call::State(state) => self.monitor.state_call(state),
            Call::Stamped(time, state) => self.monitor.stamped_call(*time, state),
        };
        if refusal == ACCEPTED {
            between.chain(call.time()).for_each(|instant| self.original.time_call(instant));
            if let Call::State(state) | Call::Stamped(_, state) = call {
                self.original.state_call(state);
            }
        } else if let Some(before) = before {
            self.monitor = before;
        }
        Some(refusal)
    }

    /// The instants strictly between the clock and the call's time, where the way puts a call in at them: none before a call that is wrong
    /// in itself. Where no row is temporal nothing is remembered, and none is needed.
    fn between(&self, call: &Call) -> [Range<u64>; 2] {
        let none = 0..0;
        let (Way::Lasting(gaps, _), Some(time)) = (self.way, call.time()) else { return [none.clone(), none] };
        let wrong_state = match call {
            Call::Stamped(_, state) => self.monitor.wrong_state(state),
            _ => ACCEPTED,
        };
        let ranges: Vec<book::Range> = self.monitor.book.rows.iter().filter_map(Row::range).collect();
        if self.monitor.wrong_time(time) != ACCEPTED || wrong_state != ACCEPTED || ranges.is_empty() {
            return [none.clone(), none];
        }
        let first = self.monitor.clock + 1;
        let reach = ranges.iter().map(|range| range.upper).filter(|&upper| upper != MAX).max().unwrap_or(0);
        if gaps == Gaps::Whole || time.saturating_sub(reach) <= first {
            return [none, first..time];
        }
        [first..first + 1, time - reach..time]
    }

    /// A word for each property, value and early of the original, settled of the rules; and the count, of the instants.
    fn answers(&self, call: u64, out: &mut Vec<u8>) -> Result<(), String> {
        let (values, early) = (self.original.values(), self.original.early());
        let (rules_early, settled) = (self.monitor.early(), self.monitor.settled());
        for (property, row) in self.monitor.book.properties().enumerate() {
            let original = (values[property], early[property]);
            let rules = (self.monitor.values[row], rules_early[row]);
            if original != rules {
                return Err(format!("call {call}, property {property}: the original says {original:?}, the rules {rules:?}"));
            }
            out.extend_from_slice(&[b' ', Answer::of(original.0).digit(), original.1.digit(), settled[row].digit()]);
        }
        let (count, kept) = (self.monitor.count(), self.monitor.kept());
        if count != kept {
            return Err(format!("call {call}: the instants form {count} runs, and {kept} are kept"));
        }
        write!(out, " {count}").expect("a vector takes all bytes");
        Ok(())
    }
}
