//! A straightforward Rust program over the original: text in, report out. It knows no settled answer, no limit on runs and no
//! count of them, since the original has none of these: the third digit is always open, and the last word 0, also that of a summary.

use scan_core::{Oracle, TimeRange};
use scan_pmtl::{Pmtl, PmtlOracle};

const H: u64 = u64::MAX / 2;
const LONGEST_INPUT: usize = 65536;
const MOST_ROWS: u64 = 128;
const MOST_OPERANDS: u64 = 128;
const MOST_PROPERTIES: u64 = 16;
const MOST_TEMPORAL: usize = 32;
const MOST_WIDTH: u64 = 256;

type Formula = Pmtl<usize>;

/// Reads words from a text.
struct Words<'a> {
    text: &'a [u8],
    at: usize,
}

impl Words<'_> {
    fn next(&mut self) -> Result<u64, u64> {
        let parts = |b: u8| b == b' ' || b == b'\n';
        while self.at < self.text.len() && parts(self.text[self.at]) {
            self.at += 1;
        }
        let start = self.at;
        let mut number: u64 = 0;
        while self.at < self.text.len() && !parts(self.text[self.at]) {
            let digit = self.text[self.at].wrapping_sub(b'0');
            if digit > 9 {
                return Err(13);
            }
            number = number.checked_mul(10).and_then(|n| n.checked_add(u64::from(digit))).ok_or(13u64)?;
            self.at += 1;
        }
        match self.at - start {
            0 => Err(1),
            length if length > 1 && self.text[start] == b'0' => Err(13),
            _ => Ok(number),
        }
    }

    fn count(&mut self, most: u64) -> Result<u64, u64> {
        let count = self.next()?;
        if count > most {
            Err(2)
        } else {
            Ok(count)
        }
    }

    fn section(&mut self, most: u64) -> Result<Vec<u64>, u64> {
        (0..self.count(most)?).map(|_| self.next()).collect()
    }
}

/// What was counted of a property.
#[derive(Clone, Default)]
struct Tally {
    failed: u64,
    first: u64,
    last: u64,
    longest: u64,
    /// Failed calls in a row, up to the last accepted one.
    stretch: u64,
}

impl Tally {
    fn note(&mut self, call: u64, holds: bool) {
        if holds {
            self.stretch = 0;
            return;
        }
        self.failed += 1;
        if self.first == 0 {
            self.first = call;
        }
        self.last = call;
        self.stretch += 1;
        self.longest = self.longest.max(self.stretch);
    }
}

/// The oracle, the state width that its atoms ask for, and how many properties there are.
fn read_book(words: &mut Words) -> Result<(PmtlOracle, usize, usize), u64> {
    let mut rows = Vec::new();
    for _ in 0..words.count(MOST_ROWS)? {
        rows.push([words.next()?, words.next()?, words.next()?, words.next()?]);
    }
    let operands = words.section(MOST_OPERANDS)?;
    let assumes = words.section(MOST_PROPERTIES)?;
    let guarantees = words.section(MOST_PROPERTIES)?;
    let (needed, width) = judge_rows(&rows)?;
    if needed != operands.len() {
        return Err(5);
    }
    let mut formulae: Vec<Option<Formula>> = Vec::with_capacity(rows.len());
    let mut operands = operands.into_iter();
    let mut refused = None;
    for row in &rows {
        // A row that is used twice is found out here, but an operand out of place comes first.
        let mut take = || match formulae.get_mut(operands.next().unwrap_or(u64::MAX) as usize) {
            None => Err(5),
            Some(place) => Ok(place.take().unwrap_or_else(|| {
                refused = Some(6);
                Pmtl::False
            })),
        };
        let formula = formula(row, &mut take)?;
        formulae.push(Some(formula));
    }
    if assumes.iter().chain(&guarantees).any(|&p| p >= rows.len() as u64) {
        return Err(5);
    }
    let mut take_all =
        |list: Vec<u64>| -> Result<Vec<Formula>, u64> { list.into_iter().map(|p| formulae[p as usize].take().ok_or(6u64)).collect() };
    let (assumes, guarantees) = (take_all(assumes)?, take_all(guarantees)?);
    if refused.is_some() || formulae.iter().any(Option::is_some) {
        return Err(6);
    }
    Ok((PmtlOracle::new(&assumes, &guarantees), width, assumes.len() + guarantees.len()))
}

/// How many operands the rows take, and the state width.
fn judge_rows(rows: &[[u64; 4]]) -> Result<(usize, usize), u64> {
    let (mut needed, mut width, mut temporal) = (0, 0, 0);
    for &[kind, arg, lower, upper] in rows {
        let (least, most) = match kind {
            0 | 1 => (0, 0),
            2 => (0, 255),
            3 | 4 => (0, 128),
            5 | 7 | 8 => (1, 1),
            6 | 9 => (2, 2),
            _ => return Err(3),
        };
        if arg < least || arg > most || (kind < 7 && (lower | upper) != 0) {
            return Err(3);
        }
        if lower > upper || lower > H || (upper > H && upper != u64::MAX) {
            return Err(4);
        }
        if kind >= 7 {
            temporal += 1;
            if temporal > MOST_TEMPORAL {
                return Err(2);
            }
        }
        match kind {
            2 => width = width.max(arg as usize + 1),
            3.. => needed += arg as usize,
            _ => (),
        }
    }
    Ok((needed, width))
}

fn formula(&[kind, arg, lower, upper]: &[u64; 4], take: &mut dyn FnMut() -> Result<Formula, u64>) -> Result<Formula, u64> {
    let range = TimeRange::new(lower, upper);
    Ok(match kind {
        0 => Pmtl::False,
        1 => Pmtl::True,
        2 => Pmtl::Atom(arg as usize),
        3 => Pmtl::And((0..arg).map(|_| take()).collect::<Result<_, _>>()?),
        4 => Pmtl::Or((0..arg).map(|_| take()).collect::<Result<_, _>>()?),
        5 => Pmtl::Not(Box::new(take()?)),
        6 => Pmtl::Implies(Box::new((take()?, take()?))),
        7 => Pmtl::Historically(Box::new(take()?), range),
        8 => Pmtl::Once(Box::new(take()?), range),
        _ => Pmtl::Since(Box::new((take()?, take()?)), range),
    })
}

/// Writes the report into a vector that is emptied first.
pub fn report(text: &[u8], out: &mut Vec<u8>) {
    out.clear();
    if text.len() > LONGEST_INPUT {
        out.extend_from_slice(b"stop 2\n");
        return;
    }
    let mut words = Words { text, at: 0 };
    let (mut oracle, width, properties) = match read_book(&mut words) {
        Ok(book) => book,
        Err(number) => return line(out, b"book ", number),
    };
    line(out, b"book ", 0);
    let mut tallies = vec![Tally::default(); properties];
    match calls(&mut words, &mut oracle, width, &mut tallies, out) {
        Ok(accepted) => {
            tallies.iter().for_each(|tally| push_summary(out, accepted, tally));
            out.extend_from_slice(b"end\n");
        }
        Err(number) => line(out, b"stop ", number),
    }
}

fn line(out: &mut Vec<u8>, word: &[u8], number: u64) {
    out.extend_from_slice(word);
    push_number(out, number);
    out.push(b'\n');
}

fn push_number(out: &mut Vec<u8>, mut number: u64) {
    let mut digits = [0; 20];
    let mut start = digits.len();
    loop {
        start -= 1;
        digits[start] = b'0' + (number % 10) as u8;
        number /= 10;
        if number == 0 {
            break;
        }
    }
    out.extend_from_slice(&digits[start..]);
}

/// How many calls were accepted.
fn calls(words: &mut Words, oracle: &mut PmtlOracle, width: usize, tallies: &mut [Tally], out: &mut Vec<u8>) -> Result<u64, u64> {
    let mut accepted = 0;
    let mut clock = 0;
    let mut state: Vec<bool> = Vec::with_capacity(MOST_WIDTH as usize);
    for number in 1..=words.next()? {
        let refusal = match words.next()? {
            0 => {
                let time = words.next()?;
                let refusal = judge_time(time, clock);
                if refusal == 0 {
                    clock = time;
                    oracle.update_time(time);
                }
                refusal
            }
            1 => {
                let refusal = read_state(words, width, &mut state)?;
                if refusal == 0 {
                    oracle.update_state(&state);
                }
                refusal
            }
            2 => {
                let time = words.next()?;
                let wrong = read_state(words, width, &mut state)?;
                let refusal = if judge_time(time, clock) > 0 { judge_time(time, clock) } else { wrong };
                if refusal == 0 {
                    clock = time;
                    oracle.update_time(time);
                    oracle.update_state(&state);
                }
                refusal
            }
            _ => return Err(13),
        };
        push_number(out, number);
        out.push(b' ');
        push_number(out, refusal);
        if refusal == 0 {
            accepted += 1;
            let assumes = oracle.final_output_assumes().zip(oracle.output_assumes());
            let guarantees = oracle.final_output_guarantees().zip(oracle.output_guarantees());
            for (tally, answer) in tallies.iter_mut().zip(assumes.chain(guarantees)) {
                tally.note(number, answer.0);
                push_answer(out, answer);
            }
            out.extend_from_slice(b" 0");
        }
        out.push(b'\n');
    }
    match words.next() {
        Err(1) => Ok(accepted),
        Err(number) => Err(number),
        Ok(_) => Err(1),
    }
}

/// 0, or what a time is refused with.
fn judge_time(time: u64, clock: u64) -> u64 {
    if time < clock {
        7
    } else if time > H {
        8
    } else {
        0
    }
}

/// Reads a state; 0, or what the state is refused with.
fn read_state(words: &mut Words, width: usize, state: &mut Vec<bool>) -> Result<u64, u64> {
    let count = words.count(MOST_WIDTH)?;
    state.clear();
    let mut bad = false;
    for _ in 0..count {
        let word = words.next()?;
        bad |= word > 1;
        state.push(word == 1);
    }
    Ok(if state.len() < width {
        9
    } else if state.len() > width {
        16
    } else if bad {
        10
    } else {
        0
    })
}

fn push_summary(out: &mut Vec<u8>, accepted: u64, tally: &Tally) {
    for number in [accepted, tally.failed, tally.first, tally.last, tally.longest] {
        push_number(out, number);
        out.push(b' ');
    }
    out.extend_from_slice(b"0\n");
}

fn push_answer(out: &mut Vec<u8>, (value, early): (bool, Option<bool>)) {
    let early = match early {
        Some(early) => b'0' + u8::from(early),
        None => b'2',
    };
    out.extend_from_slice(&[b' ', b'0' + u8::from(value), early, b'2']);
}
