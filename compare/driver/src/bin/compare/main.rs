//! Holds our monitor's reports against the expected ones, byte for byte, on inputs drawn at random.
//!
//! compare [--seed N] [--accepted N] [--from N] [--program PATH] [--input FILE]

mod ours;

use compare::again::Again;
use compare::inputs::{flat_input, input};
use compare::shrink::shrink;
use judge::monitor::{Monitor, ACCEPTED};
use judge::report::{lasting, report, strictly, Call, Gaps, Watch};
use ours::{Ours, Way};
use std::collections::BTreeMap;
use std::path::PathBuf;
use std::process::ExitCode;
use std::{env, fs, panic};

/// Accepted calls after which the default run ends.
const ACCEPTED_CALLS: u64 = 4_000_000;

/// Calls that the judge of the lasting way puts in at most, over a whole input.
const MOST_PUT_IN: u64 = 20_000;

/// Bytes of an input that are printed at most; its seed and number give it whole.
const MOST_SHOWN: usize = 4_000;

struct Wishes {
    seed: u64,
    accepted: u64,
    /// The first input's number.
    from: u64,
    program: Option<PathBuf>,
    /// Only this input.
    input: Option<PathBuf>,
}

fn wishes() -> Result<Wishes, String> {
    let mut wishes = Wishes { seed: 1, accepted: ACCEPTED_CALLS, from: 0, program: None, input: None };
    let mut words = env::args().skip(1);
    while let Some(word) = words.next() {
        let value = words.next().ok_or(format!("{word} asks for a value"))?;
        let number = || value.parse::<u64>().map_err(|_| format!("{word}: {value} is no number"));
        match word.as_str() {
            "--seed" => wishes.seed = number()?,
            "--accepted" => wishes.accepted = number()?,
            "--from" => wishes.from = number()?,
            "--program" => wishes.program = Some(value.into()),
            "--input" => wishes.input = Some(value.into()),
            _ => return Err(format!("{word} is not known")),
        }
    }
    Ok(wishes)
}

fn ours(program: Option<PathBuf>) -> Result<Ours, String> {
    match program {
        Some(path) => Ok(Ours::Program(path)),
        #[cfg(archive)]
        None => Ok(Ours::Archive),
        #[cfg(not(archive))]
        None => Err("built without an archive: give --program PATH".to_string()),
    }
}

/// What was tried.
#[derive(Default)]
struct Tally {
    inputs: u64,
    books: BTreeMap<u64, u64>,
    calls: BTreeMap<u64, u64>,
    /// Those of the calls that were stamped.
    stamped: BTreeMap<u64, u64>,
    /// Those that were made again at once.
    again: Again,
    stops: BTreeMap<u64, u64>,
    /// Books that are refused in strict loading alone.
    over: u64,
    /// In the lasting way: the inputs whose gaps were walked whole.
    walked: Lasting,
    /// Those whose gaps were too long for that, and were walked at their ends.
    ends: Lasting,
    /// Those that were left out, since even that is too far.
    left_out: u64,
}

/// What was tried in the lasting way.
#[derive(Default)]
struct Lasting {
    inputs: u64,
    books: BTreeMap<u64, u64>,
    calls: BTreeMap<u64, u64>,
    again: Again,
}

impl Watch for Lasting {
    fn book(&mut self, number: u64) {
        *self.books.entry(number).or_default() += 1;
        self.again.book();
    }

    fn call(&mut self, call: &Call, number: u64, _: &Monitor) {
        *self.calls.entry(number).or_default() += 1;
        self.again.call(call, number);
    }
}

impl Lasting {
    fn add(&mut self, other: Lasting) {
        self.inputs += 1;
        let kinds = [(&mut self.books, other.books), (&mut self.calls, other.calls), (&mut self.again.counts, other.again.counts)];
        for (sum, counts) in kinds {
            counts.into_iter().for_each(|(number, count)| *sum.entry(number).or_default() += count);
        }
    }

    fn print(&self, what: &str) {
        let accepted = |counts: &BTreeMap<u64, u64>| counts.get(&ACCEPTED).copied().unwrap_or(0);
        let (books, calls) = (accepted(&self.books), accepted(&self.calls));
        println!("in the lasting way, {what}: {} inputs ({books} books and {calls} calls accepted)", self.inputs);
        let kinds = [("books", &self.books), ("calls", &self.calls), ("calls made again at once", &self.again.counts)];
        for (what, counts) in kinds {
            println!("  {what} by number: {}", by_number(counts));
        }
    }
}

fn by_number(counts: &BTreeMap<u64, u64>) -> String {
    counts.iter().map(|(number, count)| format!("{number}: {count}")).collect::<Vec<_>>().join(", ")
}

impl Watch for Tally {
    fn book(&mut self, number: u64) {
        *self.books.entry(number).or_default() += 1;
        self.again.book();
    }

    fn call(&mut self, call: &Call, number: u64, _: &Monitor) {
        *self.calls.entry(number).or_default() += 1;
        if matches!(call, Call::Stamped(..)) {
            *self.stamped.entry(number).or_default() += 1;
        }
        self.again.call(call, number);
    }

    fn stop(&mut self, number: u64) {
        *self.stops.entry(number).or_default() += 1;
    }
}

impl Tally {
    fn accepted(&self) -> u64 {
        self.calls.get(&ACCEPTED).copied().unwrap_or(0)
    }

    fn print(&self) {
        let all = |counts: &BTreeMap<u64, u64>| counts.values().sum::<u64>();
        let books = self.books.get(&ACCEPTED).copied().unwrap_or(0);
        println!(
            "{} inputs, {} books ({books} accepted), {} calls ({} accepted)",
            self.inputs,
            all(&self.books),
            all(&self.calls),
            self.accepted()
        );
        let kinds = [
            ("books", &self.books),
            ("calls", &self.calls),
            ("stamped calls", &self.stamped),
            ("calls made again at once", &self.again.counts),
            ("stops", &self.stops),
        ];
        for (what, counts) in kinds {
            println!("{what} by number: {}", by_number(counts));
        }
        println!("books that strict loading refuses with 15: {}", self.over);
        self.walked.print("every instant walked");
        self.ends.print("too far for that, the ends of gaps walked");
        println!("in the lasting way, left out: {} inputs", self.left_out);
    }
}

/// What differs on this input, in words.
fn difference(ours: &Ours, input: &[u8], tally: &mut Tally) -> Option<String> {
    tally.inputs += 1;
    let held = panic::catch_unwind(panic::AssertUnwindSafe(|| held(ours, input, tally).and_then(|()| held_lasting(ours, input, tally))));
    held.unwrap_or(Err("the original panics, or the judge".to_string())).err()
}

/// Our reports in the ordinary way are the expected ones.
fn held(ours: &Ours, input: &[u8], tally: &mut Tally) -> Result<(), String> {
    let expected = report(input, tally)?;
    let strict = strictly(input, &expected);
    tally.over += u64::from(strict != expected);
    ours.held_to(Way::Ordinary, &expected, input)?;
    ours.held_to(Way::Strict, &strict, input)
}

/// So are those in the lasting way, where the judge can put the calls in.
fn held_lasting(ours: &Ours, input: &[u8], tally: &mut Tally) -> Result<(), String> {
    if !ours.has_every_way() {
        return Ok(());
    }
    for gaps in [Gaps::Whole, Gaps::Ends] {
        let mut seen = Lasting::default();
        if let Some(expected) = lasting(input, gaps, MOST_PUT_IN, &mut seen)? {
            ours.held_to(Way::Lasting, &expected, input)?;
            ours.held_to(Way::LastingStrict, &strictly(input, &expected), input)?;
            let tried = if gaps == Gaps::Whole { &mut tally.walked } else { &mut tally.ends };
            tried.add(seen);
            return Ok(());
        }
    }
    tally.left_out += 1;
    Ok(())
}

/// Prints the difference and the smallest input found that still differs.
fn tell(ours: &Ours, found: &[u8], what: &str) {
    println!("difference: {what}");
    let small = shrink(found, &mut |text| difference(ours, text, &mut Tally::default()).is_some());
    let what = difference(ours, &small, &mut Tally::default()).unwrap_or_default();
    println!("cut down to {} bytes: {what}", small.len());
    println!("{}", small[..small.len().min(MOST_SHOWN)].escape_ascii().to_string().replace("\\n", "\n"));
}

fn run() -> Result<bool, String> {
    let wishes = wishes()?;
    let ours = ours(wishes.program)?;
    let mut tally = Tally::default();
    if let Some(path) = wishes.input {
        let text = fs::read(&path).map_err(|e| format!("{}: {e}", path.display()))?;
        let what = difference(&ours, &text, &mut tally);
        what.iter().for_each(|what| tell(&ours, &text, what));
        tally.print();
        return Ok(what.is_none());
    }
    let mut index = wishes.from;
    while tally.accepted() < wishes.accepted {
        for (kind, draw) in [("input", input as fn(u64, u64) -> Vec<u8>), ("flat input", flat_input)] {
            let text = draw(wishes.seed, index);
            if let Some(what) = difference(&ours, &text, &mut tally) {
                println!("seed {}, {kind} {index}", wishes.seed);
                tell(&ours, &text, &what);
                tally.print();
                return Ok(false);
            }
        }
        index += 1;
    }
    println!("seed {}: every byte is the same", wishes.seed);
    tally.print();
    Ok(true)
}

fn main() -> ExitCode {
    match run() {
        Ok(true) => ExitCode::SUCCESS,
        Ok(false) => ExitCode::FAILURE,
        Err(why) => {
            eprintln!("compare: {why}");
            ExitCode::from(2)
        }
    }
}
