//! Writes the recorded answers: inputs with the reports expected of them, chosen so that every kind, every early rule and
//! every kind of range is decided both ways.
//!
//! record IN OUT DECIDED   all inputs in one file, each after its length and a line feed; all reports in another; what they
//!                         decide in a third
//! record FOLDER           NAME.in and NAME.out for each input

mod examples;
mod required;

use compare::chance::Chance;
use compare::cover::{decided, Sentences};
use compare::inputs::{at_limits, many_runs, shallow};
use judge::report::{report, Nobody};
use judge::summaries::calls_of;
use std::collections::BTreeMap;
use std::path::Path;
use std::process::ExitCode;
use std::{env, fs, io};

/// The seed of all that is drawn here.
const SEED: u64 = 1901;
/// How many inputs are drawn to choose from.
const DRAWN: u64 = 60_000;
/// A chosen input has at most this many bytes.
const LONGEST: usize = 2_500;
/// How many inputs at the limits of a book, and with sets of many runs, are taken besides.
const LARGE: usize = 3;
const LONGEST_LARGE: usize = 4_500;

struct Recorded {
    name: String,
    input: Vec<u8>,
    output: Vec<u8>,
}

fn recorded(name: String, input: Vec<u8>) -> Recorded {
    let output = report(&input, &mut Nobody).expect("original and rules agree");
    Recorded { name, input, output }
}

/// A drawn input by its number, with what it decides as places in the list of all sentences.
struct Candidate {
    index: u64,
    bytes: usize,
    decides: Vec<usize>,
}

fn drawn(index: u64) -> Vec<u8> {
    shallow(&mut Chance::new(SEED, index)).text()
}

/// Drawn inputs that are short enough, and the sentences that their places mean.
fn candidates() -> (Vec<Candidate>, Vec<String>) {
    let mut places: BTreeMap<String, usize> = BTreeMap::new();
    let mut all = Vec::new();
    for index in 0..DRAWN {
        let text = drawn(index);
        if text.len() <= LONGEST {
            let mut place = |sentence| {
                let next = places.len();
                *places.entry(sentence).or_insert(next)
            };
            let decides = decided(&text).into_iter().map(&mut place).collect();
            all.push(Candidate { index, bytes: text.len(), decides });
        }
    }
    let mut sentences = vec![String::new(); places.len()];
    places.into_iter().for_each(|(sentence, place)| sentences[place] = sentence);
    (all, sentences)
}

/// Chooses drawn inputs until nothing new is decided by another: each time the one that decides most anew for its bytes.
fn chosen(already: &Sentences) -> Vec<Recorded> {
    let (candidates, sentences) = candidates();
    let mut open: Vec<bool> = sentences.iter().map(|s| !already.contains(s)).collect();
    let mut chosen = Vec::new();
    loop {
        let anew = |c: &Candidate| c.decides.iter().filter(|&&place| open[place]).count();
        // Ratios of anew to bytes, compared by products.
        let best = candidates.iter().max_by(|a, b| (anew(a) * b.bytes).cmp(&(anew(b) * a.bytes)).then(b.index.cmp(&a.index)));
        let Some(best) = best.filter(|c| anew(c) > 0) else { return chosen };
        best.decides.iter().for_each(|&place| open[place] = false);
        chosen.push(recorded(format!("drawn-{:02}", chosen.len() + 1), drawn(best.index)));
    }
}

/// The first drawn inputs of a sort that are short enough and show what is asked.
fn large(name: &str, draw: impl Fn(&mut Chance) -> Vec<u8>, shows: impl Fn(&Recorded) -> bool) -> Vec<Recorded> {
    let texts = (0..).map(|index| draw(&mut Chance::new(SEED, index))).filter(|text| text.len() <= LONGEST_LARGE);
    let all = texts.map(|text| recorded(String::new(), text)).filter(shows);
    all.take(LARGE).enumerate().map(|(i, r)| Recorded { name: format!("{name}-{}", i + 1), ..r }).collect()
}

fn lines_with(output: &[u8], refusal: &str) -> usize {
    calls_of(&String::from_utf8_lossy(output)).filter(|line| line.split(' ').nth(1) == Some(refusal)).count()
}

/// All inputs, and what they decide.
fn all() -> Result<(Vec<Recorded>, Sentences), String> {
    let mut all: Vec<Recorded> = examples::examples().into_iter().map(|(name, input)| recorded(name, input)).collect();
    all.extend(large("limits", |c| at_limits(c).text(), |r| r.input.starts_with(b"128\n") && lines_with(&r.output, "0") > 8));
    all.extend(large("runs", |c| many_runs(c).text(), |r| (1..9).contains(&lines_with(&r.output, "11"))));
    let sentences = |all: &[Recorded]| all.iter().flat_map(|r| decided(&r.input)).collect::<Sentences>();
    all.extend(chosen(&sentences(&all)));
    let decides = sentences(&all);
    let missing: Vec<String> = required::required().into_iter().filter(|s| !decides.contains(s)).collect();
    if missing.is_empty() {
        Ok((all, decides))
    } else {
        Err(format!("not decided: {}", missing.join("; ")))
    }
}

fn write_folder(folder: &Path, all: &[Recorded]) -> io::Result<()> {
    fs::create_dir_all(folder)?;
    for r in all {
        fs::write(folder.join(format!("{}.in", r.name)), &r.input)?;
        fs::write(folder.join(format!("{}.out", r.name)), &r.output)?;
    }
    Ok(())
}

fn write_decided(path: &str, decides: &Sentences) -> io::Result<()> {
    fs::write(path, decides.iter().map(|s| format!("{s}\n")).collect::<String>())
}

fn write_joined(input: &str, output: &str, all: &[Recorded]) -> io::Result<()> {
    let mut inputs = Vec::new();
    for r in all {
        inputs.extend_from_slice(format!("{}\n", r.input.len()).as_bytes());
        inputs.extend_from_slice(&r.input);
    }
    fs::write(input, inputs)?;
    fs::write(output, all.iter().flat_map(|r| r.output.clone()).collect::<Vec<u8>>())
}

fn run() -> Result<(), String> {
    let words: Vec<String> = env::args().skip(1).collect();
    let words: Vec<&str> = words.iter().map(String::as_str).collect();
    let (all, decides) = all()?;
    match words[..] {
        [input, output, path] => write_joined(input, output, &all).and_then(|()| write_decided(path, &decides)),
        [folder] => write_folder(Path::new(folder), &all),
        _ => return Err("record IN OUT DECIDED, or record FOLDER".to_string()),
    }
    .map_err(|e| e.to_string())?;
    let (inputs, outputs) = all.iter().fold((0, 0), |(i, o), r| (i + r.input.len(), o + r.output.len()));
    println!("{} inputs, {inputs} bytes and {outputs} bytes of reports; {} sentences decided", all.len(), decides.len());
    Ok(())
}

fn main() -> ExitCode {
    match run() {
        Ok(()) => ExitCode::SUCCESS,
        Err(why) => {
            eprintln!("record: {why}");
            ExitCode::FAILURE
        }
    }
}
