//! Ours beside a straightforward Rust program over the original, on the same inputs, in one run.
//!
//! bench                         times and instruction counts, as ratios
//! bench jumps                   those of calls in the lasting way alone
//! bench count PLACE PART SIDE   one measured run, for callgrind

use bench::workloads::{growing, jumps, with_calls_refused, workloads, Workload, MANY_RUNS, ONE_RUN};
use bench::{as_the_rust_knows, plain};
use judge::report::{self, Gaps, Nobody, LONGEST_INPUT};
use judge::summaries::calls_of;
use std::hint::black_box;
use std::process::Command;
use std::time::{Duration, Instant};
use std::{env, fs, process};

extern "C" {
    fn binefdar_report(input: *const u8, input_len: u64, report: *mut u8, report_len: u64) -> u64;
    fn binefdar_report_lasting(input: *const u8, input_len: u64, report: *mut u8, report_len: u64) -> u64;
}

/// Room for the longest report of a workload.
const ROOM: usize = 4 << 20;
/// Rounds of measuring; the best of each side counts.
const ROUNDS: usize = 15;
/// How long a side runs in a round, at least.
const ROUND: Duration = Duration::from_millis(20);

#[derive(Clone, Copy)]
enum Side {
    Ours,
    Plain,
    /// Ours in the lasting way, which the Rust has not.
    Lasting,
}

/// The two that are measured beside each other.
const SIDES: [Side; 2] = [Side::Ours, Side::Plain];

impl Side {
    const ALL: [Side; 3] = [Side::Ours, Side::Plain, Side::Lasting];

    /// The function that callgrind counts.
    fn measured(self) -> &'static str {
        match self {
            Side::Ours => "measured_ours",
            Side::Plain => "measured_plain",
            Side::Lasting => "measured_lasting",
        }
    }
}

#[no_mangle]
#[inline(never)]
extern "C" fn measured_ours(input: &&[u8], out: &mut Buffers) {
    // SAFETY: the pointers and lengths are those of a slice and of a vector.
    let length = unsafe { binefdar_report(input.as_ptr(), input.len() as u64, out.ours.as_mut_ptr(), out.ours.len() as u64) };
    assert!(length != u64::MAX, "the report has room");
    black_box(length);
}

#[no_mangle]
#[inline(never)]
extern "C" fn measured_lasting(input: &&[u8], out: &mut Buffers) {
    // SAFETY: as above.
    let length = unsafe { binefdar_report_lasting(input.as_ptr(), input.len() as u64, out.ours.as_mut_ptr(), out.ours.len() as u64) };
    assert!(length != u64::MAX, "the report has room");
    black_box(length);
}

#[no_mangle]
#[inline(never)]
extern "C" fn measured_plain(input: &&[u8], out: &mut Buffers) {
    plain::report(input, &mut out.plain);
    black_box(out.plain.len());
}

/// Room for reports, there before anything is measured: lent to ours as it is, as the capacity of the Rust program's vector.
struct Buffers {
    ours: Vec<u8>,
    plain: Vec<u8>,
}

impl Buffers {
    fn new() -> Self {
        Self { ours: vec![0; ROOM], plain: Vec::with_capacity(ROOM) }
    }
}

fn run_once(side: Side, input: &[u8], out: &mut Buffers) {
    match side {
        Side::Ours => measured_ours(&black_box(input), out),
        Side::Plain => measured_plain(&black_box(input), out),
        Side::Lasting => measured_lasting(&black_box(input), out),
    }
}

/// The two texts of a workload: its calls accepted, and its calls refused once they are read.
fn texts(workload: &Workload) -> [Vec<u8>; 2] {
    let texts = [workload.case.text(), with_calls_refused(&workload.case).text()];
    assert!(texts.iter().all(|t| t.len() <= LONGEST_INPUT), "{}: too long", workload.name);
    texts
}

/// Both sides must give the expected report, the Rust apart from settled and the count, and every call must be accepted, or refused.
fn check(name: &str, texts: &[Vec<u8>; 2]) {
    for (part, text) in texts.iter().enumerate() {
        let expected = report::report(text, &mut Nobody).expect("original and rules agree");
        let mut out = vec![0; ROOM];
        // SAFETY: as above.
        let length = unsafe { binefdar_report(text.as_ptr(), text.len() as u64, out.as_mut_ptr(), ROOM as u64) };
        assert!(length as usize == expected.len() && out[..length as usize] == expected, "{name}: ours is not the expected report");
        plain::report(text, &mut out);
        assert!(as_the_rust_knows(&out) == as_the_rust_knows(&expected), "{name}: the Rust program's is not the expected report");
        check_accepted(name, part, expected);
    }
}

/// Every call is accepted, or, in the second part, refused.
fn check_accepted(name: &str, part: usize, expected: Vec<u8>) {
    let lines = String::from_utf8(expected).expect("a report is ASCII");
    let accepted = calls_of(&lines).filter(|l| l.split(' ').nth(1) == Some("0")).count();
    // With the calls refused the one is the first call.
    assert_eq!(accepted, if part == 0 { calls_of(&lines).count() } else { 1 }, "{name}: accepted lines");
}

/// Calls that the judge of the lasting way may put in: at the ends of gaps alone, since these are far too long to walk.
const MOST_PUT_IN: u64 = 1_000_000;

/// In the lasting way ours must give the expected report.
fn check_lasting(name: &str, texts: &[Vec<u8>; 2]) {
    for (part, text) in texts.iter().enumerate() {
        let expected = report::lasting(text, Gaps::Ends, MOST_PUT_IN, &mut Nobody).expect("original and rules agree");
        let expected = expected.expect("not too many calls are put in");
        let mut out = Buffers::new();
        run_once(Side::Lasting, text, &mut out);
        assert!(out.ours.starts_with(&expected), "{name}: ours is not the expected report");
        check_accepted(name, part, expected);
    }
}

/// Nanoseconds for one run of each side on each text, the best of all rounds.
fn times(texts: &[Vec<u8>; 2]) -> [[f64; 2]; 2] {
    let mut best = [[f64::INFINITY; 2]; 2];
    let mut out = Buffers::new();
    for _ in 0..ROUNDS {
        for (part, text) in texts.iter().enumerate() {
            for (place, side) in SIDES.into_iter().enumerate() {
                best[part][place] = best[part][place].min(time(side, text, &mut out));
            }
        }
    }
    best
}

/// Nanoseconds for one run, over one round.
fn time(side: Side, text: &[u8], out: &mut Buffers) -> f64 {
    run_once(side, text, out);
    let start = Instant::now();
    let mut runs = 0;
    while start.elapsed() < ROUND {
        run_once(side, text, out);
        runs += 1;
    }
    start.elapsed().as_nanos() as f64 / f64::from(runs)
}

/// Instructions of one run of each side on each text; nothing if valgrind is not there.
fn counts(place: usize) -> Option<[[f64; 2]; 2]> {
    let mut counts = [[0.0; 2]; 2];
    for (part, sides) in counts.iter_mut().enumerate() {
        for (side, count) in SIDES.into_iter().zip(sides.iter_mut()) {
            *count = counted(place, part, side)?;
        }
    }
    Some(counts)
}

fn counted(place: usize, part: usize, side: Side) -> Option<f64> {
    let file = env::temp_dir().join(format!("bench-callgrind-{}", process::id()));
    let output = Command::new("valgrind")
        .args(["--tool=callgrind", &format!("--toggle-collect={}", side.measured())])
        .arg(format!("--callgrind-out-file={}", file.display()))
        .arg(env::current_exe().ok()?)
        .args(["count".to_string(), place.to_string(), part.to_string(), (side as usize).to_string()])
        .output()
        .ok()?;
    let text = fs::read_to_string(&file).ok()?;
    fs::remove_file(&file).ok()?;
    let total = text.lines().find_map(|line| line.strip_prefix("totals: ").or(line.strip_prefix("summary: ")))?;
    assert!(output.status.success(), "a run under callgrind failed");
    total.trim().parse().ok()
}

/// Of two measures, ours and the Rust program's: the whole job, the same with its calls refused, and the calls alone for each call.
struct Measures {
    whole: [f64; 2],
    refused: [f64; 2],
    call: [f64; 2],
}

fn measures(of: [[f64; 2]; 2], calls: usize) -> Measures {
    Measures { whole: of[0], refused: of[1], call: [0, 1].map(|side| (of[0][side] - of[1][side]) / calls as f64) }
}

fn row(name: &str, head: &str, times: [f64; 2], counts: Option<[f64; 2]>) {
    let [ours, plain] = times;
    print!("| {name} | {head} | {ours:.1} | {plain:.1} | {:.2} |", ours / plain);
    match counts {
        Some([ours, plain]) => println!(" {ours:.0} | {plain:.0} | {:.2} |", ours / plain),
        None => println!(" - | - | - |"),
    }
}

fn heading(title: &str, head: &str, unit: &str) {
    println!("\n{title}\n");
    println!("| workload | {head} | ours {unit} | Rust {unit} | ratio | ours instructions | Rust instructions | ratio |");
    println!("|---|---|---|---|---|---|---|---|");
}

fn measure_all() {
    let all = workloads();
    let measured: Vec<(Measures, Option<Measures>)> = all
        .iter()
        .enumerate()
        .map(|(place, workload)| {
            let texts = texts(workload);
            check(workload.name, &texts);
            let calls = workload.case.calls.len();
            (measures(times(&texts), calls), counts(place).map(|of| measures(of, calls)))
        })
        .collect();
    if measured.iter().any(|(_, counts)| counts.is_none()) {
        println!("valgrind is missing: no instruction counts");
    }
    heading("The whole job, text in and report out, for one run:", "calls", "us");
    for (workload, (times, counts)) in all.iter().zip(&measured) {
        let calls = workload.case.calls.len().to_string();
        row(workload.name, &calls, times.whole.map(|ns| ns / 1000.0), counts.as_ref().map(|c| c.whole));
    }
    heading("The calls alone, for one call: the whole job less the same text with its calls refused once they are read:", "rows", "ns");
    for (workload, (times, counts)) in all.iter().zip(&measured) {
        let rows = workload.case.rows.len().to_string();
        row(workload.name, &rows, times.call, counts.as_ref().map(|c| c.call));
    }
    print_bytes(&all, &measured);
    print_growth(&all, &measured);
    print_rows();
    print_jumps();
}

/// What a byte costs that is read or written, and the same with the calls refused: then little but reading and writing is left.
fn print_bytes(all: &[Workload], measured: &[(Measures, Option<Measures>)]) {
    println!("\nInstructions for each byte that is read or written, and with the calls refused once they are read:\n");
    println!("| workload | bytes in | bytes out | ours | Rust | ours, refused | Rust, refused |\n|---|---|---|---|---|---|---|");
    for (workload, (_, counts)) in all.iter().zip(measured) {
        let Some(counts) = counts else { continue };
        let [made, refused] = texts(workload).map(|text| (text.len(), report::report(&text, &mut Nobody).expect("agreed before").len()));
        let each = |(bytes_in, bytes_out): (usize, usize), [ours, plain]: [f64; 2]| {
            let bytes = (bytes_in + bytes_out) as f64;
            format!("{:.1} | {:.1}", ours / bytes, plain / bytes)
        };
        println!("| {} | {} | {} | {} | {} |", workload.name, made.0, made.1, each(made, counts.whole), each(refused, counts.refused));
    }
}

/// What a call costs, by how many rows the book has.
fn print_rows() {
    println!("\nInstructions for one call, the calls alone, by how many rows the book has, and the ratio of the whole job:\n");
    println!("| book | rows | ours | Rust | ratio | whole job |\n|---|---|---|---|---|---|");
    let before = workloads().len();
    for (place, workload) in growing().iter().enumerate() {
        check(workload.name, &texts(workload));
        let Some(counts) = counts(before + place) else { continue };
        let measured = measures(counts, workload.case.calls.len());
        let ([ours, plain], [ours_whole, plain_whole]) = (measured.call, measured.whole);
        let (rows, ratio, whole) = (workload.case.rows.len(), ours / plain, ours_whole / plain_whole);
        println!("| {} | {rows} | {ours:.0} | {plain:.0} | {ratio:.2} | {whole:.2} |", workload.name);
    }
}

/// What a call costs in the lasting way, by how far the clock goes in it.
fn print_jumps() {
    println!("\nA call in the lasting way, by how many instants the clock goes in it, against one in which it goes one:\n");
    println!("| instants | calls | ours ns | against 1 | ours instructions | against 1 |\n|---|---|---|---|---|---|");
    let mut first: Option<(f64, Option<f64>)> = None;
    for (place, (jump, workload)) in jumps().iter().enumerate() {
        let texts = texts(workload);
        check_lasting(workload.name, &texts);
        let calls = workload.case.calls.len();
        let each = |[all, refused]: [f64; 2]| (all - refused) / calls as f64;
        let mut out = Buffers::new();
        let mut best = [f64::INFINITY; 2];
        for _ in 0..ROUNDS {
            for (best, text) in best.iter_mut().zip(&texts) {
                *best = best.min(time(Side::Lasting, text, &mut out));
            }
        }
        let (ns, count) = (each(best), counted(place, 0, Side::Lasting).zip(counted(place, 1, Side::Lasting)).map(|(a, r)| each([a, r])));
        let (first_ns, first_count) = *first.get_or_insert((ns, count));
        print!("| {jump} | {calls} | {ns:.1} | {:.2} |", ns / first_ns);
        match count.zip(first_count) {
            Some((count, first)) => println!(" {count:.0} | {:.2} |", count / first),
            None => println!(" - | - |"),
        }
    }
}

/// What a call costs where 64 runs were made in each set against one where 1 was, for each side.
fn print_growth(all: &[Workload], measured: &[(Measures, Option<Measures>)]) {
    let at = |name: &str| &measured[all.iter().position(|w| w.name == name).expect("a workload of this name")];
    let ((one, one_counts), (many, many_counts)) = (at(ONE_RUN), at(MANY_RUNS));
    println!("\nA call after 64 runs were made in each set against one after 1 run was:\n");
    println!("| side | times | instructions |\n|---|---|---|");
    for (side, name) in ["ours", "Rust"].into_iter().enumerate() {
        let counts = one_counts.as_ref().zip(many_counts.as_ref());
        let counts = counts.map_or("-".to_string(), |(one, many)| format!("{:.2}", many.call[side] / one.call[side]));
        println!("| {name} | {:.2} | {counts} |", many.call[side] / one.call[side]);
    }
}

/// Runs one side once on one text.
fn count_once(words: &[usize]) {
    let side = Side::ALL[words[2]];
    let all: Vec<Workload> = match side {
        Side::Lasting => jumps().into_iter().map(|(_, workload)| workload).collect(),
        Side::Ours | Side::Plain => workloads().into_iter().chain(growing()).collect(),
    };
    run_once(side, &texts(&all[words[0]])[words[1]], &mut Buffers::new());
    // At once: on some machines callgrind does not see that the measured function is left, and would count what is dropped here.
    process::exit(0);
}

fn main() {
    let words: Vec<String> = env::args().skip(1).collect();
    match words.split_first() {
        None => measure_all(),
        Some((word, [])) if word == "jumps" => print_jumps(),
        Some((word, rest)) if word == "count" && rest.len() == 3 => {
            let numbers: Vec<usize> = rest.iter().map(|w| w.parse().expect("a number")).collect();
            count_once(&numbers);
        }
        _ => {
            eprintln!("bench, bench jumps, or bench count PLACE PART SIDE");
            process::exit(2);
        }
    }
}
