//! Draws books, calls and steps at random, has the books tidied by our program, and holds each tidied book to the one it was made of: by the
//! judge, whose values are the original's, both give the same refusals, counts, values and settled answers on the same calls, in the
//! ordinary way and, where it takes them, in the lasting one. Which steps fit is told here by a rule of its own.

use compare::case::{Case, AND, HISTORICALLY, IMPLIES, NOT, OR};
use compare::chance::Chance;
use compare::inputs::{at_limits, shallow};
use judge::report::{lasting, report, Gaps, Nobody};
use judge::summaries::calls_of;
use std::io::Write;
use std::process::{Command, Stdio};

const FORMS: usize = 4;
const MOST_ROWS: usize = 128;
const MOST_STEPS: usize = 6;
/// Calls that the judge of the lasting way puts in at most, over a whole input.
const MOST_PUT_IN: u64 = 20_000;

/// What a step comes to: 0, 2 where the book grows too long, or 21 where the step does not fit.
fn expected(case: &Case, form: usize, row: usize) -> u64 {
    let Some(named) = case.rows.get(row) else { return 21 };
    let (fits, more) = match form {
        0 => (named.kind == NOT && case.rows[named.operands[0]].kind == NOT, 0),
        1 => ((named.kind == AND || named.kind == OR) && named.operands.len() == 1, 0),
        2 => (named.kind == IMPLIES, 1),
        3 => (named.kind == HISTORICALLY, 2),
        _ => (false, 0),
    };
    match fits {
        false => 21,
        true if case.rows.len() + more > MOST_ROWS => 2,
        true => 0,
    }
}

/// The steps that fit a book.
fn fitting(case: &Case) -> Vec<(usize, usize)> {
    let steps = (0..FORMS).flat_map(|form| (0..case.rows.len()).map(move |row| (form, row)));
    steps.filter(|&(form, row)| expected(case, form, row) == 0).collect()
}

/// A book with calls, most often one that some step fits.
fn drawn_case(chance: &mut Chance) -> Case {
    loop {
        let case = if chance.one_in(10) { at_limits(chance) } else { shallow(chance) };
        if chance.one_in(20) || !fitting(&case).is_empty() {
            return case;
        }
    }
}

/// A step, most often one that fits, where there is one.
fn drawn_step(chance: &mut Chance, case: &Case) -> (usize, usize) {
    let steps = fitting(case);
    if steps.is_empty() || chance.one_in(6) {
        return (chance.below(FORMS + 1), chance.below(case.rows.len() + 1));
    }
    steps[chance.below(steps.len())]
}

/// What our program answers to a book and steps.
fn answer(program: &str, case: &Case, steps: &[(usize, usize)]) -> String {
    let book = Case { calls: Vec::new(), ..case.clone() }.text();
    let mut input = String::from_utf8(book).expect("words are of ASCII");
    // the book's text ends with the count of its calls, which is that of the steps here
    input.truncate(input.trim_end().rfind('\n').map_or(0, |at| at + 1));
    input += &format!("{}\n", steps.len());
    for (form, row) in steps {
        input += &format!("{form} {row}\n");
    }
    let mut child = Command::new(program).stdin(Stdio::piped()).stdout(Stdio::piped()).spawn().expect("our program runs");
    child.stdin.take().expect("it has an input").write_all(input.as_bytes()).expect("it takes its input");
    String::from_utf8(child.wait_with_output().expect("it ends").stdout).expect("it answers in ASCII")
}

/// The lines of the report in the ordinary way, and of that in the lasting way unless its gaps are too long to walk, without early answers.
fn lines(case: &Case) -> (Vec<String>, Option<Vec<String>>) {
    let ordinary = report(&case.text(), &mut Nobody).expect("the original keeps to the rules");
    let lasting = lasting(&case.text(), Gaps::Ends, MOST_PUT_IN, &mut Nobody).expect("the original keeps to the rules");
    (without_early(ordinary), lasting.map(without_early))
}

fn without_early(report: Vec<u8>) -> Vec<String> {
    let cut = |word: &str| if word.len() == 3 { format!("{}{}", &word[..1], &word[2..]) } else { word.to_string() };
    let lines = String::from_utf8(report).expect("a report is of ASCII");
    let up_to_calls = 1 + calls_of(&lines).count();
    let answers = lines.lines().take(up_to_calls).map(|line| line.split(' ').map(cut).collect::<Vec<_>>().join(" "));
    answers.chain(lines.lines().skip(up_to_calls).map(str::to_string)).collect()
}

fn main() {
    let words: Vec<String> = std::env::args().skip(1).collect();
    let [program, seed, books] = words.as_slice() else { panic!("tidy PROGRAM SEED BOOKS") };
    let (seed, books): (u64, u64) = (seed.parse().expect("a seed"), books.parse().expect("how many books"));
    let (mut made, mut refused, mut calls, mut flat) = (0, 0, 0, 0);
    for index in 0..books {
        let mut chance = Chance::new(seed, index);
        let case = drawn_case(&mut chance);
        let mut tidy = case.clone();
        let mut steps = Vec::new();
        for _ in 0..1 + chance.below(MOST_STEPS) {
            let step = drawn_step(&mut chance, &tidy);
            let said = answer(program, &tidy, &[step]);
            let number = expected(&tidy, step.0, step.1);
            if number != 0 {
                assert_eq!(said, format!("tidy {number} 1\n"), "seed {seed}, book {index}: {step:?} on {tidy:?}");
                refused += 1;
                continue;
            }
            let book = said.strip_prefix("tidy 0\n").unwrap_or_else(|| panic!("seed {seed}, book {index}: {said} to {step:?} on {tidy:?}"));
            let after = Case::of_text(format!("{book}0\n").as_bytes()).expect("a tidied book is accepted");
            tidy = Case { calls: case.calls.clone(), ..after };
            steps.push(step);
            made += 1;
        }
        if !steps.is_empty() {
            let all = answer(program, &case, &steps);
            assert_eq!(all.as_bytes(), ["tidy 0\n".as_bytes(), &book_text(&tidy)].concat(), "seed {seed}, book {index}: all steps at once");
        }
        let before = lines(&case);
        assert_eq!(lines(&tidy), before, "seed {seed}, book {index}: {steps:?} on {case:?}");
        calls += case.calls.len();
        flat += u64::from(before.1.is_some_and(|lines| lines[0] == "book 0"));
    }
    println!("{books} books, {made} steps made and {refused} refused, {calls} calls: the same refusals, counts, values and settled answers");
    println!("{flat} of the books in the lasting way, too");
}

/// A book's text, without the count of its calls.
fn book_text(case: &Case) -> Vec<u8> {
    let text = Case { calls: Vec::new(), ..case.clone() }.text();
    let end = text[..text.len() - 1].iter().rposition(|&byte| byte == b'\n').map_or(0, |at| at + 1);
    text[..end].to_vec()
}
