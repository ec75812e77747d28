//! One input for each seed and index.

use crate::books::{self, book};
use crate::calls::{self, add_calls, double_calls};
use crate::case::{text, Case, Layout};
use crate::chance::Chance;
use crate::damage;
use judge::book::MOST_ROWS;
use judge::report::LONGEST_INPUT;

/// An input has thousands of calls once in so many.
const LONG_IN: usize = 400;

/// The input with this number among a seed's inputs.
pub fn input(seed: u64, index: u64) -> Vec<u8> {
    let chance = &mut Chance::new(seed, index);
    if chance.one_in(LONG_IN) {
        return laid_out(chance, &long);
    }
    match chance.weighed(&[42, 16, 8, 8, 6, 6, 2, 3, 1]) {
        0 => laid_out(chance, &small),
        1 => laid_out(chance, &medium),
        2 => laid_out(chance, &at_limits),
        3 => laid_out(chance, &many_runs),
        4 => {
            let case = small(chance);
            damage::spoil_book(chance, &case)
        }
        5 => {
            let text = laid_out(chance, &small);
            damage::spoil_text(chance, text)
        }
        6 => {
            let case = small(chance);
            damage::odd_call(chance, &case)
        }
        7 => {
            let style = books::Style::over_the_limit(chance);
            let mut case = book(chance, &style);
            add_drawn_calls(chance, &mut case, 5);
            case.text()
        }
        _ => around_longest(chance),
    }
}

/// The input with this number among a seed's inputs that a monitor in the lasting way takes, with calls that its judge can walk between.
pub fn flat_input(seed: u64, index: u64) -> Vec<u8> {
    let chance = &mut Chance::new(seed ^ FLAT, index);
    match chance.weighed(&[12, 3, 3, 1, 1]) {
        0 => laid_out(chance, &flat),
        1 => laid_out(chance, &flat_with_many_runs),
        2 => laid_out(chance, &flat_and_far),
        3 => {
            let text = laid_out(chance, &flat);
            damage::spoil_text(chance, text)
        }
        _ => laid_out(chance, &flat_at_limits),
    }
}

/// Makes the draws of a seed's flat inputs others than those of its inputs.
const FLAT: u64 = 0x666c_6174;

/// A flat case with few rows and calls.
fn flat(chance: &mut Chance) -> Case {
    let style = books::Style::flat(chance, 14);
    let mut case = book(chance, &style);
    let style = calls::Style::near(chance, 80);
    add_calls(chance, &mut case, &style);
    case
}

/// A flat case whose sets come to have many runs.
fn flat_with_many_runs(chance: &mut Chance) -> Case {
    let style = books::Style::flat_with_many_runs(chance);
    let mut case = book(chance, &style);
    let style = calls::Style::near_with_many_runs(chance);
    add_calls(chance, &mut case, &style);
    case
}

/// A flat case whose clock may go far.
fn flat_and_far(chance: &mut Chance) -> Case {
    let style = books::Style::flat(chance, 14);
    let mut case = book(chance, &style);
    add_drawn_calls(chance, &mut case, 50);
    case
}

/// A flat case with as many rows as there may be.
fn flat_at_limits(chance: &mut Chance) -> Case {
    let style = books::Style::flat(chance, MOST_ROWS as usize);
    let mut case = book(chance, &style);
    let style = calls::Style::near(chance, 30);
    add_calls(chance, &mut case, &style);
    case
}

/// A case with few rows and calls, most rows near a property.
pub fn shallow(chance: &mut Chance) -> Case {
    let style = books::Style::shallow(chance);
    let mut case = book(chance, &style);
    add_drawn_calls(chance, &mut case, 30);
    case
}

/// A case with few rows and calls.
fn small(chance: &mut Chance) -> Case {
    let style = if chance.one_in(8) { books::Style::turned(chance) } else { books::Style::drawn(chance, 12) };
    let mut case = book(chance, &style);
    add_drawn_calls(chance, &mut case, 50);
    case
}

fn medium(chance: &mut Chance) -> Case {
    let style = books::Style::drawn(chance, 60);
    let mut case = book(chance, &style);
    add_drawn_calls(chance, &mut case, 200);
    case
}

/// A case with few rows and as many calls as there is room for in a text.
fn long(chance: &mut Chance) -> Case {
    let style = books::Style::drawn(chance, 8);
    let mut case = book(chance, &style);
    add_drawn_calls(chance, &mut case, 10_000);
    case
}

/// A case at or near the limits of a book.
pub fn at_limits(chance: &mut Chance) -> Case {
    let style = books::Style::at_limits(chance);
    let mut case = book(chance, &style);
    add_drawn_calls(chance, &mut case, 120);
    case
}

/// A case whose sets come to have many runs.
pub fn many_runs(chance: &mut Chance) -> Case {
    let style = books::Style::with_many_runs(chance);
    let mut case = book(chance, &style);
    let style = calls::Style::with_many_runs(chance);
    add_calls(chance, &mut case, &style);
    case
}

fn add_drawn_calls(chance: &mut Chance, case: &mut Case, count: usize) {
    let style = calls::Style::drawn(chance, count);
    add_calls(chance, case, &style);
}

fn laid_out(chance: &mut Chance, draw: &dyn Fn(&mut Chance) -> Case) -> Vec<u8> {
    let mut case = draw(chance);
    double_calls(chance, &mut case);
    let layout = chance.among(&[Layout::Lines, Layout::Lines, Layout::OneLine, Layout::Ragged]);
    text(&case.sections(), &case.calls, layout, chance)
}

/// An input just as long as an input may be, or a byte longer or shorter.
fn around_longest(chance: &mut Chance) -> Vec<u8> {
    let mut text = small(chance).text();
    let length = chance.among(&[LONGEST_INPUT - 1, LONGEST_INPUT, LONGEST_INPUT, LONGEST_INPUT + 1, LONGEST_INPUT + 1000]);
    let byte = chance.among(b"  \n\n0");
    text.resize(length, byte);
    text
}

#[cfg(test)]
mod tests {
    use super::*;
    use crate::again::Again;
    use judge::monitor::{Monitor, ACCEPTED, NO_ROOM};
    use judge::report::{lasting, report, Call, Gaps, Nobody, Watch};

    #[derive(Default)]
    struct Counts {
        accepted: u64,
        full: u64,
    }

    impl Watch for Counts {
        fn call(&mut self, _: &Call, number: u64, _: &Monitor) {
            self.accepted += u64::from(number == ACCEPTED);
            self.full += u64::from(number == NO_ROOM);
        }
    }

    /// Most flat inputs can be walked whole; then the judge gives the same where it puts calls in at the ends of gaps alone. In many the
    /// lasting way says something else than the ordinary one, and 11 comes up.
    #[test]
    fn flat_inputs_are_walked() {
        let (mut counts, mut walked, mut others) = (Counts::default(), 0, 0);
        for index in 0..400 {
            let text = flat_input(5, index);
            let judged = |gaps: Gaps, watch: &mut Counts| lasting(&text, gaps, 20_000, watch).expect("original and rules agree");
            let Some(whole) = judged(Gaps::Whole, &mut counts) else { continue };
            walked += 1;
            assert_eq!(judged(Gaps::Ends, &mut Counts::default()), Some(whole.clone()));
            others += usize::from(report(&text, &mut Nobody).expect("original and rules agree") != whole);
        }
        let Counts { accepted, full } = counts;
        assert!(walked > 320 && accepted > 10_000 && others > 150 && full > 0, "{walked} {accepted} {others} {full}");
    }

    /// Where the calls stand that are made again at once, counted from 1.
    #[derive(Default)]
    struct Places {
        calls: usize,
        again: Again,
        places: Vec<usize>,
    }

    impl Watch for Places {
        fn call(&mut self, call: &Call, number: u64, _: &Monitor) {
            self.calls += 1;
            if self.again.call(call, number) {
                self.places.push(self.calls);
            }
        }
    }

    /// How many such calls a report has, each of which has the line of the call before but for its number.
    fn same_lines(report: &[u8], seen: &Places) -> usize {
        let text = String::from_utf8_lossy(report);
        let lines: Vec<&str> = text.lines().collect();
        let said = |call: usize| lines[call].split_once(' ').expect("a call's line has words").1;
        seen.places.iter().for_each(|&call| assert_eq!(said(call), said(call - 1), "{text}"));
        seen.places.len()
    }

    /// Calls made again at once are drawn for both ways, and the judge finds that they change nothing.
    #[test]
    fn doubled_calls_change_nothing() {
        let (mut ordinary, mut lasts) = (0, 0);
        for index in 0..300 {
            let mut seen = Places::default();
            let judged = report(&input(6, index), &mut seen).expect("original and rules agree");
            ordinary += same_lines(&judged, &seen);
            let mut seen = Places::default();
            if let Some(judged) = lasting(&flat_input(6, index), Gaps::Whole, 20_000, &mut seen).expect("original and rules agree") {
                lasts += same_lines(&judged, &seen);
            }
        }
        assert!(ordinary > 1_000 && lasts > 1_000, "{ordinary} {lasts}");
    }
}
