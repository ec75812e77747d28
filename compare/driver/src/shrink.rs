//! An input cut down to the smallest found that still shows a difference.

use crate::case::{Call, Case, Row, AND, ATOM, FALSE, OR, TRUE};
use judge::book::is_temporal;

/// How many smaller inputs are tried at most.
const TRIES: usize = 6_000;

/// Says of an input whether it still shows the difference, as long as there are tries left.
struct Test<'a> {
    differs: &'a mut dyn FnMut(&[u8]) -> bool,
    left: usize,
}

impl Test<'_> {
    fn differs(&mut self, text: &[u8]) -> bool {
        self.left = self.left.saturating_sub(1);
        self.left > 0 && (self.differs)(text)
    }
}

/// Cuts calls, then rows, then numbers, as long as one of them can be cut; text that is no such case is cut by words and
/// by bytes.
pub fn shrink(input: &[u8], differs: &mut dyn FnMut(&[u8]) -> bool) -> Vec<u8> {
    let test = &mut Test { differs, left: TRIES };
    match Case::of_text(input) {
        Some(case) if test.differs(&case.text()) => cut_case(case, test).text(),
        _ => cut_text(input, test),
    }
}

fn cut_case(mut case: Case, test: &mut Test) -> Case {
    loop {
        let before = case.clone();
        cut_calls(&mut case, test);
        cut_rows(&mut case, test);
        cut_numbers(&mut case, test);
        if case == before {
            return case;
        }
    }
}

/// The list without every stretch that can be left out: halves first, then ever shorter stretches.
fn cut_list<T: Clone>(mut list: Vec<T>, test: &mut Test, text: &dyn Fn(&[T]) -> Vec<u8>) -> Vec<T> {
    let mut length = list.len().div_ceil(2);
    while length > 0 {
        let mut start = 0;
        while start < list.len() && test.left > 0 {
            let end = list.len().min(start + length);
            let shorter: Vec<T> = list[..start].iter().chain(&list[end..]).cloned().collect();
            if test.differs(&text(&shorter)) {
                list = shorter;
            } else {
                start = end;
            }
        }
        length /= 2;
    }
    list
}

fn cut_calls(case: &mut Case, test: &mut Test) {
    let book = Case { calls: Vec::new(), ..case.clone() };
    case.calls = cut_list(case.calls.clone(), test, &|calls| Case { calls: calls.to_vec(), ..book.clone() }.text());
}

/// Tries smaller books until none shows the difference.
fn cut_rows(case: &mut Case, test: &mut Test) {
    while let Some(smaller) = smaller_books(case).into_iter().find(|smaller| test.differs(&smaller.text())) {
        *case = smaller;
    }
}

/// Books with a property, an operand or a row less.
fn smaller_books(case: &Case) -> Vec<Case> {
    let mut books = Vec::new();
    for place in 0..case.assumes.len() + case.guarantees.len() {
        let mut book = case.clone();
        if place < case.assumes.len() {
            book.assumes.remove(place);
        } else {
            book.guarantees.remove(place - case.assumes.len());
        }
        books.push(pruned(&book));
    }
    for (number, row) in case.rows.iter().enumerate().rev() {
        books.extend(row.operands.iter().map(|&operand| replaced(case, number, operand)));
        if row.kind == AND || row.kind == OR {
            books.extend((0..row.operands.len()).map(|place| {
                let mut book = case.clone();
                book.rows[number].operands.remove(place);
                pruned(&book)
            }));
        }
        if row.kind > ATOM {
            books.extend([FALSE, TRUE].map(|kind| {
                let mut book = case.clone();
                book.rows[number] = Row::plain(kind, 0, Vec::new());
                pruned(&book)
            }));
        }
    }
    books
}

/// The book with one of a row's operands in the row's place.
fn replaced(case: &Case, row: usize, operand: usize) -> Case {
    let mut book = case.clone();
    book.rows[row].operands.clear();
    let owners = book.rows.iter_mut().flat_map(|r| r.operands.iter_mut());
    for number in owners.chain(&mut book.assumes).chain(&mut book.guarantees) {
        if *number == row {
            *number = operand;
        }
    }
    pruned(&book)
}

/// The book without rows that no property reaches, the others in their order.
fn pruned(case: &Case) -> Case {
    let mut reached = vec![false; case.rows.len()];
    for &row in case.assumes.iter().chain(&case.guarantees) {
        reached[row] = true;
    }
    for number in (0..case.rows.len()).rev().filter(|&n| case.rows[n].kind > ATOM) {
        if reached[number] {
            case.rows[number].operands.iter().for_each(|&o| reached[o] = true);
        }
    }
    let new_number = |row: &usize| reached[..*row].iter().filter(|&&r| r).count();
    let renumber = |list: &[usize]| list.iter().map(new_number).collect::<Vec<usize>>();
    let kept = case.rows.iter().zip(&reached).filter(|(_, &reached)| reached);
    Case {
        rows: kept.map(|(row, _)| Row { operands: renumber(&row.operands), ..row.clone() }).collect(),
        assumes: renumber(&case.assumes),
        guarantees: renumber(&case.guarantees),
        calls: case.calls.clone(),
    }
}

/// Tries smaller bounds, atoms, times and states, each in its turn.
fn cut_numbers(case: &mut Case, test: &mut Test) {
    for number in 0..case.rows.len() {
        let row = case.rows[number].clone();
        let mut simpler = Vec::new();
        if row.kind == ATOM {
            simpler.extend(less(row.atom).map(|atom| Row { atom, ..row.clone() }));
        }
        if is_temporal(row.kind) {
            simpler.extend(less(row.lower).map(|lower| Row { lower, ..row.clone() }));
            simpler.extend(less(row.upper).map(|upper| Row { upper: upper.max(row.lower), ..row.clone() }));
        }
        for row in simpler {
            try_case(case, test, |c| c.rows[number] = row.clone());
        }
    }
    for number in 0..case.calls.len() {
        cut_time(case, number, test);
        cut_state(case, number, test);
    }
}

fn cut_time(case: &mut Case, number: usize, test: &mut Test) {
    for smaller in case.calls[number].parts().0.into_iter().flat_map(less) {
        try_case(case, test, |c| c.calls[number].parts_mut().0.into_iter().for_each(|time| *time = smaller));
    }
}

/// A state that is shorter, and words of it as 0, where that is enough.
fn cut_state(case: &mut Case, number: usize, test: &mut Test) {
    let Some(length) = case.calls[number].parts().1.map(<[u64]>::len) else { return };
    for shorter in [0, length / 2, length.saturating_sub(1)] {
        try_case(case, test, |c| c.calls[number].parts_mut().1.into_iter().for_each(|state| state.truncate(shorter)));
    }
    for place in 0..length {
        try_case(case, test, |c| c.calls[number].parts_mut().1.and_then(|s| s.get_mut(place)).into_iter().for_each(|word| *word = 0));
    }
}

/// Smaller numbers, the smallest first.
fn less(number: u64) -> impl Iterator<Item = u64> {
    [0, 1, number / 2, number.saturating_sub(1)].into_iter().filter(move |&n| n < number)
}

/// Keeps a change that makes the text smaller, or its numbers, and still shows the difference.
fn try_case(case: &mut Case, test: &mut Test, change: impl FnOnce(&mut Case)) {
    let mut changed = case.clone();
    change(&mut changed);
    if weight(&changed) < weight(case) && test.differs(&changed.text()) {
        *case = changed;
    }
}

/// What `cut_numbers` makes smaller with every change.
fn weight(case: &Case) -> u128 {
    let rows = case.rows.iter().map(|r| u128::from(r.atom) + u128::from(r.lower) + u128::from(r.upper)).sum::<u128>();
    let call = |call: &Call| {
        let (time, state) = call.parts();
        u128::from(time.unwrap_or(0)) + state.unwrap_or(&[]).iter().map(|&w| u128::from(w) + 1).sum::<u128>()
    };
    rows + case.calls.iter().map(call).sum::<u128>()
}

fn cut_text(input: &[u8], test: &mut Test) -> Vec<u8> {
    let words: Vec<&[u8]> = input.split_inclusive(|&b| b == b' ' || b == b'\n').collect();
    let words = cut_list(words, test, &|words| words.concat());
    cut_list(words.concat(), test, &|bytes| bytes.to_vec())
}

#[cfg(test)]
mod tests {
    use super::*;
    use crate::inputs::input;
    use judge::report::{report, Nobody};

    /// A program that takes every time above 1000 for one above H is found out with two lines.
    #[test]
    fn a_case_is_cut_to_what_matters() {
        let differs = &mut |text: &[u8]| {
            let words = String::from_utf8_lossy(text).into_owned();
            let accepted = report(text, &mut Nobody).is_ok_and(|r| r.ends_with(b"end\n"));
            accepted && words.lines().any(|line| line.strip_prefix("0 ").and_then(|t| t.parse::<u64>().ok()).is_some_and(|t| t > 1000))
        };
        let found = (0..).map(|index| input(3, index)).find(|text| differs(text)).unwrap();
        assert_eq!(String::from_utf8(shrink(&found, differs)).unwrap(), "0\n0\n0\n0\n1\n0 1001\n");
    }

    #[test]
    fn damaged_text_is_cut_to_what_matters() {
        let text = b"12 3x 4 5 6 0 0 0 1 1 1 2 3 4".to_vec();
        assert_eq!(shrink(&text, &mut |t| t.contains(&b'x')), b"x");
    }
}
