//! Books with a wrong word, and damaged text.

use crate::case::{text, Case, Layout};
use crate::chance::Chance;
use judge::book::{is_temporal, operands_taken, Sections, H, MAX, MOST_OPERANDS};

/// The case's text after one to three wrong words in its book.
pub fn spoil_book(chance: &mut Chance, case: &Case) -> Vec<u8> {
    let mut sections = case.sections();
    for _ in 0..1 + chance.weighed(&[4, 2, 1]) {
        spoil_section(chance, &mut sections);
    }
    text(&sections, &case.calls, Layout::Lines, chance)
}

fn spoil_section(chance: &mut Chance, sections: &mut Sections) {
    let rows = sections.rows.len() as u64;
    match chance.below(9) {
        8 => spoil_operand(chance, sections),
        0..=2 => spoil_row(chance, &mut sections.rows),
        3 => spoil_list(chance, &mut sections.operands, rows, 129),
        4 => spoil_list(chance, &mut sections.assumes, rows, 17),
        5 => spoil_list(chance, &mut sections.guarantees, rows, 17),
        6 => {
            let place = chance.below(sections.rows.len() + 1);
            let row = chance.among(&[[0, 0, 0, 0], [2, 1, 0, 0], [8, 1, 0, 5], [3, 2, 0, 0], [10, 0, 0, 0]]);
            sections.rows.insert(place, row);
        }
        _ => sections.rows.resize(chance.among(&[127, 128, 129, 130]), [1, 0, 0, 0]),
    }
}

/// Another kind, arg, lower or upper in one of the rows.
fn spoil_row(chance: &mut Chance, rows: &mut [[u64; 4]]) {
    let temporal: Vec<usize> = (0..rows.len()).filter(|&n| is_temporal(rows[n][0])).collect();
    let (number, place) = if !temporal.is_empty() && chance.one_in(2) {
        (chance.among(&temporal), 2 + chance.below(2))
    } else {
        (chance.below(rows.len()), chance.below(4))
    };
    let Some(row) = rows.get_mut(number) else { return };
    let near = chance.among(&[row[place].wrapping_add(1), row[place].wrapping_sub(1), 0, 1, 2]);
    row[place] = match place {
        0 => chance.among(&[near, near % 10, 10, 11, MAX]),
        1 => chance.among(&[near, 3, 127, 128, 129, 255, 256, MAX]),
        _ => chance.among(&[near, 5, H - 1, H, H + 1, MAX - 1, MAX]),
    };
}

/// An operand that is its owner, or the row after it.
fn spoil_operand(chance: &mut Chance, sections: &mut Sections) {
    let takes = |row: &[u64; 4]| operands_taken(row[0], row[1].min(MOST_OPERANDS));
    let owners = sections.rows.iter().enumerate().flat_map(|(owner, row)| vec![owner as u64; takes(row)]);
    let owners: Vec<u64> = owners.take(sections.operands.len()).collect();
    if !owners.is_empty() {
        let place = chance.below(owners.len());
        sections.operands[place] = owners[place] + chance.among(&[0, 0, 1]);
    }
}

/// A number more, less, doubled or out of range; now and then the list grows around its limit.
fn spoil_list(chance: &mut Chance, list: &mut Vec<u64>, rows: u64, past_limit: usize) {
    let number = chance.among(&[0, rows / 2, rows.wrapping_sub(1), rows, rows + 1, MAX]);
    match chance.below(5) {
        0 if !list.is_empty() => {
            let place = chance.below(list.len());
            list.remove(place);
        }
        1 if !list.is_empty() => {
            let place = chance.below(list.len());
            list[place] = number;
        }
        2 if list.len() > 1 => {
            let (from, to) = (chance.below(list.len()), chance.below(list.len()));
            list[to] = list[from];
        }
        3 => list.resize(past_limit - chance.below(2), number),
        _ => list.insert(chance.below(list.len() + 1), number),
    }
}

const ODD_WORDS: [&str; 24] = [
    "00",
    "01",
    "007",
    "18446744073709551616",
    "18446744073709551615",
    "18446744073709551614",
    "99999999999999999999",
    "20000000000000000000",
    "100000000000000000000",
    "000000000000000000000",
    "9223372036854775807",
    "9223372036854775808",
    "-1",
    "+1",
    "1a",
    "x",
    "0x1",
    "1.",
    "2",
    "257",
    "256",
    "128",
    "129",
    "0",
];
const ODD_BYTES: &[u8] = b"  \n\n\t\r,-+x:/\x00\x7f\x80\xff0123456789";

/// Damages a text in one to three places.
pub fn spoil_text(chance: &mut Chance, mut text: Vec<u8>) -> Vec<u8> {
    for _ in 0..1 + chance.below(3) {
        spoil_once(chance, &mut text);
    }
    text
}

fn spoil_once(chance: &mut Chance, text: &mut Vec<u8>) {
    let place = chance.below(text.len() + 1);
    let byte = chance.among(ODD_BYTES);
    match chance.below(9) {
        0 => text.truncate(place),
        1 if place < text.len() => {
            text.remove(place);
        }
        2 if place < text.len() => text[place] = byte,
        3 => text.insert(place, byte),
        4 => text.extend_from_slice(chance.among(&[" 0", "0", " x", "\n1 2", "\r", " ", "\n\n", "7", " 00", "\t"]).as_bytes()),
        5 => text.splice(0..0, chance.among(&[" ", "\n", "0", "\t", "x ", "1 "]).bytes()).for_each(drop),
        6..=7 => replace_word(chance, text),
        _ => remove_word(chance, text),
    }
}

/// Start and end of the word at or after a drawn place; the text's end if there is none.
fn drawn_word(chance: &mut Chance, text: &[u8]) -> (usize, usize) {
    let parts = |b: &u8| *b == b' ' || *b == b'\n';
    let mut start = chance.below(text.len() + 1);
    while start > 0 && !parts(&text[start - 1]) {
        start -= 1;
    }
    while start < text.len() && parts(&text[start]) {
        start += 1;
    }
    let length = text[start..].iter().position(parts).unwrap_or(text.len() - start);
    (start, start + length)
}

fn replace_word(chance: &mut Chance, text: &mut Vec<u8>) {
    let (start, end) = drawn_word(chance, text);
    let word = chance.among(&ODD_WORDS);
    text.splice(start..end, word.bytes()).for_each(drop);
}

fn remove_word(chance: &mut Chance, text: &mut Vec<u8>) {
    let (start, end) = drawn_word(chance, text);
    text.drain(start..end).for_each(drop);
}

/// A call or two that no reader takes, somewhere among the calls: a kind over 2, a width over 256.
pub fn odd_call(chance: &mut Chance, case: &Case) -> Vec<u8> {
    let mut lines: Vec<String> = String::from_utf8_lossy(&case.text()).lines().map(str::to_string).collect();
    let calls = case.calls.len();
    let place = lines.len() - chance.below(calls + 1);
    let state: Vec<String> = vec!["1".to_string(); 257];
    let line = match chance.below(5) {
        0 => "3 0".to_string(),
        1 => format!("1 257 {}", state.join(" ")),
        2 => format!("1 256 {}", state[1..].join(" ")),
        3 => format!("2 {MAX} 257 {}", state.join(" ")),
        _ => format!("{} 5", MAX),
    };
    lines.insert(place, line);
    let count = lines.len() - 1 - calls - 1;
    lines[count] = (calls + 1).to_string();
    lines.join("\n").into_bytes()
}
