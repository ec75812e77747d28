//! The Rust program that ours is measured beside, and what both are measured on.

use judge::summaries::calls_of;

pub mod plain;
pub mod workloads;

/// A report with the third digit of every answer cut, the count, and where a property settled: the Rust program knows none of these.
pub fn as_the_rust_knows(report: &[u8]) -> Vec<u8> {
    let text = String::from_utf8_lossy(report);
    let last_call = calls_of(&text).count();
    let cut = |(place, line): (usize, &str)| {
        let words: Vec<&str> = line.split(' ').collect();
        let left = words.len().saturating_sub(1).max(2).min(words.len());
        let is_call = (1..=last_call).contains(&place);
        let digits = |(place, word): (usize, &&str)| word[..word.len() - usize::from(is_call && place > 1)].to_string();
        words[..left].iter().enumerate().map(digits).collect::<Vec<_>>().join(" ")
    };
    text.lines().enumerate().map(cut).collect::<Vec<_>>().join("\n").into_bytes()
}

#[cfg(test)]
mod tests {
    use super::*;
    use compare::inputs::input;
    use judge::report::{report, Nobody};

    /// The Rust program does the job that it is measured at, but for settled, the count and the refusal 11.
    #[test]
    fn the_rust_program_gives_the_expected_reports() {
        let mut out = Vec::new();
        for index in 0..3000 {
            let text = input(1, index);
            let expected = report(&text, &mut Nobody).unwrap();
            let full = calls_of(&String::from_utf8_lossy(&expected)).any(|line| line.split(' ').nth(1) == Some("11"));
            if !full {
                plain::report(&text, &mut out);
                assert_eq!(as_the_rust_knows(&out), as_the_rust_knows(&expected), "input {index}");
            }
        }
    }
}
