//! Reads an input from standard input and prints the report that docs/REFERENCE.md asks for; with the word `strict` that of strict loading,
//! with `lasting` that of the lasting way, and with both that of both.

use judge::report::{lasting, report, strictly, Gaps, Nobody, LONGEST_INPUT};
use std::env;
use std::io::{self, Read, Write};
use std::process::ExitCode;

/// Calls that are put in at most, over a whole input.
const MOST_PUT_IN: u64 = 10_000_000;

/// The report in the way that the words name; or, in words, why there is none.
fn expected(input: &[u8], words: &[String]) -> Result<Vec<u8>, String> {
    let names = |word: &str| words.iter().any(|w| w == word);
    if let Some(word) = words.iter().find(|w| !["strict", "lasting"].contains(&w.as_str())) {
        return Err(format!("{word} is not known"));
    }
    let bytes = if names("lasting") {
        let reports = [Gaps::Whole, Gaps::Ends].map(|gaps| lasting(input, gaps, MOST_PUT_IN, &mut Nobody).transpose());
        reports.into_iter().flatten().next().ok_or(format!("more than {MOST_PUT_IN} calls would have to be put in"))??
    } else {
        report(input, &mut Nobody)?
    };
    Ok(if names("strict") { strictly(input, &bytes) } else { bytes })
}

fn main() -> io::Result<ExitCode> {
    let mut input = Vec::new();
    // One byte more than the longest input is enough to see that it is too long.
    io::stdin().take(LONGEST_INPUT as u64 + 1).read_to_end(&mut input)?;
    match expected(&input, &env::args().skip(1).collect::<Vec<_>>()) {
        Ok(bytes) => {
            io::stdout().write_all(&bytes)?;
            Ok(ExitCode::SUCCESS)
        }
        Err(why) => {
            eprintln!("expected: {why}");
            Ok(ExitCode::FAILURE)
        }
    }
}
