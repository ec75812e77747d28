//! Prints the proof file with runs of the original: vectors [SEED ADDITIONS TRACES]. The script `compare/transcription` puts it in its place.

use std::{env, panic, process};
use vectors::file::{file, Asked};

fn main() {
    let words: Vec<String> = env::args().skip(1).collect();
    let Some(asked) = asked(&words) else {
        eprintln!("vectors: give a seed, a number of additions and a number of traces, or none of them");
        process::exit(2);
    };
    panic::set_hook(Box::new(|_| ()));
    print!("{}", file(&asked));
}

fn asked(words: &[String]) -> Option<Asked> {
    let numbers: Vec<u64> = words.iter().map(|word| word.parse().ok()).collect::<Option<_>>()?;
    match numbers[..] {
        [] => Some(Asked::default()),
        [seed, additions, traces] => Some(Asked { seed, additions, traces }),
        _ => None,
    }
}
