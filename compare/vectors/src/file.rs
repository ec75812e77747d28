//! The proof file of the crate `original` that has the drawn examples, and in which the checker computes them again.

use crate::{additions, traces};
use compare::chance::Chance;

/// What is asked for: the seed, and how many additions and traces.
pub struct Asked {
    pub seed: u64,
    pub additions: u64,
    pub traces: u64,
}

/// What the repository has.
impl Default for Asked {
    fn default() -> Self {
        Self { seed: 1, additions: 300, traces: 200 }
    }
}

/// What stands between the head and the examples.
const IMPORTS: &str = include_str!("imports.txt");

/// What the definitions that compute an example are; a statement by computation has to name them.
const SET: &str = "add_assign first_then ok_then err_then contains contains_at contains_unbounded_interval index last binary_search_by_key";
const ORACLE: &str =
    "trace answered made update_state update_time update-state-of update-time-of each output valuation from add_if since_if stop";

/// The whole file.
pub fn file(asked: &Asked) -> String {
    let mut set = additions::Drawn::default();
    (0..asked.additions).for_each(|i| additions::draw(&mut Chance::new(asked.seed, i), &mut set));
    let mut oracle = traces::Drawn::default();
    (0..asked.traces).for_each(|i| traces::draw(&mut Chance::new(asked.seed, asked.additions + i), &mut oracle));
    let traced = format!("{ORACLE} {SET}");
    head(asked, &set, &oracle)
        + IMPORTS
        + &part("additions", "Ran NumSet", &set.additions, SET)
        + &part("questions", "Ran Bool", &set.questions, SET)
        + &part("unbounded_questions", "Bool", &set.unbounded, SET)
        + &part("traces", "List (Ran Answered)", &oracle.traces, &traced)
}

/// What the file shows, the command that wrote it, and what was drawn.
fn head(asked: &Asked, set: &additions::Drawn, oracle: &traces::Drawn) -> String {
    let Asked { seed, additions, traces } = asked;
    let questions = set.questions.len() + set.unbounded.len();
    let (panics, losses, ends) = (set.panics, set.losses, oracle.panics);
    format!(
        "-- Runs of the original, drawn at random: the transcription computes the same. Assumes nothing.
-- Written by `compare/transcription {seed} {additions} {traces}`, not by hand.
-- {additions} additions, of which {panics} panic and {losses} lose instants; {questions} questions; {traces} traces, of which {ends} end in a panic.
"
    )
}

/// A list of examples, and the statement that each gives what the original gave.
fn part(name: &str, kind: &str, examples: &[String], unfolding: &str) -> String {
    let lines = examples.join("\n    ∷ ");
    format!(
        "
abbrev pub {name} : List (Example ({kind}))
{name} =
    {lines}
    ∷ []

pub {name}_are_recorded : map found_in {name} ≡ map stated_in {name}
unfolding {unfolding}
{name}_are_recorded = refl
"
    )
}

#[cfg(test)]
mod tests {
    use super::*;

    #[test]
    fn the_file_on_disk_is_what_is_written() {
        let on_disk = include_str!("../../../crates/original/proofs/Recorded.antt");
        assert!(on_disk == file(&Asked::default()), "run compare/transcription");
    }

    #[test]
    fn every_kind_and_every_answer_is_drawn() {
        let file = file(&Asked::default());
        let kinds = ["True", "False", "Atom", "And", "Or", "Not", "Implies", "Historically", "Once", "Since"];
        assert!(kinds.iter().all(|kind| file.contains(&format!("Pmtl.{kind} "))));
        assert!(["None ∷", "Some true ∷", "Some false ∷", "panic ∷"].iter().all(|answer| file.contains(answer)));
    }
}
