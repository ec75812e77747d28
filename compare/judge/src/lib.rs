//! The report of docs/REFERENCE.md, written from the rules and from nothing of our program: book, calls, refusals and
//! settled answers by its rules over interval sets of its own; value and early answers by the Rust original,
//! held at every call against its rules for them.

pub mod book;
pub mod monitor;
pub mod original;
pub mod report;
pub mod rules;
pub mod runs;
pub mod summaries;
pub mod text;

#[cfg(test)]
mod examples;
