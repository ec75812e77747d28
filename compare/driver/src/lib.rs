//! Inputs drawn at random, and inputs cut down to what still shows a difference.

pub mod again;
pub mod books;
pub mod calls;
pub mod case;
pub mod chance;
pub mod cover;
pub mod damage;
pub mod inputs;
pub mod shrink;
