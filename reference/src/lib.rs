//! A second runner of boards, written from the documents alone, so that the
//! first one has something to be held against.

pub mod board;
pub mod examine;
pub mod generate;
pub mod grammar;
pub mod layout;
pub mod names;
pub mod numbers;
pub mod options;
pub mod random;
pub mod reading;
pub mod refusal;
pub mod report;
pub mod rest;
pub mod runs;
pub mod sharing;
pub mod tree;
pub mod unfolding;

use layout::Program;
use numbers::Kind;
use refusal::Refusal;
use unfolding::Unfolded;

/// The five stages in turn, each over the whole text.
pub fn unfold_text(text: &[u8], kind: Kind) -> Result<Unfolded<'_>, Refusal> {
    let tokens = reading::read(text)?;
    let tree = grammar::parse(&tokens)?;
    names::check(&tree, kind)?;
    let unfolded = unfolding::unfold(&tree, kind)?;
    sharing::check(&unfolded)?;
    Ok(unfolded)
}

/// The program of a text, ready for power.
pub fn clear(text: &[u8], kind: Kind) -> Result<Program, Refusal> {
    let unfolded = unfold_text(text, kind)?;
    Ok(layout::lay_out(&unfolded))
}
