//! What `rest` prints for a text (docs/CALLS.md).

use crate::board::{Bank, Board};
use crate::numbers::Kind;
use crate::{clear, report, runs};

pub const MOST_MOVES: u64 = 10_000;

pub fn rest(text: &[u8]) -> String {
    let program = match clear(text, Kind::Binary) {
        Ok(program) => program,
        Err(refusal) => return refusal.to_string(),
    };
    let mut board = Board::power(&program, Kind::Binary, Bank::default());
    runs::run(&mut board, MOST_MOVES, |_| 0, |_, _| {});
    report::report(&board)
}
