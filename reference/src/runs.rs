//! Running a board by choices.

use crate::board::{Board, Move};

/// Makes at most `limit` moves, the k-th by what `choice` says of k, and calls
/// `before` ahead of each. Tells whether the board rests.
pub fn run(
    board: &mut Board,
    limit: u64,
    mut choice: impl FnMut(u64) -> u32,
    mut before: impl FnMut(&Board, Move),
) -> bool {
    for index in 0..limit {
        let Some(chosen) = chosen(board, choice(index)) else {
            return true;
        };
        before(board, chosen);
        board.make(chosen);
    }
    board.permitted().next().is_none()
}

/// The permitted move at the index that a choice says, or none at rest.
fn chosen(board: &Board, choice: u32) -> Option<Move> {
    if choice == 0 {
        return board.permitted().next();
    }
    let moves: Vec<Move> = board.permitted().collect();
    let count = moves.len();
    (count > 0).then(|| moves[choice as usize % count])
}
