//! The report of a board (docs/CALLS.md).

use crate::board::{Board, Local, Verdict};
use std::fmt::Write;

pub fn report(board: &Board) -> String {
    let mut out = String::new();
    let _ = writeln!(out, "verdict={}", verdict_word(board.verdict()));
    let _ = writeln!(out, "moves={}", board.state.moves);
    for place in 0..board.program.places.len() {
        place_line(board, place, &mut out);
    }
    for cell in 0..board.program.cells.len() {
        cell_line(board, cell, &mut out);
    }
    out
}

pub fn verdict_word(verdict: Verdict) -> &'static str {
    match verdict {
        Verdict::Finished => "finished",
        Verdict::Deadlock => "deadlock",
        Verdict::Moving => "moving",
    }
}

fn place_line(board: &Board, place: usize, out: &mut String) {
    let state = match board.state.locals[place] {
        Local::Idle => "idle",
        Local::Running(_) => "running",
        Local::Parted(_) => "parted",
        Local::Finished => "finished",
        Local::Poisoned => "poisoned",
    };
    let on = or_dash(board.waits(place));
    let mark = or_dash(board.state.marks[place]);
    let steps = board.state.steps[place];
    let _ = writeln!(out, "place={place} state={state} on={on} mark={mark} steps={steps}");
}

fn cell_line(board: &Board, cell: usize, out: &mut String) {
    let home = board.program.cells[cell].home;
    let value = board.kind.written(board.state.cells[cell]);
    let meets = board.state.meets[cell];
    let _ = writeln!(out, "cell={cell} home={home} value={value} meets={meets}");
}

pub fn or_dash(number: Option<usize>) -> String {
    number.map_or("-".to_string(), |number| number.to_string())
}
