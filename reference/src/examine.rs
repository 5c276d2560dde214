//! What `examine` prints for a text under options (docs/CALLS.md).

use crate::board::{Bank, Board, Move};
use crate::layout::{self, Program};
use crate::numbers::Kind;
use crate::options::{self, Options};
use crate::random::Random;
use crate::report::{or_dash, report};
use crate::unfolding::Unfolded;
use crate::{rest, runs, unfold_text};
use std::fmt::Write;

/// What a program prints, and its status.
#[derive(Debug, PartialEq, Eq)]
pub struct Outcome {
    pub out: String,
    pub errors: String,
    pub status: i32,
}

const HELP: &str = "examine reads a text from standard input.
--kind binary|decimal   the number kind
--tape W,W/W//..        the words to come at the eight ports
--choices C,C,..        the choices, each once, in order
--moves N               at most N moves
--trace                 a line for each move
--orders N              N further orders
--unfolded              how the text unfolded
--help                  this
";

pub fn examine(arguments: &[String], text: &[u8]) -> Outcome {
    match options::parse(arguments) {
        Err(fault) => Outcome { out: String::new(), errors: fault + "\n", status: 1 },
        Ok(options) if options.help.is_some() => printed(HELP.to_string()),
        Ok(options) => examine_text(&options, text),
    }
}

fn printed(out: String) -> Outcome {
    Outcome { out, errors: String::new(), status: 0 }
}

fn examine_text(options: &Options, text: &[u8]) -> Outcome {
    let kind = options.kind.unwrap_or(Kind::Binary);
    let unfolded = match unfold_text(text, kind) {
        Ok(unfolded) => unfolded,
        Err(refusal) => return printed(refusal.to_string()),
    };
    let mut out = String::new();
    if options.unfolded.is_some() {
        show_unfolded(&unfolded, &mut out);
    }
    let program = layout::lay_out(&unfolded);
    let bank = options.tape.clone().unwrap_or_default();
    let mut board = Board::power(&program, kind, bank.clone());
    let rests = first_run(options, &mut board, &mut out);
    out += &report(&board);
    match options.orders {
        Some(orders) if rests => further_orders(orders, &board, &program, bank, out),
        Some(orders) => printed(out + &format!("orders={orders} moving\n")),
        None => printed(out),
    }
}

fn show_unfolded(unfolded: &Unfolded, out: &mut String) {
    let _ = writeln!(out, "statements={}", unfolded.statements);
    let _ = writeln!(out, "places={}", unfolded.places);
    let _ = writeln!(out, "cells={}", unfolded.cells.len());
    for (number, cell) in unfolded.cells.iter().enumerate() {
        let _ = writeln!(out, "cell={number} home={} name={}", cell.home, cell.name.text);
    }
}

/// The run that the options ask for; tells whether the board rests after it.
fn first_run(options: &Options, board: &mut Board, out: &mut String) -> bool {
    let choices = options.choices.as_deref();
    let listed = choices.map(|choices| choices.len() as u64);
    let most = options.moves.or(listed).unwrap_or(rest::MOST_MOVES);
    let limit = most.min(listed.unwrap_or(most));
    let choice = |index: u64| choices.map_or(0, |choices| choices[index as usize]);
    let trace = options.trace.is_some();
    runs::run(board, limit, choice, |board, made| {
        if trace {
            trace_line(board, made, out);
        }
    })
}

fn trace_line(board: &Board, made: Move, out: &mut String) {
    let declarer = |home: usize| board.program.cells[home].place;
    let (name, stands) = match made {
        Move::Step { place } => (format!("kind=step place={place}"), place),
        Move::Close { place } => (format!("kind=close place={place}"), place),
        Move::Meet { home } => (format!("kind=meet home={home}"), declarer(home)),
        Move::Poison { place, home } => (format!("kind=poison place={place} home={home}"), place),
    };
    let at = or_dash(board.stands_at(stands));
    let _ = writeln!(out, "move={} {name} at={at}", board.state.moves + 1);
}

fn further_orders(
    orders: u64,
    first: &Board,
    program: &Program,
    bank: Bank,
    out: String,
) -> Outcome {
    let mut random = Random::new(0);
    for order in 1..=orders {
        let ended = end_by_other_choices(first, program, bank.clone(), &mut random);
        if let Some(other) = ended {
            let reports = report(first) + &other;
            let out = out + &format!("orders={orders} differ at={order}\n") + &reports;
            return Outcome { out, errors: String::new(), status: 1 };
        }
    }
    printed(out + &format!("orders={orders} equal\n"))
}

/// Runs the board by other choices; its report if it ends otherwise than first.
pub fn end_by_other_choices(
    first: &Board,
    program: &Program,
    bank: Bank,
    random: &mut Random,
) -> Option<String> {
    let mut board = Board::power(program, first.kind, bank);
    let rests = runs::run(&mut board, first.state.moves + 1, |_| random.next() as u32, |_, _| {});
    let alike = rests && board.state == first.state;
    (!alike).then(|| report(&board))
}

#[cfg(test)]
mod tests {
    use super::*;

    fn examined(line: &str, text: &str) -> Outcome {
        let arguments: Vec<String> = line.split_whitespace().map(str::to_string).collect();
        examine(&arguments, text.as_bytes())
    }

    #[test]
    fn the_trace_tells_where_places_stand() {
        let text = "main { var a; par { next a; } { next a; }; }";
        let outcome = examined("--trace --moves 5", text);
        let lines: Vec<&str> = outcome.out.lines().take(6).collect();
        let expected = [
            "move=1 kind=step place=0 at=7",
            "move=2 kind=step place=0 at=14",
            "move=3 kind=meet home=0 at=14",
            "move=4 kind=step place=1 at=-",
            "move=5 kind=step place=2 at=-",
            "verdict=moving",
        ];
        assert_eq!(lines, expected);
    }

    #[test]
    fn choices_end_the_run() {
        let outcome = examined("--choices 0,0 --moves 9", "main { var a; { var b; } }");
        assert!(outcome.out.starts_with("verdict=moving\nmoves=2\n"));
        let outcome = examined("--choices 0,0,0,0 --moves 9", "main { var a; { var b; } }");
        assert!(outcome.out.starts_with("verdict=finished\nmoves=3\n"));
    }

    #[test]
    fn orders_are_told_after_the_report() {
        let outcome = examined("--orders 5", "main { par { } { } { }; }");
        assert!(outcome.out.ends_with("\norders=5 equal\n"));
        let outcome = examined("--orders 5 --moves 1", "main { par { } { } { }; }");
        assert!(outcome.out.ends_with("\norders=5 moving\n"));
    }

    #[test]
    fn the_unfolded_text_comes_first() {
        let outcome = examined("--unfolded", "proc p(x) { { } } main { var a; p(a); }");
        let expected = "statements=3\nplaces=1\ncells=2\ncell=0 home=0 name=a\n\
            cell=1 home=0 name=x\nverdict=finished\n";
        assert!(outcome.out.starts_with(expected));
    }

    #[test]
    fn a_refused_text_prints_its_line_alone() {
        let outcome = examined("--unfolded --trace --orders 2", "main { throw T; }");
        assert_eq!(outcome, printed("refused=23 at=7 stage=5\n".to_string()));
    }
}
