//! `compare`: makes texts of all classes and holds two programs, `rest` and
//! `examine`, to what the reference says of them.

mod child;
mod settings;
mod tally;

use reference::board::{Bank, Board};
use reference::examine::{end_by_other_choices, examine, Outcome};
use reference::generate::arguments::{arguments, Arguments};
use reference::generate::{sample, Sample};
use reference::numbers::Kind;
use reference::random::Random;
use reference::{clear, options, report, rest, runs};
use settings::Settings;
use std::path::Path;
use tally::Tally;

fn main() {
    let given: Vec<String> = std::env::args().skip(1).collect();
    let compared = settings::parse(&given).and_then(|settings| compare(&settings));
    match compared {
        Ok(tally) => {
            print!("{tally}");
            std::process::exit(i32::from(tally.differences > 0));
        }
        Err(fault) => {
            eprintln!("compare: {fault}");
            std::process::exit(2);
        }
    }
}

fn compare(settings: &Settings) -> Result<Tally, String> {
    let mut tally = Tally::default();
    for index in 0..settings.count {
        let mut random = Random::of_text(settings.seed, index);
        let sample = sample(&mut random);
        let given = arguments(&mut random, settings.open);
        let outcome = examine(&given.list, &sample.text);
        let one = One { settings, index, sample: &sample };
        if let Some(path) = &settings.rest {
            one.compare_rest(path, &mut tally)?;
        }
        if let Some(path) = &settings.examine {
            one.compare_examine(path, &given, &outcome, &mut tally)?;
        }
        one.compare_orders(&given, &mut random, &mut tally)?;
    }
    Ok(tally)
}

/// The comparison of one text.
struct One<'s> {
    settings: &'s Settings,
    index: usize,
    sample: &'s Sample,
}

impl One<'_> {
    fn compare_rest(&self, path: &Path, tally: &mut Tally) -> Result<(), String> {
        let out = rest::rest(&self.sample.text);
        let expected = Outcome { out, errors: String::new(), status: 0 };
        let agreed = self.held("rest", path, &[], &expected, tally)?;
        tally.note("rest, by what is printed", first_word(&expected.out), agreed);
        tally.note("rest, by class of text", self.sample.class, agreed);
        Ok(())
    }

    fn compare_examine(
        &self,
        path: &Path,
        given: &Arguments,
        expected: &Outcome,
        tally: &mut Tally,
    ) -> Result<(), String> {
        let agreed = self.held("examine", path, &given.list, expected, tally)?;
        let row = match expected.status {
            _ if given.open => "options left open",
            1 => "bad options",
            _ if given.list.iter().any(|part| part == "--help") => "help",
            _ => report_word(&expected.out),
        };
        tally.note("examine, by what is printed", row, agreed);
        tally.note("examine, by class of text", self.sample.class, agreed);
        for option in given.list.iter().filter(|part| expected.status == 0 && part.len() > 2) {
            if option.starts_with("--") {
                tally.note("examine, by option", option, agreed);
            }
        }
        let last = expected.out.lines().last().unwrap_or("");
        if last.starts_with("orders=") {
            tally.note("examine, by orders", last, agreed);
        }
        Ok(())
    }

    /// Runs a program and tells whether it does what is expected of it.
    fn held(
        &self,
        name: &str,
        path: &Path,
        given: &[String],
        expected: &Outcome,
        tally: &mut Tally,
    ) -> Result<bool, String> {
        let done = child::run(path, given, &self.sample.text, self.settings.seconds);
        let done = done.map_err(|fault| format!("{}: {fault}", path.display()))?;
        let lines = |bytes: &[u8]| bytes.iter().filter(|byte| **byte == b'\n').count();
        let help = expected.status == 0 && given.iter().any(|part| part == "--help");
        let agreed = (help || done.out == expected.out.as_bytes())
            && done.status == expected.status.to_string()
            && lines(&done.errors) == lines(expected.errors.as_bytes())
            && done.errors.is_empty() == expected.errors.is_empty();
        if !agreed {
            tally.differences += 1;
            self.save(name, given, expected, &done).map_err(|fault| fault.to_string())?;
        }
        Ok(agreed)
    }

    fn save(
        &self,
        name: &str,
        given: &[String],
        expected: &Outcome,
        done: &child::Done,
    ) -> std::io::Result<()> {
        std::fs::create_dir_all(&self.settings.out)?;
        let file = |end: &str| {
            let stem = format!("{}-{:06}-{name}", self.settings.seed, self.index);
            self.settings.out.join(format!("{stem}.{end}"))
        };
        std::fs::write(file("shim"), &self.sample.text)?;
        std::fs::write(file("options"), given.join("\n"))?;
        std::fs::write(file("expected"), &expected.out)?;
        std::fs::write(file("got"), &done.out)?;
        let errors = String::from_utf8_lossy(&done.errors);
        let statuses = format!(
            "expected status {}\ngot status {}\ngot on standard error:\n{errors}",
            expected.status, done.status
        );
        std::fs::write(file("status"), statuses)
    }

    /// Runs a board that rests by other orders and looks whether it ends alike,
    /// under the kind and the tape of the options where these are good.
    fn compare_orders(
        &self,
        given: &Arguments,
        random: &mut Random,
        tally: &mut Tally,
    ) -> Result<(), String> {
        let options = options::parse(&given.list).unwrap_or_default();
        let kind = options.kind.unwrap_or(Kind::Binary);
        let bank: Bank = options.tape.unwrap_or_default();
        let Ok(program) = clear(&self.sample.text, kind) else {
            return Ok(());
        };
        let mut board = Board::power(&program, kind, bank.clone());
        if !runs::run(&mut board, rest::MOST_MOVES, |_| 0, |_, _| {}) {
            return Ok(());
        }
        for _ in 0..self.settings.orders {
            let other = end_by_other_choices(&board, &program, bank.clone(), random);
            let verdict = report::verdict_word(board.verdict());
            tally.note("orders of the reference", verdict, other.is_none());
            if let Some(out) = other {
                tally.differences += 1;
                let expected = printed(report::report(&board));
                let done = child::Done { out: out.into(), errors: vec![], status: "0".into() };
                self.save("orders", &given.list, &expected, &done)
                    .map_err(|fault| fault.to_string())?;
            }
        }
        Ok(())
    }
}

fn printed(out: String) -> Outcome {
    Outcome { out, errors: String::new(), status: 0 }
}

/// `refused=N` or the verdict.
fn first_word(out: &str) -> &str {
    out.split([' ', '\n']).next().unwrap_or("")
}

/// `refused=N`, or the verdict wherever the report begins.
fn report_word(out: &str) -> &str {
    let verdict = out.lines().find(|line| line.starts_with("verdict="));
    verdict.unwrap_or(first_word(out))
}
