//! The options of `examine` (docs/CALLS.md).

use crate::board::Bank;
use crate::numbers::Kind;

const MOST_MOVES: u64 = 1_000_000_000;
const MOST_ORDERS: u64 = 1_000_000;

#[derive(Debug, Default)]
pub struct Options {
    pub kind: Option<Kind>,
    pub tape: Option<Bank>,
    pub choices: Option<Vec<u32>>,
    pub moves: Option<u64>,
    pub orders: Option<u64>,
    pub trace: Option<()>,
    pub unfolded: Option<()>,
    pub help: Option<()>,
}

/// The options of a list of arguments, or one line that says what is wrong.
pub fn parse(arguments: &[String]) -> Result<Options, String> {
    let mut options = Options::default();
    let mut rest = arguments.iter();
    while let Some(name) = rest.next() {
        let mut value = || rest.next().ok_or(format!("{name} needs a value"));
        let once = match name.as_str() {
            "--kind" => set(&mut options.kind, kind(value()?)),
            "--tape" => set(&mut options.tape, tape(value()?)),
            "--choices" => set(&mut options.choices, words(value()?)),
            "--moves" => set(&mut options.moves, number(value()?, MOST_MOVES)),
            "--orders" => set(&mut options.orders, number(value()?, MOST_ORDERS)),
            "--trace" => set(&mut options.trace, Some(())),
            "--unfolded" => set(&mut options.unfolded, Some(())),
            "--help" => set(&mut options.help, Some(())),
            _ => Err("is unknown"),
        };
        once.map_err(|fault| format!("{name:?} {fault}"))?;
    }
    Ok(options)
}

fn set<T>(option: &mut Option<T>, value: Option<T>) -> Result<(), &'static str> {
    if option.is_some() {
        return Err("is given twice");
    }
    *option = value;
    option.as_ref().map(|_| ()).ok_or("has a bad value")
}

fn kind(value: &str) -> Option<Kind> {
    match value {
        "binary" => Some(Kind::Binary),
        "decimal" => Some(Kind::Decimal),
        _ => None,
    }
}

fn number(value: &str, most: u64) -> Option<u64> {
    let digits = !value.is_empty() && value.bytes().all(|byte| byte.is_ascii_digit());
    let number = if digits { value.parse().ok() } else { None };
    number.filter(|number| *number <= most)
}

fn words(value: &str) -> Option<Vec<u32>> {
    let word = |part: &str| number(part, u64::from(u32::MAX)).map(|number| number as u32);
    value.split(',').map(word).collect()
}

fn tape(value: &str) -> Option<Bank> {
    let group = |part: &str| match part {
        "" => Some(Vec::new()),
        _ => words(part),
    };
    let groups: Vec<Vec<u32>> = value.split('/').map(group).collect::<Option<_>>()?;
    let ports: [Vec<u32>; 8] = groups.try_into().ok()?;
    Some(ports.map(Into::into))
}

#[cfg(test)]
mod tests {
    use super::*;

    fn parsed(line: &str) -> Result<Options, String> {
        let arguments: Vec<String> = line.split_whitespace().map(str::to_string).collect();
        parse(&arguments)
    }

    #[test]
    fn good_options_are_read() {
        let options = parsed("--tape 1,2///4294967295//// --moves 0 --trace").expect("good");
        let tape = options.tape.expect("a tape");
        assert_eq!((tape[0].len(), tape[1].len(), tape[3][0]), (2, 0, u32::MAX));
        assert_eq!(options.moves, Some(0));
        assert!(options.trace.is_some() && options.orders.is_none());
    }

    #[test]
    fn bad_options_are_refused() {
        for line in [
            "--kind",
            "--kind octal",
            "--trace --trace",
            "--tape //////",
            "--tape ////////",
            "--tape ,///////",
            "--choices 1,",
            "--choices 4294967296",
            "--moves 1000000001",
            "--moves -1",
            "--orders 1000001",
            "--fast",
            "extra",
            "--moves +1",
        ] {
            assert!(parsed(line).is_err(), "{line}");
        }
    }
}
