//! Options for `examine`: good ones, bad ones, and ones of which the
//! documents do not say whether they are good.

use crate::numbers::pack;
use crate::random::Random;

pub struct Arguments {
    pub list: Vec<String>,
    /// The documents leave open what these mean.
    pub open: bool,
}

/// A list of arguments; only if `open` says so one that the documents leave open.
pub fn arguments(random: &mut Random, open: bool) -> Arguments {
    let mut pairs = good(random);
    if random.once_in(100) {
        pairs.push(vec!["--help".to_string()]);
    }
    if random.once_in(10) {
        spoil(&mut pairs, random);
    }
    let is_open = open && random.once_in(10);
    if is_open {
        leave_open(&mut pairs, random);
    }
    let mut list = Vec::new();
    while !pairs.is_empty() {
        list.extend(pairs.remove(random.below(pairs.len())));
    }
    Arguments { list, open: is_open }
}

type Pairs = Vec<Vec<String>>;

fn pair(name: &str, value: impl ToString) -> Vec<String> {
    vec![name.to_string(), value.to_string()]
}

fn good(random: &mut Random) -> Pairs {
    let mut pairs = Vec::new();
    if random.once_in(2) {
        pairs.push(pair("--kind", random.one(&["binary", "decimal", "decimal"])));
    }
    if random.once_in(2) {
        pairs.push(pair("--tape", tape(random)));
    }
    if random.once_in(3) {
        pairs.push(pair("--choices", choices(random)));
        if random.once_in(8) {
            pairs.push(pair("--moves", 1_000_000_000));
            return flags(pairs, random);
        }
    }
    if random.once_in(3) {
        let moves = [0, 1, 2, 3, 7, 20, 50, 100, 1_000, 9_999, 10_000, 10_001, 12_345];
        pairs.push(pair("--moves", random.one(&moves)));
    }
    flags(pairs, random)
}

fn flags(mut pairs: Pairs, random: &mut Random) -> Pairs {
    if random.once_in(3) {
        pairs.push(vec!["--trace".to_string()]);
    }
    if random.once_in(3) {
        pairs.push(vec!["--unfolded".to_string()]);
    }
    if random.once_in(3) {
        let orders = if random.once_in(8) { random.one(&[0, 1, 20]) } else { 3 };
        pairs.push(pair("--orders", orders));
    }
    pairs
}

fn joined<T: ToString>(items: Vec<T>, between: &str) -> String {
    items.iter().map(T::to_string).collect::<Vec<_>>().join(between)
}

fn word(random: &mut Random) -> u32 {
    match random.below(6) {
        0 => random.next() as u32,
        1 => random.one(&[0, 1, u32::MAX, 1 << 31, 0x9999_9999, 0x9999_999A, 0xA, (1 << 31) - 1]),
        2 => random.below(20) as u32,
        _ => pack(random.below(100_000_000) as u64),
    }
}

fn tape(random: &mut Random) -> String {
    let mut groups = Vec::new();
    let busy = random.below(4);
    for port in 0..8 {
        let count = match random.below(10) {
            0..=2 if port != busy => 0,
            0..=8 => random.between(1, 5),
            _ => random.between(5, 60),
        };
        let words: Vec<u32> = (0..count).map(|_| word(random)).collect();
        groups.push(joined(words, ","));
    }
    groups.join("/")
}

fn choices(random: &mut Random) -> String {
    let count = match random.below(10) {
        0 => random.between(1, 4),
        1..=6 => random.between(1, 100),
        7 | 8 => random.between(50, 1_000),
        _ => random.between(1_000, 6_000),
    };
    let most = random.one(&[1, 2, 8, 64, 1 << 32]);
    let choices: Vec<usize> = (0..count).map(|_| random.below(most)).collect();
    joined(choices, ",")
}

/// Makes the options bad in a way that the documents name.
fn spoil(pairs: &mut Pairs, random: &mut Random) {
    let bad: &[&[&str]] = &[
        &["--kind", "octal"],
        &["--kind", ""],
        &["--kind", "Binary"],
        &["--tape", "1,2"],
        &["--tape", "//////"],
        &["--tape", "////////"],
        &["--tape", "/////4294967296//"],
        &["--tape", "/x//////"],
        &["--tape", "/1,,2//////"],
        &["--tape", "-1///////"],
        &["--choices", "1,x"],
        &["--choices", "4294967296"],
        &["--choices", "1,,2"],
        &["--choices", "-1"],
        &["--moves", "1000000001"],
        &["--moves", "ten"],
        &["--moves", "-1"],
        &["--moves", ""],
        &["--orders", "1000001"],
        &["--orders", "99999999999999999999999"],
        &["--orders", "3x"],
        &["--unknown"],
        &["-trace"],
        &["--Trace"],
        &["--kind=binary"],
        &["--trace", "--trace"],
        &["--unfolded", "--unfolded"],
        &["--moves", "5", "--moves", "5"],
        &["--kind", "binary", "--kind", "decimal"],
    ];
    let added: Vec<String> = random.pick(bad).iter().map(|part| part.to_string()).collect();
    if random.once_in(5) {
        let missing = random.one(&["--kind", "--tape", "--choices", "--moves", "--orders"]);
        *pairs = vec![vec![missing.to_string()]];
    } else {
        pairs.retain(|known| known[0] != "--help");
        pairs.push(added);
    }
}

/// Adds something of which the documents do not say whether it is good.
fn leave_open(pairs: &mut Pairs, random: &mut Random) {
    let open: &[&[&str]] = &[
        &["--choices", ""],
        &["--choices", "007,01"],
        &["--choices", "0000000000000000000000001"],
        &["--moves", "007"],
        &["--moves", "+5"],
        &["--moves", " 5"],
        &["--orders", "03"],
        &["--tape", "00000000000000000000000007///////"],
        &["extra"],
        &[""],
        &["--help", "--help"],
        &["--help", "--unknown"],
        &["--"],
    ];
    *pairs = vec![random.pick(open).iter().map(|part| part.to_string()).collect()];
}
