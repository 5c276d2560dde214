//! Texts of all classes, from a seed: accepted ones, refused ones of every
//! number, damaged ones, and ones near every limit.
//!
//! What a text was made for and what becomes of it are two things: a text of
//! any class may turn out otherwise, and who compares counts what became of it.

pub mod arguments;
mod author;
mod busy;
mod damage;
mod faults;
mod limits;
mod takers;
mod towers;
mod words;

use crate::random::Random;

pub struct Sample {
    pub class: &'static str,
    pub text: Vec<u8>,
}

/// The next text.
pub fn sample(random: &mut Random) -> Sample {
    let (class, text) = match random.weighted(&[38, 12, 25, 10, 12, 3, 2]) {
        0 => ("written", author::text(random)),
        1 => ("tower", towers::text(random)),
        2 => ("faulty", faults::text(random)),
        3 => ("damaged", damage::text(random)),
        4 => ("limit", limits::text(random)),
        5 => ("taker", takers::text(random)),
        _ => ("busy", busy::text(random)),
    };
    Sample { class, text }
}

#[cfg(test)]
mod tests {
    use super::*;
    use crate::rest::rest;
    use std::collections::BTreeSet;

    #[test]
    fn the_same_seed_makes_the_same_texts() {
        let texts = |seed| {
            let mut random = Random::new(seed);
            (0..50).map(|_| sample(&mut random).text).collect::<Vec<_>>()
        };
        assert_eq!(texts(7), texts(7));
        assert_ne!(texts(7), texts(8));
    }

    #[test]
    fn every_refusal_and_every_verdict_comes_up() {
        let mut random = Random::new(1);
        let mut seen = BTreeSet::new();
        for _ in 0..4000 {
            let printed = rest(&sample(&mut random).text);
            seen.insert(printed.split([' ', '\n']).next().unwrap_or("").to_string());
        }
        for number in 11..=23 {
            assert!(seen.contains(&format!("refused={number}")), "{number} in {seen:?}");
        }
        for verdict in ["finished", "deadlock", "moving"] {
            assert!(seen.contains(&format!("verdict={verdict}")), "{verdict} in {seen:?}");
        }
    }

    #[test]
    fn marks_of_three_digits_come_up() {
        let mut random = Random::new(2);
        let mut most = 0;
        for _ in 0..600 {
            let printed = rest(&towers::text(&mut random));
            let marks = printed.split("mark=").skip(1);
            let numbers = marks.filter_map(|rest| rest.split(' ').next()?.parse::<usize>().ok());
            most = most.max(numbers.max().unwrap_or(0));
        }
        assert!(most > 99, "the greatest mark was {most}");
    }
}
