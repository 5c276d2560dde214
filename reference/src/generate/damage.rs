//! Texts that kept the rules and were then damaged.

use super::{author, limits, towers, words};
use crate::random::Random;

pub fn text(random: &mut Random) -> Vec<u8> {
    let mut text = match random.below(8) {
        0 => towers::text(random),
        1 => limits::text(random),
        2..=4 => swapped_tokens(random),
        _ => author::text(random),
    };
    for _ in 0..random.weighted(&[0, 6, 2, 1]) {
        damage(&mut text, random);
    }
    text
}

/// Tokens of a text, with some changes among them.
fn swapped_tokens(random: &mut Random) -> Vec<u8> {
    let mut tokens = author::tokens(random, Vec::new());
    for _ in 0..random.between(1, 2) {
        let (one, other) = (random.below(tokens.len()), random.below(tokens.len()));
        match random.below(5) {
            0 | 1 => tokens.swap(one, other),
            2 if one + 1 < tokens.len() => tokens.swap(one, one + 1),
            3 => tokens.insert(one, tokens[one].clone()),
            _ => tokens[one] = tokens[other].clone(),
        }
    }
    words::written(&tokens, random)
}

fn damage(text: &mut Vec<u8>, random: &mut Random) {
    if text.is_empty() {
        return text.push(b'{');
    }
    let at = random.below(text.len());
    match random.below(7) {
        0 => text[at] = random.below(256) as u8,
        1 => text[at] = random.one(b"(){},;&=+-*<ab09 \nTz"),
        2 => {
            text.remove(at);
        }
        3 => text.insert(at, text[at]),
        4 if at + 1 < text.len() => text.swap(at, at + 1),
        5 => text.truncate(at),
        _ => text.insert(at, random.one(b" \n;}{)(=1a\t")),
    }
}
