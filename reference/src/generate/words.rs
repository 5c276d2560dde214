//! Tokens in a row, and the text that they are written as.

use crate::random::Random;

/// Adds the tokens of a text that has blanks between all of them.
pub fn put(tokens: &mut Vec<String>, text: &str) {
    tokens.extend(text.split_whitespace().map(str::to_string));
}

/// How much space stands between tokens.
#[derive(Clone, Copy)]
enum Style {
    Tight,
    Plain,
    Wild,
}

/// The text of tokens, with blanks that differ from text to text.
pub fn written(tokens: &[String], random: &mut Random) -> Vec<u8> {
    let style = match random.below(4) {
        0 => Style::Tight,
        1 => Style::Wild,
        _ => Style::Plain,
    };
    let mut text = String::new();
    for (index, token) in tokens.iter().enumerate() {
        if index > 0 {
            blanks(&tokens[index - 1], token, style, random, &mut text);
        }
        text.push_str(token);
    }
    let ends = ["", "\n", " ", " \n\n "];
    text.push_str(random.one(&ends));
    text.into_bytes()
}

fn blanks(before: &str, token: &str, style: Style, random: &mut Random, text: &mut String) {
    match style {
        Style::Plain => text.push(' '),
        Style::Tight if must_part(before, token) => text.push(' '),
        Style::Tight => {}
        Style::Wild => {
            let least = usize::from(must_part(before, token));
            for _ in 0..random.between(least, 2) {
                text.push(if random.once_in(3) { '\n' } else { ' ' });
            }
        }
    }
}

/// Whether two tokens without a blank between them would be read as others.
/// A number and a name after it would not: `12a` is `12` and `a`.
fn must_part(before: &str, token: &str) -> bool {
    let first = |text: &str| text.chars().next().unwrap_or(' ');
    let word = first(before).is_ascii_alphabetic() && first(token).is_ascii_alphanumeric();
    let digits = first(before).is_ascii_digit() && first(token).is_ascii_digit();
    word || digits || (before.ends_with('=') && token.starts_with('='))
}

#[cfg(test)]
mod tests {
    use super::*;
    use crate::reading::read;

    #[test]
    fn blanks_never_change_the_tokens() {
        let mut tokens = Vec::new();
        put(&mut tokens, "take 0 a else { a = = == 12 x 7 8 main main1 ; }");
        let mut random = Random::new(5);
        for _ in 0..200 {
            let text = written(&tokens, &mut random);
            let read = read(&text).expect("readable");
            let spellings: Vec<&str> = read.iter().map(|token| token.text).collect();
            assert_eq!(spellings[..spellings.len() - 1], tokens[..]);
        }
    }
}
