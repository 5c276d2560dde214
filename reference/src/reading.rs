//! Stage 1: a text becomes tokens (docs/TEXT.md).

use crate::refusal::{refuse, Cause, Refusal};

pub const MOST_BYTES: usize = 16_384;
pub const MOST_NAME_BYTES: usize = 16;
pub const MOST_DIGITS: usize = 10;

pub const RESERVED: [&str; 13] = [
    "var", "next", "know", "take", "if", "else", "while", "par", "try", "catch", "throw", "proc",
    "main",
];

#[derive(Clone, Copy, Debug, PartialEq, Eq)]
pub enum Class {
    Name,
    Number,
    /// A sign or a reserved word: told by its spelling.
    Fixed,
    End,
}

#[derive(Clone, Copy, Debug, PartialEq, Eq)]
pub struct Token<'t> {
    pub class: Class,
    pub text: &'t str,
    pub offset: usize,
}

/// The tokens of a text, the end last.
pub fn read(text: &[u8]) -> Result<Vec<Token<'_>>, Refusal> {
    if text.len() > MOST_BYTES {
        return refuse(Cause::TextTooLong, MOST_BYTES);
    }
    let mut tokens = Vec::new();
    let mut at = 0;
    loop {
        at += run(&text[at..], is_separator);
        if at == text.len() {
            tokens.push(Token { class: Class::End, text: "", offset: at });
            return Ok(tokens);
        }
        let token = token_at(text, at)?;
        at += token.text.len();
        tokens.push(token);
    }
}

fn token_at(text: &[u8], at: usize) -> Result<Token<'_>, Refusal> {
    let Some((class, length)) = class_and_length(&text[at..]) else {
        return refuse(Cause::NoToken, at);
    };
    let spelling = std::str::from_utf8(&text[at..at + length]).expect("tokens are ASCII");
    let reserved = class == Class::Name && RESERVED.contains(&spelling);
    let class = if reserved { Class::Fixed } else { class };
    Ok(Token { class, text: spelling, offset: at })
}

/// What token the bytes begin with and how long it is; none where no token
/// begins or where it would be too long.
fn class_and_length(bytes: &[u8]) -> Option<(Class, usize)> {
    let first = bytes[0];
    if first.is_ascii_alphabetic() {
        let length = run(bytes, |byte| byte.is_ascii_alphanumeric());
        (length <= MOST_NAME_BYTES).then_some((Class::Name, length))
    } else if first.is_ascii_digit() {
        let length = run(bytes, |byte| byte.is_ascii_digit());
        (length <= MOST_DIGITS).then_some((Class::Number, length))
    } else if bytes.starts_with(b"==") {
        Some((Class::Fixed, 2))
    } else {
        b"(){},;&=+-*<".contains(&first).then_some((Class::Fixed, 1))
    }
}

fn is_separator(byte: u8) -> bool {
    byte == b' ' || byte == b'\n'
}

/// How many of the first bytes pass the test in a row.
fn run(bytes: &[u8], test: impl Fn(u8) -> bool) -> usize {
    bytes.iter().take_while(|byte| test(**byte)).count()
}

#[cfg(test)]
mod tests {
    use super::*;

    fn spellings(text: &str) -> Vec<String> {
        let tokens = read(text.as_bytes()).expect("readable");
        tokens.iter().map(|token| token.text.to_string()).collect()
    }

    fn refused(text: &[u8]) -> (u32, usize) {
        let refusal = read(text).expect_err("refused");
        (refusal.cause as u32, refusal.offset)
    }

    #[test]
    fn the_longest_token_is_read() {
        assert_eq!(spellings("==="), ["==", "=", ""]);
        assert_eq!(spellings("whileif"), ["whileif", ""]);
        assert_eq!(spellings("12a"), ["12", "a", ""]);
        assert_eq!(spellings("a1 2"), ["a1", "2", ""]);
    }

    #[test]
    fn reserved_words_are_told_by_their_whole_spelling() {
        let classes = |text: &'static str| read(text.as_bytes()).expect("readable")[0].class;
        assert_eq!(classes("main"), Class::Fixed);
        assert_eq!(classes("main1"), Class::Name);
        assert_eq!(classes("Main"), Class::Name);
    }

    #[test]
    fn the_end_stands_at_the_length() {
        let tokens = read(b"a \n ").expect("readable");
        assert_eq!(tokens[1], Token { class: Class::End, text: "", offset: 4 });
        assert_eq!(read(b"").expect("readable")[0].offset, 0);
    }

    #[test]
    fn nothing_is_cut_to_fit() {
        assert_eq!(spellings("abcdefghijklmnop 1234567890").len(), 3);
        assert_eq!(refused(b"a abcdefghijklmnopq"), (12, 2));
        assert_eq!(refused(b" 12345678901"), (12, 1));
        assert_eq!(refused(b"a\tb"), (12, 1));
        assert_eq!(refused(b"_x"), (12, 0));
        assert_eq!(refused(b"a\xc3\xa4"), (12, 1));
    }

    #[test]
    fn the_length_is_looked_at_first() {
        assert!(read(&[b' '; MOST_BYTES]).is_ok());
        assert_eq!(refused(&[b'#'; MOST_BYTES + 1]), (11, MOST_BYTES));
    }
}
