//! Examines a text from standard input, as `examine` does.

use std::io::{Read, Write};

fn main() -> std::io::Result<()> {
    let arguments = std::env::args_os().skip(1);
    let arguments: Vec<String> =
        arguments.map(|argument| argument.to_string_lossy().into_owned()).collect();
    let mut text = Vec::new();
    std::io::stdin().read_to_end(&mut text)?;
    let outcome = reference::examine::examine(&arguments, &text);
    std::io::stdout().write_all(outcome.out.as_bytes())?;
    std::io::stderr().write_all(outcome.errors.as_bytes())?;
    std::process::exit(outcome.status)
}
