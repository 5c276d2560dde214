//! Runs a text from standard input, as `rest` does.

use std::io::{Read, Write};

fn main() -> std::io::Result<()> {
    let mut text = Vec::new();
    std::io::stdin().read_to_end(&mut text)?;
    std::io::stdout().write_all(reference::rest::rest(&text).as_bytes())
}
