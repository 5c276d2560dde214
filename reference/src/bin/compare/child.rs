//! Running a program on a text.

use std::io::{Read, Write};
use std::path::Path;
use std::process::{Child, Command, Stdio};
use std::sync::mpsc;
use std::time::Duration;

/// What a program did.
pub struct Done {
    pub out: Vec<u8>,
    pub errors: Vec<u8>,
    /// The status, or what else ended it.
    pub status: String,
}

pub fn run(path: &Path, arguments: &[String], text: &[u8], seconds: u64) -> std::io::Result<Done> {
    let mut child = Command::new(path)
        .args(arguments)
        .stdin(Stdio::piped())
        .stdout(Stdio::piped())
        .stderr(Stdio::piped())
        .spawn()?;
    if let Some(mut input) = child.stdin.take() {
        // A program that refuses its options need not read the text.
        let _ = input.write_all(text);
    }
    let Some(out) = output(&mut child, seconds) else {
        child.kill()?;
        child.wait()?;
        return Ok(Done { out: Vec::new(), errors: Vec::new(), status: "too slow".to_string() });
    };
    let mut errors = Vec::new();
    if let Some(mut stream) = child.stderr.take() {
        stream.read_to_end(&mut errors)?;
    }
    let ended = child.wait()?;
    let status = ended.code().map_or(ended.to_string(), |code| code.to_string());
    Ok(Done { out, errors, status })
}

/// What the program prints, or none if it is not done in time.
fn output(child: &mut Child, seconds: u64) -> Option<Vec<u8>> {
    let mut stream = child.stdout.take()?;
    let (sender, receiver) = mpsc::channel();
    std::thread::spawn(move || {
        let mut out = Vec::new();
        let _ = stream.read_to_end(&mut out);
        let _ = sender.send(out);
    });
    receiver.recv_timeout(Duration::from_secs(seconds)).ok()
}
