//! The proved program `replay`, which is given cases and prints answers. It runs the two lent forms, which C
//! cannot call: a reader that holds its text and an object from a lent list.

use std::env;
use std::fs::{self, File, OpenOptions};
use std::io::{self, Read, Seek, Write};
use std::process::{self, Command};
use std::sync::atomic::{AtomicU64, Ordering};

/// What gives answers to cases, a line each.
pub type Program<'a> = dyn Fn(&str) -> io::Result<String> + Sync + 'a;

/// The command that IHEX_REPLAY names, a word a line, if it names one.
pub fn command() -> Option<Vec<String>> {
    let named = env::var("IHEX_REPLAY").ok()?;
    let words: Vec<String> = named.lines().map(String::from).collect();
    Some(words).filter(|words| !words.is_empty())
}

/// An empty file that has lost its name, so that nothing is left of it.
fn nameless() -> io::Result<File> {
    static NEXT: AtomicU64 = AtomicU64::new(0);
    let next = NEXT.fetch_add(1, Ordering::Relaxed);
    let path = env::temp_dir().join(format!("oracle-{}-{next}", process::id()));
    let mut options = OpenOptions::new();
    let file = options
        .read(true)
        .write(true)
        .create_new(true)
        .open(&path)?;
    fs::remove_file(path)?;
    Ok(file)
}

/// What a command prints for an input; after it how it ended, if it failed. Both go through files,
/// which cannot fill up as pipes do.
pub fn run(words: &[String], input: &str) -> io::Result<String> {
    let (mut given, mut printed) = (nameless()?, nameless()?);
    given.write_all(input.as_bytes())?;
    given.rewind()?;
    let status = Command::new(&words[0])
        .args(&words[1..])
        .stdin(given)
        .stdout(printed.try_clone()?)
        .status()?;
    let mut bytes = Vec::new();
    printed.rewind()?;
    printed.read_to_end(&mut bytes)?;
    let mut text = String::from_utf8_lossy(&bytes).into_owned();
    if !status.success() {
        text += &status.to_string();
    }
    Ok(text)
}
