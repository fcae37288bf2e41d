//! `ask NAME ADDRESS` prints the byte that the text on standard input states at an address, or `not stated`. NAME is
//! that of the text, for what is said of a refusal. The exit status is 0 if a byte was printed, 1 if none is stated, and
//! 2 if the text is refused, or it failed.

use std::env;
use std::io;
use std::process::exit;

const USAGE: &str = "usage: ask NAME ADDRESS";
/// The exit status where no byte is stated.
const NOT_STATED: i32 = 1;

fn main() {
    let words = env::args_os().skip(1);
    let words: Vec<String> = words.map(|word| word.to_string_lossy().into()).collect();
    let (name, address) = match &words[..] {
        [name, word] => (name, ask::address(word)),
        _ => exit(programs::failed(USAGE)),
    };
    let address = address.unwrap_or_else(|| exit(programs::failed(USAGE)));
    let done = ask::run(io::stdin().lock(), address, io::stdout().lock());
    exit(match done {
        Ok(true) => 0,
        Ok(false) => NOT_STATED,
        Err(why) => programs::failed(why.of(name)),
    })
}
