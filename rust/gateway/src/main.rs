//! `gateway [--known] [--pauses N] KIND FIRST LENGTH HIGH LOW FILE EVERY` listens to the line on standard input. The exit
//! status is 0 if every dump was accepted, 1 if one was refused, and 2 if it failed.

use std::env;
use std::ffi::OsString;
use std::io;
use std::process::exit;

use gateway::Words;

const USAGE: &str = "usage: gateway [--known] [--pauses N] KIND FIRST LENGTH HIGH LOW FILE EVERY";

fn main() {
    let words: Vec<OsString> = env::args_os().skip(1).collect();
    let words = Words::of(&words).unwrap_or_else(|| exit(programs::failed(USAGE)));
    let (input, out) = (io::stdin().lock(), io::stdout().lock());
    exit(gateway::run(&words, input, out, io::stderr()))
}
