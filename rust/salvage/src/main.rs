//! Saves what can be saved of the capture on standard input. The clean file goes to standard output, and the list to
//! standard error. The exit status is 0 if nothing was dropped, 1 if something was, and 2 if it failed.

use std::io::{self, BufWriter};
use std::process::exit;

fn main() {
    let list = BufWriter::new(io::stderr());
    let done = salvage::run(io::stdin().lock(), io::stdout().lock(), list);
    exit(done.map_or_else(programs::failed, i32::from))
}
