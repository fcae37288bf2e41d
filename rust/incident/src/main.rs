//! Shows the incident, for the receive buffer on standard input, and then the evening: the buffers in the files that the
//! words name.

use std::env;
use std::io::{self, Read, Write};

use incident::evening::{self, Buffer};
use incident::{by_crate, by_port, shown::shown};

fn main() -> io::Result<()> {
    let mut text = Vec::new();
    io::stdin().read_to_end(&mut text)?;
    let files = env::args_os().skip(1);
    let buffers = files.map(Buffer::read).collect::<io::Result<Vec<_>>>()?;
    let of_crate = original::AT_HAND.then(|| by_crate(&text, false));
    let told = shown(&text, of_crate.as_ref(), &by_port(&text));
    let evening = evening::shown(&evening::rows(&buffers, original::AT_HAND));
    io::stdout().write_all((told + &evening).as_bytes())
}
