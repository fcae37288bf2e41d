//! For tests: inputs and outputs that fail, and runs of a built program.

use std::env;
use std::io::{self, ErrorKind, Read, Write};
use std::process::{Command, Output, Stdio};

/// The variable that names the emulator, where programs are not for this machine.
const RUNNER: &str = "CARGO_TARGET_X86_64_UNKNOWN_LINUX_GNU_RUNNER";

/// Gives an input a byte at a time, is broken off before each by a signal, and fails at its end if it is to.
pub struct Slow<'a> {
    rest: &'a [u8],
    broken: bool,
    fails: bool,
}

impl<'a> Slow<'a> {
    pub fn new(input: &'a [u8], fails: bool) -> Self {
        Slow {
            rest: input,
            broken: false,
            fails,
        }
    }
}

impl<'a> Read for Slow<'a> {
    fn read(&mut self, piece: &mut [u8]) -> io::Result<usize> {
        self.broken = !self.broken;
        match self.rest.split_first() {
            _ if self.broken => Err(ErrorKind::Interrupted.into()),
            Some((&byte, rest)) => {
                self.rest = rest;
                piece[0] = byte;
                Ok(1)
            }
            None if self.fails => Err(ErrorKind::Other.into()),
            None => Ok(0),
        }
    }
}

/// Takes so many bytes, and then fails; or takes all, and fails when it is to pass them on.
pub struct Narrow {
    pub room: usize,
}

impl Write for Narrow {
    fn write(&mut self, bytes: &[u8]) -> io::Result<usize> {
        let n = bytes.len().min(self.room).min(7);
        self.room -= n;
        match n {
            0 => Err(ErrorKind::WriteZero.into()),
            _ => Ok(n),
        }
    }

    fn flush(&mut self) -> io::Result<()> {
        match self.room {
            0 => Ok(()),
            _ => Err(ErrorKind::Other.into()),
        }
    }
}

/// The line of a shell that leaves a program little memory. There is none where an emulator runs the programs, which needs
/// more.
pub fn little_memory() -> Option<&'static str> {
    env::var_os(RUNNER).is_none().then_some("ulimit -v 65536")
}

/// The program of this path with these words, run by an emulator where it is not for this machine. `limit` is a line of
/// a shell.
pub fn program(limit: &str, path: &str, words: &[&str]) -> Command {
    let mut command = Command::new("sh");
    command.args(["-c", &format!("{limit}\nexec \"$@\""), "sh"]);
    command.args(env::var(RUNNER)).arg(path).args(words);
    command
}

/// What the program says of an input.
pub fn ran(mut program: Command, input: &[u8]) -> io::Result<Output> {
    let pipes = program.stdin(Stdio::piped()).stdout(Stdio::piped());
    let mut child = pipes.stderr(Stdio::piped()).spawn()?;
    let mut stdin = child.stdin.take().expect("a pipe");
    // The program may end before it has taken all.
    let sent = stdin.write_all(input);
    drop(stdin);
    match sent {
        Err(why) if why.kind() != ErrorKind::BrokenPipe => Err(why),
        _ => child.wait_with_output(),
    }
}

/// A run ended with this status, and wrote just this to standard output and standard error.
pub fn said(run: &Output, status: i32, out: &str, err: &str) {
    assert_eq!(run.status.code(), Some(status));
    assert_eq!(
        (&run.stdout[..], &run.stderr[..]),
        (out.as_bytes(), err.as_bytes())
    );
}
