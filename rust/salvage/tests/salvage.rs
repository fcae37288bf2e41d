//! Runs of the program, and of its function with inputs and outputs that fail.

use std::io;
use std::process::Command;

use programs::tested::{self, little_memory, ran, said, Narrow, Slow};
use salvage::{run, Failure};

const CAPTURE: &[u8] =
    b"ready\r\n:020000040001f9\r\n:0100000011EE\r\n\r\n:010000O022DD\r\n:0100000033CC\r\n";
const CLEAN: &str = ":020000040001F9\n:0100000011EE\n:00000001FF\n";
const LIST: &str = "\
line 1: missing start code ':'
line 5, column 8: invalid characters encountered in record
line 6: base unknown after a refused line
end of file record added, the text has none
";

fn slow(fails: bool) -> Slow<'static> {
    Slow::new(CAPTURE, fails)
}

/// The program. `limit` is a line of a shell.
fn program(limit: &str) -> Command {
    tested::program(limit, env!("CARGO_BIN_EXE_salvage"), &[])
}

#[test]
fn a_capture_is_saved() {
    let (mut clean, mut list) = (vec![], vec![]);
    assert_eq!(run(slow(false), &mut clean, &mut list), Ok(true));
    assert_eq!((&clean[..], &list[..]), (CLEAN.as_bytes(), LIST.as_bytes()));
    let (mut again, mut list) = (vec![], vec![]);
    assert_eq!(run(&clean[..], &mut again, &mut list), Ok(false));
    assert_eq!((again, list), (clean, vec![]));
}

#[test]
fn an_input_that_fails_leaves_nothing() {
    let (mut clean, mut list) = (vec![], vec![]);
    assert_eq!(run(slow(true), &mut clean, &mut list), Err(Failure::Read));
    assert_eq!((clean, list), (vec![], vec![]));
}

#[test]
fn outputs_that_fail_are_told() {
    for room in [0, 1, CLEAN.len() - 1, CLEAN.len() + 1] {
        let mut list = vec![];
        let done = run(CAPTURE, Narrow { room }, &mut list);
        assert_eq!((done, list), (Err(Failure::Write), vec![]));
    }
    let done = run(CAPTURE, Narrow { room: CLEAN.len() }, vec![]);
    assert_eq!(done, Ok(true));
    for room in [0, LIST.len() - 1, LIST.len() + 1] {
        let mut clean = vec![];
        let done = run(CAPTURE, &mut clean, Narrow { room });
        assert_eq!((done, &clean[..]), (Err(Failure::Write), CLEAN.as_bytes()));
    }
}

#[test]
fn the_program_says_0_1_or_2() -> io::Result<()> {
    let end = b":00000001FF\n";
    let runs: [(&[u8], i32, &str, &str); 4] = [
        (CAPTURE, 1, CLEAN, LIST),
        (CLEAN.as_bytes(), 0, CLEAN, ""),
        (end, 0, ":00000001FF\n", ""),
        (
            b"",
            1,
            ":00000001FF\n",
            "end of file record added, the text has none\n",
        ),
    ];
    for (input, status, clean, list) in runs {
        said(&ran(program(""), input)?, status, clean, list);
    }
    said(&ran(program("exec </"), b"")?, 2, "", "cannot read\n");
    Ok(())
}

#[test]
fn the_program_says_when_memory_runs_out() -> io::Result<()> {
    if let Some(limit) = little_memory() {
        said(&ran(program(limit), CAPTURE)?, 1, CLEAN, LIST);
        // 40 MB of text: not twice. 8 MB of lines: room for it, and not for its list.
        for input in [vec![b'x'; 40 << 20], b"x\n".repeat(4 << 20)] {
            let done = ran(program(limit), &input)?;
            said(&done, 2, "", "not enough memory for this input\n");
        }
    }
    Ok(())
}
