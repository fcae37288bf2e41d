//! Runs of the program, and of its functions with inputs and outputs that fail.

use std::io;
use std::process::{Command, Output};

use ask::{address, run, Why};
use ihex::LoadError;
use programs::tested::{self, little_memory, ran, said, Narrow, Slow};
use programs::Failure;

const TEXT: &[u8] = b":020000021200EA\r\n:02000000004AB4\r\n:00000001FF\r\n";
const DAMAGED: &[u8] = b":0100000011EE\n:00000001FE\n";

#[test]
fn an_address_is_1_to_8_digits() {
    let good = [
        ("0", 0),
        ("00", 0),
        ("5", 5),
        ("12aB", 0x12AB),
        ("0x0", 0),
        ("0x5", 5),
        ("0X5", 5),
        ("FFFFFFFF", u32::MAX),
        ("0xffffffff", u32::MAX),
        ("0000000F", 15),
    ];
    for (word, number) in good {
        assert_eq!(address(word), Some(number), "{word}");
    }
}

#[test]
fn nothing_else_is_an_address() {
    for word in ["", "0x", "x5", "0x0x5", "+5", "-5", "0x+5", " 5", "5 "] {
        assert_eq!(address(word), None, "{word:?}");
    }
    for word in ["5h", "1_0", "G", "5\n", "\u{661}", "\u{FF15}"] {
        assert_eq!(address(word), None, "{word:?}");
    }
    // Nine digits.
    for word in ["000000005", "0x000000005", "100000000"] {
        assert_eq!(address(word), None, "{word:?}");
    }
}

/// What is written of a text at an address, and what it comes to.
fn asked(input: Slow, address: u32) -> (Result<bool, Why>, String) {
    let mut out = vec![];
    let done = run(input, address, &mut out);
    (done, String::from_utf8(out).expect("digits and words"))
}

#[test]
fn a_byte_is_printed_in_two_digits() {
    let said = |address| asked(Slow::new(TEXT, false), address);
    assert_eq!(said(0x12000), (Ok(true), "00\n".into()));
    assert_eq!(said(0x12001), (Ok(true), "4A\n".into()));
    assert_eq!(said(0x12002), (Ok(false), "not stated\n".into()));
}

#[test]
fn an_input_that_fails_or_is_refused_leaves_nothing() {
    let failed = asked(Slow::new(TEXT, true), 0x12000);
    assert_eq!(failed, (Err(Why::Failed(Failure::Read)), String::new()));
    let (done, out) = asked(Slow::new(&TEXT[..20], false), 0x12000);
    assert_eq!(out, "");
    assert_eq!(
        done.map_err(|why| why.of("a b").to_string()),
        Err("a b: line 2: too short".into())
    );
    let (done, out) = asked(Slow::new(b"", false), 0);
    let why = Why::Refused(LoadError::MissingEndOfFileRecord);
    assert_eq!((done, out.as_str()), (Err(why), ""));
    let words = why.of("-").to_string();
    assert_eq!(words, "standard input: text has no end of file record");
}

#[test]
fn an_output_that_fails_is_told() {
    let failed = Err(Why::Failed(Failure::Write));
    for (address, length) in [(0x12001, 3), (0, 11)] {
        for room in [0, 1, length - 1, length + 1] {
            assert_eq!(run(TEXT, address, Narrow { room }), failed);
        }
        let stated = run(TEXT, address, Narrow { room: length });
        assert_eq!(stated, Ok(length == 3));
    }
}

/// What the program says of an input, with these words. `limit` is a line of a shell.
fn program(limit: &str, words: &[&str], input: &[u8]) -> io::Result<Output> {
    let program: Command = tested::program(limit, env!("CARGO_BIN_EXE_ask"), words);
    ran(program, input)
}

#[test]
fn the_program_says_0_1_or_2() -> io::Result<()> {
    said(&program("", &["f", "0x12001"], TEXT)?, 0, "4A\n", "");
    said(&program("", &["f", "0"], TEXT)?, 1, "not stated\n", "");
    let words = "f.hex: line 2: invalid checksum 'FF', expecting 'FE'\n";
    for address in ["0", "5"] {
        said(&program("", &["f.hex", address], DAMAGED)?, 2, "", words);
    }
    let words = "standard input: text has no end of file record\n";
    said(&program("", &["-", "0"], b"")?, 2, "", words);
    let folder = program("exec </", &["f", "0"], b"")?;
    said(&folder, 2, "", "cannot read\n");
    for words in [&[][..], &["f"], &["f", "0", "0"], &["f", "+0"], &["f", ""]] {
        said(
            &program("", words, TEXT)?,
            2,
            "",
            "usage: ask NAME ADDRESS\n",
        );
    }
    Ok(())
}

#[test]
fn the_program_says_when_memory_runs_out() -> io::Result<()> {
    if let Some(limit) = little_memory() {
        let words = ["-", "12001"];
        said(&program(limit, &words, TEXT)?, 0, "4A\n", "");
        let long = [TEXT, &vec![b'\n'; 80 << 20]].concat();
        let run = program(limit, &words, &long)?;
        said(&run, 2, "", "not enough memory for this input\n");
    }
    Ok(())
}
