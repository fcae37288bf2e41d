//! Runs of the program, and of its functions with inputs, outputs and files that fail.

use std::ffi::OsString;
use std::fs;
use std::io::{self, Read};
use std::path::{Path, PathBuf};

use gateway::{midnight, run, Words};
use ihex::TextKind;
use programs::tested::{self, ran, said, Narrow, Slow};

const DUMP: &[u8] = b":020000042000DA\n:02011E000005DA\n:00000001FF\n";
const SECOND: &[u8] = b":020000042000DA\r\n:02011E000006D9\r\n:00000001FF\r\n";
const FILE_OF_SECOND: &[u8] = b":020000042000DA\n:02011E000006D9\n:00000001FF\n";
const SAID: &str = "dump 1: first, count 5, 1 data record\ndump 2: green, count 6, 1 data record\n";
const OLD: &[u8] = b"old\n";

/// A new folder for a test of this name, with the midnight file of an earlier run. It returns the name of that file.
fn folder(name: &str) -> io::Result<PathBuf> {
    let folder = Path::new(env!("CARGO_TARGET_TMPDIR")).join(name);
    fs::remove_dir_all(&folder).unwrap_or(());
    fs::create_dir_all(&folder)?;
    let file = folder.join("midnight.hex");
    fs::write(&file, OLD)?;
    Ok(file)
}

fn words(text: &str) -> Option<Words> {
    let words: Vec<OsString> = text.split(' ').map(OsString::from).collect();
    Words::of(&words)
}

fn for_file(file: &Path, every: usize) -> Words {
    Words {
        known: true,
        pauses: None,
        kind: TextKind::IntelHex,
        first: 0x2000_0100,
        length: 36,
        high: 30,
        low: 31,
        file: file.into(),
        every,
    }
}

/// The status of a run, and what is written to its outputs.
fn heard(words: &Words, input: impl Read) -> (i32, String, String) {
    let (mut out, mut err) = (vec![], vec![]);
    let status = run(words, input, &mut out, &mut err);
    let text = |bytes| String::from_utf8(bytes).expect("words");
    (status, text(out), text(err))
}

#[test]
fn words_say_what_is_asked() {
    let plain = words("hex 20000100 36 30 31 f 60").expect("the usage");
    assert_eq!(
        plain,
        Words {
            known: false,
            ..for_file(Path::new("f"), 60)
        }
    );
    let all = words("--pauses 3 --known srecords 0xffffffff 0 000 1 --known 999999999");
    let all = all.expect("the usage");
    assert_eq!((all.known, all.pauses), (true, Some(3)));
    assert_eq!((all.kind, all.first), (TextKind::SRecords, u32::MAX));
    assert_eq!((all.length, all.high, all.low), (0, 0, 1));
    assert_eq!((all.file, all.every), ("--known".into(), 999_999_999));
}

#[test]
fn nothing_else_is_a_usage() {
    let wrong = [
        "",
        "hex",
        "hex 0 36 30 31 f",
        "hex 0 36 30 31 f 60 1",
        "ihex 0 36 30 31 f 60",
        "Hex 0 36 30 31 f 60",
        "hex 100000000 36 30 31 f 60",
        "hex +1 36 30 31 f 60",
        "hex 0 +36 30 31 f 60",
        "hex 0 0x36 30 31 f 60",
        "hex 0 36 -1 31 f 60",
        "hex 0 36 30 1000000000 f 60",
        "hex 0 36 30 \u{661} f 60",
        "hex 0 36 30 31  60",
        "hex 0 36 30 31 f 0",
        "--none hex 0 36 30 31 f 60",
        "--pauses hex 0 36 30 31 f 60",
        "--pauses 0 hex 0 36 30 31 f 60",
        "hex 0 36 30 31 f 60 --known",
    ];
    for text in wrong {
        assert_eq!(words(text), None, "{text}");
    }
}

#[test]
fn each_dump_is_shown_and_kept() -> io::Result<()> {
    let file = folder("each")?;
    let text = [DUMP, SECOND].concat();
    for every in [1, 2, 3] {
        let run = heard(&for_file(&file, every), Slow::new(&text, false));
        assert_eq!(run, (0, SAID.into(), String::new()));
        assert_eq!(fs::read(&file)?, FILE_OF_SECOND);
    }
    let joins = Words {
        known: false,
        ..for_file(&file, 1)
    };
    let run = heard(&joins, &text[20..]);
    let out = "dump 1: first, count 6, 1 data record\n";
    assert_eq!(run, (0, out.into(), String::new()));
    Ok(())
}

/// Gives its texts, with a read of nothing after each.
struct Halting<'a> {
    texts: &'a [&'a [u8]],
    silent: bool,
}

impl<'a> Read for Halting<'a> {
    fn read(&mut self, piece: &mut [u8]) -> io::Result<usize> {
        self.silent = !self.silent;
        match self.texts.split_first() {
            Some((&(mut text), rest)) if !self.silent => {
                self.texts = rest;
                text.read(piece)
            }
            _ => Ok(0),
        }
    }
}

#[test]
fn a_read_of_nothing_is_the_end_or_a_pause() -> io::Result<()> {
    let words = for_file(&folder("pauses")?, 9);
    let texts: [&[u8]; 3] = [b"x\n", DUMP, &SECOND[..20]];
    let halting = || Halting {
        texts: &texts,
        silent: true,
    };
    let first = "dump 1: broken, line 1: missing start code ':'\n";
    assert_eq!(heard(&words, halting()), (1, first.into(), String::new()));
    let all = format!(
        "{first}dump 2: first, count 5, 1 data record\ndump 3: broken, line 2: too short\n"
    );
    for pauses in [2, 3, 1000] {
        let pauses = Some(pauses);
        let words = Words {
            pauses,
            ..words.clone()
        };
        assert_eq!(heard(&words, halting()), (1, all.clone(), String::new()));
    }
    Ok(())
}

#[test]
fn an_input_that_fails_keeps_what_was_accepted() -> io::Result<()> {
    let file = folder("input")?;
    let words = for_file(&file, 9);
    let failed = |text, out: &str| {
        let run = heard(&words, Slow::new(text, true));
        assert_eq!(run, (2, out.into(), "cannot read\n".into()));
    };
    failed(&DUMP[..40], "");
    assert_eq!(fs::read(&file)?, OLD);
    failed(DUMP, "dump 1: first, count 5, 1 data record\n");
    assert_eq!(fs::read(&file)?, DUMP);
    Ok(())
}

#[test]
fn an_output_that_fails_is_told() -> io::Result<()> {
    let words = for_file(&folder("output")?, 9);
    let line = SAID.lines().next().map_or(0, str::len) + 1;
    for (room, status, told) in [
        (0, 2, "cannot write\n"),
        (line - 1, 2, "cannot write\n"),
        (line + 1, 2, "cannot write\n"),
        (line, 0, ""),
    ] {
        let mut err = vec![];
        assert_eq!(run(&words, DUMP, Narrow { room }, &mut err), status);
        assert_eq!(err, told.as_bytes());
    }
    Ok(())
}

#[test]
fn a_file_that_cannot_be_written_is_told_and_listening_goes_on() -> io::Result<()> {
    let file = folder("file")?;
    let new = file.with_file_name("midnight.hex.new");
    fs::create_dir(&new)?;
    let text = [DUMP, b"x\n", DUMP, SECOND].concat();
    let (status, out, err) = heard(&for_file(&file, 1), &text[..]);
    assert_eq!((status, out.lines().count()), (2, 3));
    let words = format!("cannot write {}: ", file.display());
    // After each of the two accepted dumps, and at the end.
    assert_eq!(
        err.lines().filter(|line| line.starts_with(&words)).count(),
        3
    );
    assert_eq!(err.lines().count(), 3);
    assert_eq!(fs::read(&file)?, OLD);
    // The exit status is the same if nothing can be said.
    let status = run(&for_file(&file, 1), DUMP, io::sink(), Narrow { room: 0 });
    assert_eq!(status, 2);
    Ok(())
}

#[test]
fn a_file_is_replaced_whole() -> io::Result<()> {
    let file = folder("replaced")?;
    let new = file.with_file_name("midnight.hex.new");
    let mut old = fs::File::open(&file)?;
    fs::write(&new, "left by an earlier run")?;
    midnight::replace(&file, b"new\n")?;
    assert_eq!(fs::read(&file)?, b"new\n");
    assert!(!new.exists());
    let mut kept = vec![];
    old.read_to_end(&mut kept)?;
    assert_eq!(kept, OLD);
    // What is not a file is not replaced.
    let folder = file.with_file_name("folder");
    fs::create_dir(&folder)?;
    for path in [
        folder,
        file.join("beyond"),
        file.with_file_name("none/file"),
    ] {
        assert!(midnight::replace(&path, b"new\n").is_err(), "{path:?}");
    }
    fs::remove_file(&file)?;
    midnight::replace(&file, b"")?;
    assert_eq!(fs::read(&file)?, b"");
    Ok(())
}

#[test]
fn the_program_says_0_1_or_2() -> io::Result<()> {
    let file = folder("program")?;
    let file = file.to_str().expect("a name in UTF-8");
    let program = |words: &[&str], input: &[u8]| {
        let path = env!("CARGO_BIN_EXE_gateway");
        ran(tested::program("", path, words), input)
    };
    let right = ["--known", "hex", "20000100", "36", "30", "31", file, "1"];
    said(&program(&right, &[DUMP, SECOND].concat())?, 0, SAID, "");
    let broken = "dump 1: broken, line 2, column 4: invalid characters encountered in record\n";
    said(
        &program(&right, b"\n\n:00000001\r\n:00x\n")?,
        1,
        "dump 1: broken, line 1: too short\n",
        "",
    );
    said(&program(&right, b":020000042000DA\n:02 \n")?, 1, broken, "");
    said(&program(&right[1..], b"x\n")?, 0, "", "");
    let usage = "usage: gateway [--known] [--pauses N] KIND FIRST LENGTH HIGH LOW FILE EVERY\n";
    said(&program(&right[2..], b"")?, 2, "", usage);
    let mut refused = right;
    refused[3] = "65537";
    let words = "page and marks do not fit the window\n";
    said(&program(&refused, DUMP)?, 2, "", words);
    refused[3] = "31";
    let words = "place 31 of the low byte lies outside the page of length 31\n";
    said(&program(&refused, DUMP)?, 2, "", words);
    Ok(())
}
