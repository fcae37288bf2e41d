//! Dump after dump from a reader: each as soon as it is decided, with the rest kept, and what a read of nothing means.

use std::collections::VecDeque;
use std::io::{self, ErrorKind, Read};

use ihex::{marks_len, Decided, Dumps, Fed, Intake, LoadError, Loaded, Paused, TextKind};

const FIRST: u32 = 0x100;
const PLACES: usize = 4;

/// A dump of one byte at the first place.
const ONE: &str = ":0101000041BD\n:00000001FF\n";
/// A dump of one byte at each of the next two places.
const TWO: &str = ":0101010042BB\r\n:0101020043B9\r\n:00000001FF\r\n";

type Load = Result<Loaded, LoadError>;

/// What a read comes to: a piece of text, which may be empty, or an error.
type Piece = Result<Vec<u8>, ErrorKind>;

/// A source of pieces, one for each read. After the last one nothing is read.
struct Source {
    pieces: VecDeque<Piece>,
    reads: usize,
}

impl Source {
    fn new(pieces: impl IntoIterator<Item = Piece>) -> Self {
        Source {
            pieces: pieces.into_iter().collect(),
            reads: 0,
        }
    }

    fn of(pieces: &[&str]) -> Self {
        Source::new(pieces.iter().map(|piece| Ok(piece.as_bytes().to_vec())))
    }
}

impl Read for Source {
    fn read(&mut self, buffer: &mut [u8]) -> io::Result<usize> {
        self.reads += 1;
        let mut piece = match self.pieces.pop_front() {
            None => return Ok(0),
            Some(Err(kind)) => return Err(kind.into()),
            Some(Ok(piece)) => piece,
        };
        let rest = piece.split_off(piece.len().min(buffer.len()));
        if !rest.is_empty() {
            self.pieces.push_front(Ok(rest));
        }
        buffer[..piece.len()].copy_from_slice(&piece);
        Ok(piece.len())
    }
}

fn intake() -> Intake {
    Intake::new(TextKind::IntelHex, FIRST, PLACES).unwrap()
}

/// What each dump comes to, up to the end of the input, and what the page and its marks hold then.
fn all<R: Read>(mut dumps: Dumps<R>) -> (Vec<Load>, Vec<u8>, Vec<u8>) {
    let (mut page, mut marks) = (vec![0xEE; PLACES], vec![0; marks_len(PLACES)]);
    let mut loads = Vec::new();
    while let Some(dump) = dumps.next_dump().unwrap() {
        loads.push(dump.commit(&mut page, &mut marks));
    }
    (loads, page, marks)
}

/// How many data records each dump has, or the number of its refusal.
fn brief(loads: &[Load]) -> Vec<Result<usize, u32>> {
    let told = |load: &Load| load.map(|loaded| loaded.data_records);
    loads
        .iter()
        .map(|load| told(load).map_err(|why| why.number()))
        .collect()
}

/// The numbers of the dumps in these pieces, where so many pauses in a row end the input.
fn paused(pieces: &[&str], pauses: usize) -> Vec<Result<usize, u32>> {
    let dumps = Dumps::new(intake(), Source::of(pieces)).with_pauses(pauses);
    brief(&all(dumps).0)
}

/// The same by hand: an intake that is fed the whole text, and then a pause.
fn by_hand(text: &[u8]) -> (Vec<Load>, Vec<u8>, Vec<u8>) {
    let (mut page, mut marks) = (vec![0xEE; PLACES], vec![0; marks_len(PLACES)]);
    let (mut intake, mut rest, mut loads) = (intake(), text, Vec::new());
    while !rest.is_empty() {
        let step = intake.feed(rest);
        rest = &rest[step.used..];
        match step.fed {
            Fed::Ready(ready) => loads.push(ready.commit(&mut page, &mut marks)),
            Fed::Refused(why) => loads.push(Err(why)),
            Fed::WantsMore | Fed::Passed => {}
        }
    }
    match intake.pause() {
        Paused::Ready(ready) => loads.push(ready.commit(&mut page, &mut marks)),
        Paused::Refused(why) => loads.push(Err(why)),
        Paused::Quiet => {}
    }
    (loads, page, marks)
}

/// Dumps with noise between them, of over 4,096 bytes in all.
fn stream() -> String {
    let blank = "\r\n".repeat(2_000);
    let garbage = "garbage\n";
    let last = ":0101030044B7\n";
    [
        ONE, TWO, &blank, ONE, garbage, TWO, "\n", TWO, garbage, ONE, ONE, last,
    ]
    .concat()
}

#[test]
fn pieces_of_any_size_come_to_the_same_dumps() {
    let text = stream();
    let should = by_hand(text.as_bytes());
    let numbers = [Ok(1), Ok(2), Ok(1), Err(1), Ok(2), Err(1), Ok(1), Err(13)];
    assert_eq!(brief(&should.0), numbers);
    for size in [1, 2, 3, 7, 64, 4_095, 4_096, 4_097, 10_000] {
        let pieces = text.as_bytes().chunks(size).map(|piece| Ok(piece.to_vec()));
        let dumps = Dumps::new(intake(), Source::new(pieces));
        assert_eq!(all(dumps), should, "{size}");
    }
    assert_eq!(all(Dumps::new(intake(), text.as_bytes())), should);
}

#[test]
fn a_dump_is_given_before_the_next_read() {
    let second = [TWO, ONE, ":0101"].concat();
    // So many reads there are when so many dumps are given.
    for (given, reads) in [(0, 0), (1, 1), (2, 2), (3, 2), (4, 4)] {
        let mut source = Source::of(&[ONE, &second, "000041BD\n:00000001FF", "\n", ONE]);
        let mut dumps = Dumps::new(intake(), &mut source);
        for _ in 0..given {
            assert!(matches!(dumps.next_dump(), Ok(Some(Decided::Ready(_)))));
        }
        assert_eq!(source.reads, reads, "{given}");
    }
}

#[test]
fn the_end_decides_the_dump_that_is_begun() {
    let ends = |text: &str| brief(&all(Dumps::new(intake(), text.as_bytes())).0);
    assert_eq!(ends(""), []);
    assert_eq!(ends("\r\n\n"), []);
    assert_eq!(ends(ONE.trim_end()), [Ok(1)]);
    assert_eq!(ends(&[ONE, ":0101000041BD"].concat()), [Ok(1), Err(13)]);
    assert_eq!(ends(&[ONE, ":0101000041"].concat()), [Ok(1), Err(6)]);
    // What is skipped is no dump.
    assert_eq!(ends("x\n:0101000041"), [Err(1)]);
}

#[test]
fn nothing_is_read_after_the_end() {
    for (pauses, reads) in [(0, 2), (1, 2), (2, 3), (3, 7)] {
        let mut source = Source::of(&[ONE, "", "", "\n", "", "", "", TWO]);
        let mut dumps = Dumps::new(intake(), &mut source).with_pauses(pauses);
        assert!(dumps.next_dump().unwrap().is_some());
        for _ in 0..3 {
            assert!(dumps.next_dump().unwrap().is_none());
        }
        assert_eq!(source.reads, reads, "{pauses}");
    }
}

#[test]
fn a_pause_is_a_known_beginning_and_so_many_in_a_row_end_the_input() {
    // In the middle of a dump, and before a whole one.
    let broken = [":0101000041BD\n", "", ONE, "", "", ONE];
    assert_eq!(paused(&broken, 1), [Err(13)]);
    assert_eq!(paused(&broken, 2), [Err(13), Ok(1)]);
    assert_eq!(paused(&broken, 3), [Err(13), Ok(1), Ok(1)]);
    // After a refusal nothing is skipped.
    assert_eq!(paused(&["x\n", "", ONE], 2), [Err(1), Ok(1)]);
    assert_eq!(paused(&["x\n", ONE], 2), [Err(1)]);
    // What comes between two pauses begins the row anew.
    let apart = ["", "", "\n", "", "", ONE];
    assert_eq!(paused(&apart, 3), [Ok(1)]);
    assert_eq!(paused(&apart, 2), []);
    // Between a CR and its LF: the line has a CR then, which is not a digit.
    let cut = [":00000001FF\r", "", "\n", ONE];
    assert_eq!(paused(&cut, 2), [Err(2), Ok(1)]);
    // The pause that ends the input decides too.
    assert_eq!(paused(&["", ONE.trim_end(), "", "", ONE], 2), [Ok(1)]);
}

#[test]
fn an_error_is_returned_and_loses_nothing() {
    let (one, other) = ONE.split_at(9);
    let text = |piece: &str| Ok(piece.as_bytes().to_vec());
    let pieces = [
        Err(ErrorKind::Interrupted),
        text(one),
        Err(ErrorKind::WouldBlock),
        Err(ErrorKind::Interrupted),
        Err(ErrorKind::Interrupted),
        text(other),
        Err(ErrorKind::TimedOut),
        text(""),
        Err(ErrorKind::Other),
        text(TWO),
    ];
    let mut dumps = Dumps::new(intake(), Source::new(pieces)).with_pauses(2);
    let kind = |dumps: &mut Dumps<Source>| dumps.next_dump().err().map(|why| why.kind());
    assert_eq!(kind(&mut dumps), Some(ErrorKind::WouldBlock));
    assert!(matches!(dumps.next_dump(), Ok(Some(Decided::Ready(_)))));
    assert_eq!(kind(&mut dumps), Some(ErrorKind::TimedOut));
    assert_eq!(kind(&mut dumps), Some(ErrorKind::Other));
    match dumps.next_dump() {
        Ok(Some(Decided::Ready(ready))) => assert_eq!(ready.loaded().data_records, 2),
        other => panic!("{other:?}"),
    };
    assert!(matches!(dumps.next_dump(), Ok(None)));
}

/// A source that says it has read more than there was room for.
struct Boaster(usize);

impl Read for Boaster {
    fn read(&mut self, buffer: &mut [u8]) -> io::Result<usize> {
        buffer.fill(b'\n');
        self.0 = self.0.saturating_sub(1);
        Ok(if self.0 > 0 { usize::MAX } else { 0 })
    }
}

#[test]
fn a_source_that_says_too_much_does_no_harm() {
    let mut dumps = Dumps::new(intake(), Boaster(5));
    assert!(matches!(dumps.next_dump(), Ok(None)));
}

#[test]
fn a_refused_dump_leaves_the_page() {
    let text = [ONE, ":0101000099\n", ":00000001FF\n", TWO].concat();
    let (loads, page, marks) = all(Dumps::new(intake(), text.as_bytes()));
    assert_eq!(brief(&loads), [Ok(1), Err(6), Ok(2)]);
    assert_eq!((page, marks), (vec![0x41, 0x42, 0x43, 0xEE], vec![0b0110]));
    // One that is not committed leaves it too.
    let mut dumps = Dumps::new(intake(), text.as_bytes());
    let mut seen = 0;
    while let Some(dump) = dumps.next_dump().unwrap() {
        drop(dump);
        seen += 1;
    }
    assert_eq!(seen, 3);
}
