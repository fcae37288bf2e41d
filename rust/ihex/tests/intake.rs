//! A load that is fed: wherever the chunks are cut, it comes to what `load` makes of the text, and the next text begins
//! where this one ended.

use std::collections::BTreeSet;

use ihex::srec::{load_srecords, SRecord, SType};
use ihex::{
    load, marks_len, Color, Fed, Intake, Light, LoadError, Loaded, Paused, Record, TextKind,
};

use TextKind::{IntelHex, SRecords};

const FIRST: u32 = 0x100;
const PLACES: usize = 9;
const KINDS: [TextKind; 2] = [IntelHex, SRecords];

/// Texts of Intel HEX that are accepted.
const ACCEPTED: [&str; 9] = [
    ":00000001FF\n",
    ":0101000041BD\n:00000001FF\n",
    ":0201000041427A\r\n:0101010043BA\r\n:00000001ff\r\n",
    ":020000020010EC\n:02000000AABB99\n:00000001FF\n",
    ":02000004FFFFFC\n:020000040000FA\n:0101080044B2\n:00000001FF\n",
    ":0400000310000000E9\n:0400000310000000E9\n:00000001FF\n",
    ":0400000500010000F6\n\n\r\n:0101000041BD\n:00000001FF\n",
    ":0101000041BD\n:00000001FF",
    ":00010000FF\n:00000001FF\nwhat follows\n",
];

/// Texts of Intel HEX that are refused, in the order of their refusals' numbers.
const REFUSED: [&str; 14] = [
    "x\n:00000001FF\n",
    ":0101000041BD\n:0000000g\r\n",
    ":0101000041BD\r\n:00\r\n",
    ":000000010FF\n",
    ":0101000041BD\n\n:00000001FE\n:00000001FF\n",
    ":02000000AA54\n",
    ":00000006FA\n",
    ":0100000100FE\n",
    ":0101000041BD\n",
    ":0101000041BD",
    ":0101000041BD\n:0109000041B5\n:00000001FF\n",
    ":0400000310000000E9\n:0400000500010000F6\n:00000001FF\n",
    ":00000001FF\r",
    "\r\r\n",
];

/// Texts of S-records, accepted and refused.
const S_TEXTS: [&str; 17] = [
    "S9030000FC\n",
    "S104010041B9\nS9030000FC\n",
    "S0030000FC\r\nS20500010141B7\r\nS3060000010841AF\r\nS5030002FA\r\nS705000001F207\r\nS1\r\n",
    "S104010041B9\n\nS8040001F208\n",
    "S104010041B9\nS9030000FC",
    "x\n",
    "S104010041B9\nS1g\n",
    "S\n",
    "S103\n",
    "S104010041B9\nS9030000F\n",
    "S104010041B9\n\r\nS9030000FD\n",
    "S1050000FA\n",
    "S4030000FC\n",
    "S904000000FB\n",
    "S104010041B9\n",
    "S104010041B9\nS104010941B0\nS9030000FC\n",
    "S104010041B9\nS5030002FA\nS9030000FC\n",
];

/// A line that is longer than the carry, with a character that is not a digit near its end.
fn long(kind: TextKind, digits: usize) -> String {
    let first = match kind {
        IntelHex => ":",
        SRecords => "S1",
    };
    format!("{first}{}\n", "0".repeat(digits))
}

/// Every text of a kind.
fn texts(kind: TextKind) -> Vec<String> {
    let mut texts: Vec<String> = match kind {
        IntelHex => ACCEPTED
            .iter()
            .chain(&REFUSED)
            .map(ToString::to_string)
            .collect(),
        SRecords => S_TEXTS.iter().map(ToString::to_string).collect(),
    };
    texts.push(long(kind, 522));
    texts.push(long(kind, 530).replace("0\n", "g\n"));
    texts
}

/// A page with its marks.
#[derive(Clone, PartialEq, Debug)]
struct Panel {
    page: Vec<u8>,
    marks: Vec<u8>,
}

impl Panel {
    fn new() -> Self {
        Panel {
            page: vec![0xEE; PLACES],
            marks: vec![0xEE; marks_len(PLACES)],
        }
    }

    fn load(&mut self, kind: TextKind, text: &[u8]) -> Result<Loaded, LoadError> {
        match kind {
            IntelHex => load(text, FIRST, &mut self.page, &mut self.marks),
            SRecords => load_srecords(text, FIRST, &mut self.page, &mut self.marks),
        }
    }
}

fn intake(kind: TextKind) -> Intake {
    Intake::new(kind, FIRST, PLACES).unwrap()
}

/// What an intake says, each with how many bytes had been used then.
#[derive(Clone, PartialEq, Debug)]
enum Said {
    Decided(Result<Loaded, LoadError>),
    Passed,
}

/// What an intake says of the bytes that it is fed, and to which page its dumps are committed.
struct Heard {
    said: Vec<(usize, Said)>,
    used: usize,
    panel: Panel,
}

impl Heard {
    fn new() -> Self {
        Heard {
            said: Vec::new(),
            used: 0,
            panel: Panel::new(),
        }
    }

    fn note(&mut self, said: Said) {
        self.said.push((self.used, said));
    }

    /// Feeds a chunk to its end.
    fn feed(&mut self, intake: &mut Intake, mut chunk: &[u8]) {
        while !chunk.is_empty() {
            let step = intake.feed(chunk);
            assert!((1..=chunk.len()).contains(&step.used));
            self.used += step.used;
            let rest = &chunk[step.used..];
            match step.fed {
                Fed::WantsMore => assert!(rest.is_empty()),
                Fed::Passed => self.note(Said::Passed),
                Fed::Refused(why) => self.note(Said::Decided(Err(why))),
                Fed::Ready(ready) => {
                    let loaded = ready.loaded();
                    let Panel { page, marks } = &mut self.panel;
                    assert_eq!(ready.commit(page, marks), Ok(loaded));
                    self.note(Said::Decided(Ok(loaded)));
                }
            }
            chunk = rest;
        }
    }

    /// Pauses, and says whether there was a dump to end.
    fn pause(&mut self, intake: &mut Intake) -> bool {
        match intake.pause() {
            Paused::Quiet => return false,
            Paused::Refused(why) => self.note(Said::Decided(Err(why))),
            Paused::Ready(ready) => {
                let Panel { page, marks } = &mut self.panel;
                let committed = ready.commit(page, marks);
                self.note(Said::Decided(committed));
            }
        }
        true
    }
}

/// What a new intake says of chunks, and of the pause after them.
fn heard<'a>(kind: TextKind, chunks: impl IntoIterator<Item = &'a [u8]>) -> Heard {
    let (mut intake, mut heard) = (intake(kind), Heard::new());
    for chunk in chunks {
        heard.feed(&mut intake, chunk);
    }
    heard.pause(&mut intake);
    heard
}

/// Whether a line is an end record.
fn ends(kind: TextKind, line: &[u8]) -> bool {
    let line = line.strip_suffix(b"\n").unwrap_or(line);
    let line = line.strip_suffix(b"\r").unwrap_or(line);
    match kind {
        IntelHex => Record::from_record_bytes(line) == Ok(Record::EndOfFile),
        SRecords => SRecord::from_record_bytes(line).map_or(false, |record| {
            matches!(record.kind, SType::S7 | SType::S8 | SType::S9)
        }),
    }
}

/// How many bytes of a text come through the LF of the line that decides it. It is the whole text if no LF does.
fn through(kind: TextKind, text: &[u8], load: &Result<Loaded, LoadError>) -> usize {
    let lines = || text.split_inclusive(|&byte| byte == b'\n');
    let last = match load {
        Ok(_) => lines().position(|line| ends(kind, line)).map(|n| n + 1),
        Err(why) => why.line(),
    };
    let length = |n| lines().take(n).map(<[u8]>::len).sum();
    last.map_or(text.len(), length)
}

/// Holds what is heard of a text that is fed alone to what `load` makes of it.
fn check_first(kind: TextKind, text: &[u8], heard: &Heard) {
    let mut panel = Panel::new();
    let load = panel.load(kind, text);
    let used = through(kind, text, &load);
    let first = heard.said.first();
    assert_eq!(first, Some(&(used, Said::Decided(load))), "{kind:?}");
    if heard.said.len() == 1 {
        assert_eq!(heard.panel, panel);
    }
}

#[test]
fn every_cut_in_two_comes_to_the_load() {
    let (mut numbers, mut accepted) = (BTreeSet::new(), 0);
    for kind in KINDS {
        for text in texts(kind) {
            let text = text.as_bytes();
            for cut in 0..=text.len() {
                let (one, other) = text.split_at(cut);
                check_first(kind, text, &heard(kind, [one, other]));
            }
            let load = Panel::new().load(kind, text);
            numbers.insert(load.map_or_else(|why| why.number(), |_| 0));
            accepted += usize::from(load.is_ok());
        }
    }
    let all = [0, 1, 2, 3, 4, 5, 6, 7, 8, 9, 13, 17, 20, 21];
    assert_eq!(numbers, all.into_iter().collect());
    assert_eq!(accepted, ACCEPTED.len() + 5);
}

#[test]
fn chunks_of_any_size_come_to_the_load() {
    for kind in KINDS {
        for text in texts(kind) {
            for size in [1, 2, 3, 5, 7, 64] {
                let text = text.as_bytes();
                let with_empty = text.chunks(size).flat_map(|chunk| [&[][..], chunk, &[]]);
                check_first(kind, text, &heard(kind, with_empty));
                check_first(kind, text, &heard(kind, text.chunks(size)));
            }
        }
    }
}

/// One intake takes every two texts after each other, with a pause between them: what it staged for the one does not
/// matter for the other.
#[test]
fn what_was_staged_before_does_not_matter() {
    for kind in KINDS {
        let texts = texts(kind);
        let mut intake = intake(kind);
        for one in &texts {
            for other in &texts {
                let mut before = Heard::new();
                before.feed(&mut intake, one.as_bytes());
                before.pause(&mut intake);
                let mut heard = Heard::new();
                heard.feed(&mut intake, other.as_bytes());
                heard.pause(&mut intake);
                check_first(kind, other.as_bytes(), &heard);
            }
        }
    }
}

/// What is said of a text of Intel HEX that is fed whole, byte by byte, and cut in two everywhere: it is the same.
fn said(text: &str) -> Vec<(usize, Said)> {
    let text = text.as_bytes();
    let whole = heard(IntelHex, [text]);
    assert_eq!(heard(IntelHex, text.chunks(1)).said, whole.said);
    for cut in 0..=text.len() {
        let (one, other) = text.split_at(cut);
        let heard = heard(IntelHex, [one, other]);
        assert_eq!((&heard.said, &heard.panel), (&whole.said, &whole.panel));
    }
    whole.said
}

/// The numbers of what is said: 0 for a dump that is accepted, the refusal's number, or "passed".
fn brief(text: &str) -> Vec<String> {
    let word = |(_, said)| match said {
        Said::Passed => "passed".to_string(),
        Said::Decided(Ok(Loaded { data_records, .. })) => format!("{data_records} records"),
        Said::Decided(Err(why)) => format!("{} at {:?}", why.number(), why.line()),
    };
    said(text).into_iter().map(word).collect()
}

const END: &str = ":00000001FF\n";
const BYTE: &str = ":0101000041BD\n";

#[test]
fn everything_is_skipped_through_the_next_end_record() {
    let refused = "1 at Some(1)";
    assert_eq!(brief(&["x\n", END].concat()), [refused, "passed"]);
    assert_eq!(brief(&["x\n", BYTE, END].concat()), [refused, "passed"]);
    let good_after = ["x\n", END, BYTE, END].concat();
    assert_eq!(brief(&good_after), [refused, "passed", "1 records"]);
    let with_base = ["x\n", ":020000040000FA\n", BYTE, END].concat();
    assert_eq!(brief(&with_base), [refused, "passed"]);
    // The end record of the first dump is damaged. The second dump is skipped, and the third is ready.
    let damaged = [BYTE, ":00000001FE\n", BYTE, END, BYTE, BYTE, END].concat();
    let should = ["6 at Some(2)", "passed", "2 records"];
    assert_eq!(brief(&damaged), should);
}

#[test]
fn what_is_skipped_is_judged_by_its_end_record_alone() {
    // Starts that differ, bytes outside the window, lines that are not records, an end record in small letters.
    let skipped = [
        "x\n",
        ":0400000310000000E9\n:0400000500010000F6\n",
        ":0109000041B5\n",
        "y\r\n\r\r\n",
        &long(IntelHex, 600),
        ":00000001FF\r\r\n:00000001FE\n",
        ":00000001ff\r\n",
    ]
    .concat();
    let text = [&skipped, BYTE, END].concat();
    let said = said(&text);
    assert_eq!(said.len(), 3);
    assert_eq!(said[1], (skipped.len(), Said::Passed));
    assert_eq!(said[2].0, text.len());
    assert!(matches!(said[2].1, Said::Decided(Ok(_))));
}

#[test]
fn empty_lines_before_a_dump_are_not_counted() {
    for blank in ["", "\n", "\r\n", "\n\n\r\n\r\n\n"] {
        let good = [blank, BYTE, "\n", END].concat();
        let text = [&good, &good, blank, BYTE, "\r\nx\n"].concat();
        let said = said(&text);
        let used: Vec<usize> = said.iter().map(|(used, _)| *used).collect();
        assert_eq!(used, [good.len(), 2 * good.len(), text.len()]);
        assert_eq!(
            brief(&text),
            ["1 records", "1 records", "1 at Some(3)"],
            "{blank:?}"
        );
    }
    // A CR that no LF follows is a byte of a line.
    assert_eq!(brief(&["\n\r\n\r", BYTE, END].concat())[0], "1 at Some(1)");
    assert_eq!(brief("\n\r\r\n")[0], "1 at Some(1)");
    // After the lines of a dump empty lines are counted.
    assert_eq!(
        brief(&[BYTE, "\n\r\n\n", "x\n"].concat())[0],
        "1 at Some(5)"
    );
    // There is no dump in them.
    for blank in ["", "\n", "\r\n\n", "\n\r"] {
        assert_eq!(said(blank), []);
    }
}

#[test]
fn joining_skips_the_tail_of_a_dump() {
    let tail = "1000041BD\n:0101010043BA\n:00000001FF\r\n";
    let text = [tail, BYTE, END].concat();
    for cut in 0..=text.len() {
        let mut intake = Intake::joining(IntelHex, FIRST, PLACES).unwrap();
        let mut heard = Heard::new();
        let (one, other) = text.as_bytes().split_at(cut);
        heard.feed(&mut intake, one);
        heard.feed(&mut intake, other);
        assert_eq!(heard.said.len(), 2);
        assert_eq!(heard.said[0], (tail.len(), Said::Passed));
        assert_eq!(heard.said[1].0, text.len());
        assert_eq!((heard.panel.page[0], heard.panel.page[1]), (0x41, 0xEE));
        assert!(!heard.pause(&mut intake));
    }
    // Of S-records too. An end record of the other kind ends nothing.
    let mut intake = Intake::joining(SRecords, FIRST, PLACES).unwrap();
    let mut heard = Heard::new();
    heard.feed(
        &mut intake,
        b":00000001FF\nS804000000FB\nS104010041B9\nS9030000FC\n",
    );
    assert_eq!(heard.said[0], (25, Said::Passed));
    assert_eq!(heard.said.len(), 2);
}

#[test]
fn a_pause_is_a_known_beginning() {
    // At an unknown place: nothing of what came is kept, and there was no dump.
    let mut intake = Intake::joining(IntelHex, FIRST, PLACES).unwrap();
    let mut heard = Heard::new();
    heard.feed(&mut intake, b"0041BD\n:00000001FF");
    assert!(!heard.pause(&mut intake));
    heard.feed(&mut intake, [BYTE, END].concat().as_bytes());
    assert_eq!(heard.said.len(), 1);
    // After a refusal: the next dump is not skipped.
    heard.feed(&mut intake, b"x\n:0101");
    assert!(!heard.pause(&mut intake));
    heard.feed(&mut intake, [BYTE, END].concat().as_bytes());
    let numbers = heard.said.iter().map(|(_, said)| match said {
        Said::Decided(load) => load.map_or_else(|why| why.number(), |_| 0),
        Said::Passed => 99,
    });
    assert_eq!(numbers.collect::<Vec<_>>(), [0, 1, 0]);
    // In the middle of a dump: its rest is a text of its own.
    heard.feed(&mut intake, BYTE.as_bytes());
    assert!(heard.pause(&mut intake));
    heard.feed(&mut intake, END.as_bytes());
    assert!(matches!(heard.said.pop(), Some((_, Said::Decided(Ok(_))))));
    let missing = Said::Decided(Err(LoadError::MissingEndOfFileRecord));
    assert_eq!(heard.said.pop().map(|(_, said)| said), Some(missing));
    // Where no dump is begun, also more than once.
    for blank in ["", "\n", "\r\n", "\r", ""] {
        heard.feed(&mut intake, blank.as_bytes());
        assert!(!heard.pause(&mut intake));
    }
}

/// A pause at each place of a dump: what came before it is decided as a text of its own, and what comes after it begins
/// another.
#[test]
fn a_pause_ends_a_dump_anywhere() {
    for kind in KINDS {
        for text in texts(kind) {
            let text = text.as_bytes();
            let (load, whole) = (Panel::new().load(kind, text), Panel::new());
            let used = through(kind, text, &load);
            for cut in 1..used.min(text.len()) {
                let (one, other) = text.split_at(cut);
                if one.iter().all(|byte| b"\r\n".contains(byte)) {
                    continue;
                }
                let (mut intake, mut heard) = (intake(kind), Heard::new());
                heard.feed(&mut intake, one);
                assert_eq!((heard.said.len(), &heard.panel), (0, &whole));
                assert!(heard.pause(&mut intake));
                check_first(kind, one, &heard);
                let mut next = Heard::new();
                next.feed(&mut intake, [other, b"\nx\n"].concat().as_slice());
                let mut fresh = Heard::new();
                fresh.feed(
                    &mut self::intake(kind),
                    [other, b"\nx\n"].concat().as_slice(),
                );
                assert_eq!((next.said, next.panel), (fresh.said, fresh.panel));
            }
        }
    }
}

/// An intake with a dump that is ready.
fn with_ready() -> Intake {
    let mut intake = intake(IntelHex);
    let step = intake.feed(":0101080044B2\n:00000001FF\n:0101");
    assert_eq!(step.used, 26);
    assert!(matches!(step.fed, Fed::Ready(_)));
    intake
}

#[test]
fn a_commit_wants_the_lengths_of_the_intake() {
    let room = marks_len(PLACES);
    let mut refused = 0;
    for places in [0, 1, PLACES - 1, PLACES, PLACES + 1, 16, 65_536] {
        for marks in [0, room - 1, room, room + 1, marks_len(places)] {
            if (places, marks) == (PLACES, room) {
                continue;
            }
            let mut intake = with_ready();
            let (mut page, mut row) = (vec![0xEE; places], vec![0xEE; marks]);
            let ready = intake.ready().unwrap();
            let why = ready.commit(&mut page, &mut row).unwrap_err();
            assert_eq!(why, LoadError::BadWindow);
            assert!(page.iter().chain(&row).all(|&byte| byte == 0xEE));
            // The dump is still ready.
            let Panel {
                mut page,
                mut marks,
            } = Panel::new();
            let loaded = intake.ready().unwrap().commit(&mut page, &mut marks);
            assert_eq!(loaded.unwrap().data_records, 1);
            assert_eq!((page[8], page[0], marks), (0x44, 0xEE, vec![0, 1]));
            refused += 1;
        }
    }
    assert!(refused > 30);
}

#[test]
fn a_dump_is_ready_until_it_is_committed_or_the_next_chunk_is_fed() {
    let Panel {
        mut page,
        mut marks,
    } = Panel::new();
    let mut committed = with_ready();
    assert!(committed
        .ready()
        .unwrap()
        .commit(&mut page, &mut marks)
        .is_ok());
    assert!(committed.ready().is_none());

    // A pause leaves it.
    let mut paused = with_ready();
    assert!(matches!(paused.pause(), Paused::Quiet));
    let ready = paused.ready().unwrap();
    assert_eq!(ready.loaded().data_records, 1);
    let stated = ready.stated();
    assert_eq!((stated.count(), stated.is_marked(8)), (1, true));

    // A chunk drops it, and the next dump begins there.
    let mut fed = with_ready();
    assert!(matches!(fed.feed("").fed, Fed::WantsMore));
    assert!(fed.ready().is_none());
    let mut fed = with_ready();
    let mut heard = Heard::new();
    heard.feed(&mut fed, [BYTE, END].concat().as_bytes());
    assert_eq!(heard.said.len(), 1);
    assert_eq!((heard.panel.page[0], heard.panel.page[8]), (0x41, 0xEE));
    assert_eq!(heard.panel.marks, [1, 0]);

    // There is none before a dump is decided, nor after one is refused.
    let mut refused = with_ready();
    assert!(matches!(refused.feed("x\n").fed, Fed::Refused(_)));
    assert!(refused.ready().is_none());
    assert!(intake(IntelHex).ready().is_none());
}

#[test]
fn a_window_is_refused_as_load_refuses_it() {
    let windows = [
        (0, 0),
        (0, 65_536),
        (0, 65_537),
        (0, usize::MAX),
        (0xFFFF_0000, 65_536),
        (0xFFFF_0001, 65_536),
        (u32::MAX, 0),
        (u32::MAX, 1),
        (u32::MAX, 2),
        (u32::MAX, usize::MAX),
    ];
    let mut refused = 0;
    for (first, length) in windows {
        let length_of_page = length.min(70_000);
        let (mut page, mut marks) = (vec![0; length_of_page], vec![0; marks_len(length_of_page)]);
        let should = load(END, first, &mut page, &mut marks).map(|_| ());
        refused += usize::from(should.is_err());
        for kind in KINDS {
            let known = Intake::new(kind, first, length).map(|_| ());
            let joining = Intake::joining(kind, first, length).map(|_| ());
            assert_eq!((known, joining), (should, should), "{first} {length}");
        }
    }
    assert_eq!(refused, 5);
}

/// A page of no places, and one of as many as there can be.
#[test]
fn the_smallest_and_the_greatest_window_take_dumps() {
    let mut none = Intake::new(IntelHex, FIRST, 0).unwrap();
    match none.feed(END).fed {
        Fed::Ready(ready) => assert!(ready.commit(&mut [], &mut []).is_ok()),
        other => panic!("{other:?}"),
    };
    assert!(matches!(
        none.feed(BYTE).fed,
        Fed::Refused(LoadError::OutsideWindow {
            line: 1,
            address: 0x100
        })
    ));

    let mut full = Intake::new(IntelHex, 0xFFFF_0000, 65_536).unwrap();
    let (mut page, mut marks) = (vec![0; 65_536], vec![0xFF; 8_192]);
    let text = ":02000004FFFFFC\n:01FFFF0041C0\n:00000001FF\n";
    match full.feed(text).fed {
        Fed::Ready(ready) => assert!(ready.commit(&mut page, &mut marks).is_ok()),
        other => panic!("{other:?}"),
    };
    assert_eq!((page[65_535], marks[8_191], marks[0]), (0x41, 0x80, 0));
}

/// The dumps of a light in a row, with counts at the places 0 and 1.
const COUNTS: [(&str, &str); 8] = [
    (
        ":020100000005F8\n:00000001FF\n",
        "S1050100000AEF\nS9030000FC\n",
    ),
    (
        ":020100000006F7\n:00000001FF\n",
        "S1050100000BEE\nS9030000FC\n",
    ),
    (
        ":020100000006F7\n:00000001FF\n",
        "S1050100000BEE\nS9030000FC\n",
    ),
    (":020100000007F6\n", "S1050100000CED\n"),
    (":0101080044B2\n:00000001FF\n", "S104010844AE\nS9030000FC\n"),
    ("x\n", "S1050100000CEE\n"),
    (":020100000008F5\n:00000001FF", "S1050100000CED\nS9030000FC"),
    (
        ":020100000000FD\n:00000001FF\n",
        "S10501000000F9\nS9030000FC\n",
    ),
];

#[test]
fn a_light_shows_after_a_fed_load_what_it_shows_after_a_dump() {
    let mut colors = BTreeSet::new();
    for kind in KINDS {
        let mut light = Light::new(FIRST, PLACES, 0, 1).unwrap();
        let mut other = light.clone();
        let (mut panel, mut heard) = (Panel::new(), Heard::new());
        let mut intake = intake(kind);
        for (intel, srecords) in COUNTS {
            let Panel { page, marks } = &mut panel;
            let dumped = match kind {
                IntelHex => light.dump(intel, page, marks),
                SRecords => light.dump_srecords(srecords, page, marks),
            };
            let text = if kind == IntelHex { intel } else { srecords };
            heard.feed(&mut intake, text.as_bytes());
            heard.pause(&mut intake);
            let load = match heard.said.pop() {
                Some((_, Said::Decided(load))) => load,
                other => panic!("{other:?}"),
            };
            let Panel { page, marks } = &heard.panel;
            assert_eq!(other.after(load, page, marks), dumped);
            assert_eq!((&light, &panel), (&other, &heard.panel));
            colors.insert(dumped.color.to_string());
        }
    }
    assert_eq!(colors.len(), 6);
}

#[test]
fn a_light_refuses_a_page_that_is_not_its_own() {
    let loaded = load(END, FIRST, &mut [0; PLACES], &mut [0; 2]).unwrap();
    let mut light = Light::new(FIRST, PLACES, 0, 1).unwrap();
    let (page, marks) = ([0; PLACES + 9], [3, 0, 0, 0]);
    assert_eq!(
        light.after(Ok(loaded), &page[..PLACES], &marks[..2]).color,
        Color::First
    );
    let other = [
        (PLACES - 1, 1),
        (PLACES + 8, 3),
        (0, 0),
        (PLACES, 1),
        (PLACES, 3),
    ];
    // A load leaves no unused bit set.
    let shown = light.after(Ok(loaded), &page[..PLACES], &[3, 0x80]);
    assert_eq!(shown.load, Err(LoadError::BadWindow));
    for (places, bytes) in other {
        let shown = light.after(Ok(loaded), &page[..places], &marks[..bytes]);
        assert_eq!(shown.color, Color::Broken, "{places} {bytes}");
        assert_eq!(shown.load, Err(LoadError::BadWindow));
        // A load that was refused keeps its own refusal.
        let why = LoadError::MissingEndOfFileRecord;
        let shown = light.after(Err(why), &page[..places], &marks[..bytes]);
        assert_eq!((shown.color, shown.load), (Color::Broken, Err(why)));
    }
    assert_eq!(light.known(), Some(0));
}
