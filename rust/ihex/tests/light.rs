//! The light: what it shows after each dump, what it remembers, and what a dump leaves in page and marks.

mod chance;

use std::error::Error;

use chance::Chance;
use ihex::srec::{load_srecords, SRecord, SType};
use ihex::{
    load, marks_len, BadPlace, Color, Dumped, Light, LineError, LoadError, Loaded, ReaderError,
    Record, Start,
};

const FIRST: u32 = 0x100;
const PLACES: usize = 6;
/// The places of the count. They are not neighbours, and the high byte comes last.
const HIGH: usize = 4;
const LOW: usize = 1;

/// The two kinds of dumps.
#[derive(Clone, Copy, Debug)]
enum Kind {
    Intel,
    SRecords,
}

const KINDS: [Kind; 2] = [Kind::Intel, Kind::SRecords];

impl Kind {
    fn end(self) -> &'static str {
        match self {
            Kind::Intel => ":00000001FF\n",
            Kind::SRecords => "S9030000FC\n",
        }
    }

    /// The line of a byte at a place.
    fn line(self, place: usize, byte: u8) -> String {
        let (address, value) = (FIRST as u16 + place as u16, vec![byte]);
        let line = match self {
            Kind::Intel => {
                let offset = address;
                Record::Data { offset, value }.to_record_string().ok()
            }
            Kind::SRecords => {
                let (kind, address) = (SType::S1, address.into());
                SRecord {
                    kind,
                    address,
                    value,
                }
                .to_record_string()
                .ok()
            }
        };
        line.expect("a short record") + "\n"
    }

    /// The lines of the two bytes of a count.
    fn stated(self, count: u16) -> String {
        let [high, low] = count.to_be_bytes();
        self.line(HIGH, high) + &self.line(LOW, low)
    }

    /// A dump that says this of the count.
    fn dump(self, said: Said) -> String {
        match said {
            Said::Count(count) => self.stated(count) + self.end(),
            Said::Nothing => self.end().into(),
            Said::Refused => self.stated(0x7777),
        }
    }

    fn load(self, text: &[u8], page: &mut [u8], marks: &mut [u8]) -> Result<Loaded, LoadError> {
        match self {
            Kind::Intel => load(text, FIRST, page, marks),
            Kind::SRecords => load_srecords(text, FIRST, page, marks),
        }
    }

    fn dumped(self, light: &mut Light, text: &[u8], page: &mut [u8], marks: &mut [u8]) -> Dumped {
        match self {
            Kind::Intel => light.dump(text, page, marks),
            Kind::SRecords => light.dump_srecords(text, page, marks),
        }
    }
}

/// What a dump says of the count.
#[derive(Clone, Copy, Debug, PartialEq)]
enum Said {
    Count(u16),
    /// It is accepted, and does not state both bytes.
    Nothing,
    Refused,
}

use Said::{Count, Nothing, Refused};

/// The count that was stated last in a history, if one was.
fn last(history: &[Said]) -> Option<u16> {
    history.iter().rev().find_map(|said| match said {
        Count(count) => Some(*count),
        _ => None,
    })
}

/// What a light shows after a dump, by the history before it.
fn shown(history: &[Said], said: Said) -> Color {
    let count = match said {
        Refused => return Color::Broken,
        Nothing => return Color::NoCount,
        Count(count) => i32::from(count),
    };
    let step = last(history).map(|known| (count - i32::from(known)).rem_euclid(65_536));
    match step {
        None => Color::First,
        Some(0) => Color::Stale,
        Some(1..=32_767) => Color::Green,
        Some(_) => Color::Restarted,
    }
}

/// A light for a page of [`PLACES`] places, with its page and marks.
struct Panel {
    light: Light,
    page: Vec<u8>,
    marks: Vec<u8>,
}

impl Panel {
    fn with(high: usize, low: usize) -> Self {
        Panel {
            light: Light::new(FIRST, PLACES, high, low).unwrap(),
            page: vec![0xEE; PLACES],
            marks: vec![0xFF; marks_len(PLACES)],
        }
    }

    fn new() -> Self {
        Panel::with(HIGH, LOW)
    }

    /// What a dump comes to. What it returns of its load and leaves in the buffers must be as a load alone has it.
    fn dump(&mut self, kind: Kind, text: &[u8]) -> Dumped {
        let (mut page, mut marks) = (self.page.clone(), self.marks.clone());
        let load = kind.load(text, &mut page, &mut marks);
        let dumped = kind.dumped(&mut self.light, text, &mut self.page, &mut self.marks);
        assert_eq!(dumped.load, load, "{text:?}");
        assert_eq!((&self.page, &self.marks), (&page, &marks), "{text:?}");
        let broken = dumped.color == Color::Broken;
        assert_eq!(dumped.load.is_err(), broken, "{text:?}");
        dumped
    }

    /// A dump shows this color, and then this count is known.
    fn shows(&mut self, kind: Kind, text: &str, color: Color, known: Option<u16>) {
        let dumped = self.dump(kind, text.as_bytes());
        let got = (dumped.color, self.light.known());
        assert_eq!(got, (color, known), "{kind:?} {text:?}");
    }
}

/// A row of dumps on a new light shows these colors, for both kinds and for the two in turn, and each time the count
/// that was stated last is known.
fn row(dumps: &[(Said, Color)]) {
    for kinds in [
        [Kind::Intel; 2],
        [Kind::SRecords; 2],
        KINDS,
        [Kind::SRecords, Kind::Intel],
    ] {
        let (mut panel, mut history) = (Panel::new(), vec![]);
        for (&(said, color), &kind) in dumps.iter().zip(kinds.iter().cycle()) {
            history.push(said);
            panel.shows(kind, &kind.dump(said), color, last(&history));
        }
    }
}

#[test]
fn steps() {
    for known in [0, 1, 5, 255, 256, 32_767, 32_768, 65_534, 65_535] {
        for (step, color) in [
            (0, Color::Stale),
            (1, Color::Green),
            (255, Color::Green),
            (256, Color::Green),
            (32_767, Color::Green),
            (32_768, Color::Restarted),
            (65_535, Color::Restarted),
        ] {
            let count = u16::wrapping_add(known, step);
            row(&[(Count(known), Color::First), (Count(count), color)]);
        }
    }
}

#[test]
fn every_step_from_one_count() {
    let mut panel = Panel::new();
    let known = 0xA5F0;
    panel.shows(
        Kind::Intel,
        &Kind::Intel.dump(Count(known)),
        Color::First,
        Some(known),
    );
    let light = panel.light.clone();
    for count in 0..=u16::MAX {
        panel.light = light.clone();
        let color = shown(&[Count(known)], Count(count));
        panel.shows(
            Kind::Intel,
            &Kind::Intel.dump(Count(count)),
            color,
            Some(count),
        );
    }
}

#[test]
fn a_count_goes_on_at_zero() {
    row(&[
        (Count(65_534), Color::First),
        (Count(65_535), Color::Green),
        (Count(0), Color::Green),
        (Count(1), Color::Green),
        (Count(65_535), Color::Restarted),
    ]);
}

#[test]
fn nothing_is_forgotten() {
    row(&[
        (Count(5), Color::First),
        (Nothing, Color::NoCount),
        (Count(5), Color::Stale),
        (Refused, Color::Broken),
        (Count(6), Color::Green),
        (Refused, Color::Broken),
        (Nothing, Color::NoCount),
        (Count(6), Color::Stale),
        (Count(5), Color::Restarted),
        (Count(5), Color::Stale),
        (Count(6), Color::Green),
    ]);
    row(&[
        (Refused, Color::Broken),
        (Nothing, Color::NoCount),
        (Refused, Color::Broken),
        (Count(0), Color::First),
        (Count(0), Color::Stale),
    ]);
}

/// The page holds both bytes from before, and their marks are 1 before the dump.
#[test]
fn one_byte_is_not_a_count() {
    for kind in KINDS {
        let mut panel = Panel::new();
        panel.shows(kind, &kind.dump(Count(0x0105)), Color::First, Some(0x0105));
        for (place, byte) in [(HIGH, 0x01), (LOW, 0x06), (0, 0x07), (PLACES - 1, 0x08)] {
            panel.marks.fill(0xFF);
            let text = kind.line(place, byte) + kind.end();
            panel.shows(kind, &text, Color::NoCount, Some(0x0105));
            assert_eq!(panel.marks, [1 << place]);
        }
        assert_eq!(panel.page, [0x07, 0x06, 0xEE, 0xEE, 0x01, 0x08]);
        panel.shows(kind, &kind.dump(Count(0x0106)), Color::Green, Some(0x0106));
    }
}

#[test]
fn where_the_bytes_lie() {
    let text = Kind::Intel.line(0, 0x12) + &Kind::Intel.line(5, 0x34) + Kind::Intel.end();
    for (high, low, count) in [
        (0, 5, 0x1234),
        (5, 0, 0x3412),
        (0, 0, 0x1212),
        (5, 5, 0x3434),
    ] {
        let mut panel = Panel::with(high, low);
        assert_eq!(panel.light.known(), None);
        panel.shows(Kind::Intel, &text, Color::First, Some(count));
        panel.shows(Kind::Intel, &text, Color::Stale, Some(count));
    }
    // The last byte that a dump states at a place is the one that counts.
    let twice = Kind::Intel.stated(0x0505) + &Kind::Intel.dump(Count(0x0606));
    Panel::new().shows(Kind::Intel, &twice, Color::First, Some(0x0606));
}

#[test]
fn what_follows_the_end_changes_nothing() {
    for kind in KINDS {
        let mut panel = Panel::new();
        panel.shows(kind, &kind.dump(Count(5)), Color::First, Some(5));
        let tails = [kind.dump(Count(9)), kind.dump(Refused), "x\n".into()];
        for (count, tail) in (6..).zip(tails) {
            let text = kind.dump(Count(count)) + &tail;
            panel.shows(kind, &text, Color::Green, Some(count));
            panel.shows(kind, &text, Color::Stale, Some(count));
            let text = kind.dump(Nothing) + &tail;
            panel.shows(kind, &text, Color::NoCount, Some(count));
        }
    }
}

/// What the load returns goes on to the caller, with line and reason.
#[test]
fn the_load_is_in_the_answer() {
    let mut panel = Panel::new();
    let mut load = |kind: Kind, text: &str| panel.dump(kind, text.as_bytes()).load;
    let intel = load(
        Kind::Intel,
        ":0101000005F9\n:04000005000000CD2A\n:00000001FF",
    )
    .unwrap();
    let start = Some(Start::Linear(0xCD));
    assert_eq!((intel.data_records, intel.start), (1, start));
    let srecords = load(Kind::SRecords, "S1040100AA50\nS9031234B6\n").unwrap();
    let start = Some(Start::Linear(0x1234));
    assert_eq!((srecords.data_records, srecords.start), (1, start));
    let error = ReaderError::ContainsInvalidCharacters(8);
    let line = LoadError::Line(LineError { line: 2, error });
    assert_eq!(load(Kind::Intel, "\n:0000000lFF\n"), Err(line));
    let outside = LoadError::OutsideWindow {
        line: 1,
        address: 0x106,
    };
    assert_eq!(load(Kind::Intel, &Kind::Intel.line(6, 0)), Err(outside));
    let mismatch = LoadError::CountMismatch {
        line: 1,
        stated: 1,
        seen: 0,
    };
    assert_eq!(load(Kind::SRecords, "S5030001FB\n"), Err(mismatch));
    let missing = Err(LoadError::MissingEndOfFileRecord);
    assert_eq!(load(Kind::Intel, ""), missing);
    let refused = load(Kind::SRecords, Kind::Intel.end()).unwrap_err();
    assert_eq!((refused.line(), refused.number()), (Some(1), 1));
}

/// All that gives bytes is a text, also what is not UTF-8.
#[test]
fn texts_of_each_kind() {
    let mut panel = Panel::new();
    panel.shows(
        Kind::Intel,
        &Kind::Intel.dump(Count(1)),
        Color::First,
        Some(1),
    );
    let mut bytes = Kind::Intel.dump(Count(2)).into_bytes();
    bytes.extend(*b"\xFF\xFE");
    assert_eq!(panel.dump(Kind::Intel, &bytes).color, Color::Green);
    let before = panel.light.clone();
    bytes.insert(0, 0xFF);
    let dumped = panel.dump(Kind::Intel, &bytes);
    let error = ReaderError::MissingStartCode;
    let load = Err(LoadError::Line(LineError { line: 1, error }));
    assert_eq!((dumped.color, dumped.load), (Color::Broken, load));
    assert_eq!(panel.light, before);
    let Panel { light, page, marks } = &mut panel;
    let text: String = Kind::Intel.dump(Count(3));
    assert!(light.dump(&text, page, marks).color.is_green());
    let text: Vec<u8> = Kind::SRecords.dump(Count(4)).into_bytes();
    assert!(light.dump_srecords(&text, page, marks).color.is_green());
    assert_eq!(
        (page[HIGH], page[LOW], &marks[..]),
        (0, 4, &[0b01_0010][..])
    );
}

/// A dump with buffers of these lengths is refused for them, whatever it states, and changes nothing.
fn bad_window(light: &mut Light, kind: Kind, page: usize, marks: usize) {
    let before = light.clone();
    for text in [kind.dump(Count(7)), kind.dump(Nothing), "x".into()] {
        let (mut page, mut marks) = (vec![0xEE; page], vec![0xFF; marks]);
        let untouched = (page.clone(), marks.clone());
        let dumped = kind.dumped(light, text.as_bytes(), &mut page, &mut marks);
        assert_eq!(dumped.color, Color::Broken);
        assert_eq!(dumped.load, Err(LoadError::BadWindow));
        assert_eq!(dumped.load.unwrap_err().line(), None);
        assert_eq!((page, marks), untouched);
        assert_eq!(*light, before);
    }
}

#[test]
fn lengths_of_page_and_marks() {
    for kind in KINDS {
        let mut panel = Panel::new();
        for color in [Color::First, Color::Stale] {
            for (page, marks) in [
                (PLACES + 1, 1),
                (PLACES - 1, 1),
                (PLACES + 8, 2),
                (0, 0),
                (PLACES, 0),
                (PLACES, 2),
                (PLACES, PLACES),
            ] {
                bad_window(&mut panel.light, kind, page, marks);
            }
            panel.shows(kind, &kind.dump(Count(6)), color, Some(6));
        }
        panel.shows(kind, &kind.dump(Count(7)), Color::Green, Some(7));
    }
}

/// A light is set up for any window, and one that a load refuses shows "broken" each time.
#[test]
fn windows_that_no_load_accepts() {
    for (first, length) in [(u32::MAX, 2), (0, 65_537), (0xFFFF_0001, 65_536)] {
        let mut light = Light::new(first, length, length - 1, 0).unwrap();
        for kind in KINDS {
            bad_window(&mut light, kind, length, marks_len(length));
        }
    }
    let mut light = Light::new(u32::MAX, 1, 0, 0).unwrap();
    let (mut page, mut marks) = ([0xEE], [0xFF]);
    let text = ":02000004FFFFFC\n:01FFFF0022DF\n:00000001FF\n";
    let dumped = light.dump(text, &mut page, &mut marks);
    assert_eq!((dumped.color, light.known()), (Color::First, Some(0x2222)));
    assert_eq!((page, marks), ([0x22], [1]));
}

#[test]
fn bad_places() {
    let refused = |length, high, low| Light::new(FIRST, length, high, low).err();
    let high = |place, length| Some(BadPlace::High { place, length });
    let low = |place, length| Some(BadPlace::Low { place, length });
    for length in [1, 2, 8, 65_536, usize::MAX] {
        let most = length - 1;
        assert_eq!(refused(length, most, 0), None);
        assert_eq!(refused(length, 0, most), None);
        assert_eq!(refused(length, most, most), None);
        assert_eq!(refused(length, length, 0), high(length, length));
        assert_eq!(refused(length, 0, length), low(length, length));
        assert_eq!(refused(length, most, usize::MAX), low(usize::MAX, length));
        assert_eq!(refused(length, length, usize::MAX), high(length, length));
    }
    assert_eq!(refused(0, 0, 0), high(0, 0));
    // Addresses are not places.
    assert_eq!(refused(8, 0x100, 0x101), high(0x100, 8));
}

#[test]
fn bad_places_in_words() {
    let why = Light::new(FIRST, 4, 9, 0).unwrap_err();
    let words = "place 9 of the high byte lies outside the page of length 4";
    assert_eq!((why.to_string().as_str(), why.number()), (words, 24));
    let why = Light::new(FIRST, 4, 3, 4).unwrap_err();
    let words = "place 4 of the low byte lies outside the page of length 4";
    assert_eq!((why.to_string().as_str(), why.number()), (words, 24));
    let why: Box<dyn Error> = why.into();
    assert!(why.source().is_none());
}

#[test]
fn colors_in_words() {
    let all = [
        (Color::Broken, "broken"),
        (Color::NoCount, "no count"),
        (Color::First, "first"),
        (Color::Green, "green"),
        (Color::Stale, "stale"),
        (Color::Restarted, "restarted"),
    ];
    for (color, words) in all {
        assert_eq!(color.to_string(), words);
        assert_eq!(format!("{color:>10}|"), format!("{words:>10}|"));
        assert_eq!(color.is_green(), words == "green");
    }
}

/// A dump by chance that says this of the count, with a byte at another place and something after its end.
fn by_chance(chance: &mut Chance, kind: Kind, said: Said) -> String {
    let other = kind.line(2, chance.byte());
    let tail = kind.dump(Count(chance.byte().into()));
    match (said, chance.byte() % 3) {
        (Count(_), _) => other + &kind.dump(said) + &tail,
        (Nothing, 0) => other + kind.end() + &tail,
        (Nothing, 1) => other + &kind.line(HIGH, chance.byte()) + kind.end() + &tail,
        (Nothing, _) => other + &kind.line(LOW, chance.byte()) + kind.end() + &tail,
        (Refused, 0) => other + &kind.dump(Refused),
        (Refused, 1) => kind.stated(1) + "x\n" + kind.end() + &tail,
        (Refused, _) => kind.stated(1) + &kind.line(PLACES, 0) + kind.end() + &tail,
    }
}

/// What is said by chance. Steps from the count that was stated last are often at the limits.
fn said_by_chance(chance: &mut Chance, history: &[Said]) -> Said {
    let any = u16::from_be_bytes([chance.byte(), chance.byte()]);
    let known = last(history).unwrap_or(any);
    match chance.byte() % 12 {
        0 => Refused,
        1 => Nothing,
        2 | 3 => Count(known),
        4 | 5 => Count(known.wrapping_add(1)),
        6 => Count(known.wrapping_add(32_767)),
        7 => Count(known.wrapping_add(32_768)),
        8 => Count(known.wrapping_sub(1)),
        _ => Count(any),
    }
}

#[test]
fn a_thousand_dumps_by_chance() {
    let (mut panel, mut chance) = (Panel::new(), Chance(14));
    let (mut history, mut colors) = (vec![], vec![]);
    for _ in 0..1_000 {
        let kind = KINDS[usize::from(chance.byte() % 2)];
        let said = said_by_chance(&mut chance, &history);
        let text = by_chance(&mut chance, kind, said);
        if chance.byte() % 2 == 0 {
            panel.page = chance.row(PLACES);
            panel.marks = chance.row(marks_len(PLACES));
        }
        let color = shown(&history, said);
        history.push(said);
        panel.shows(kind, &text, color, last(&history));
        colors.push(color);
        // The same dump once more is not green.
        if chance.byte() % 4 == 0 {
            let again = shown(&history, said);
            assert!(!again.is_green());
            panel.shows(kind, &text, again, last(&history));
            history.push(said);
        }
    }
    let often = |color| colors.iter().filter(|&&shown| shown == color).count() > 50;
    let each = [Color::Broken, Color::NoCount, Color::Green, Color::Stale];
    assert!(each.into_iter().all(often) && often(Color::Restarted));
    assert!(colors.contains(&Color::First));
}
