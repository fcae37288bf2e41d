//! Salvage: the model against the port and the face; and what can be relied on, run: a capture that stands for an
//! undamaged text states nothing at another address, no line is lost in silence, and the clean file is clean.

use ihex::{DroppedLines, Reason, SalvageError, DROPPED_SIZE};
use ihex_sys::{DROPPED, REFUSED, STOP_AFTER_EOF};

use crate::comparisons::lent::{Lent, Numbers};
use crate::comparisons::run::{blocks, by_block, by_chance, by_length, Kind, Plan};
use crate::comparisons::seen::{Answers, Places, Times};
use crate::inputs::salvage::{self as inputs, ManyCase, SalvageCase};
use crate::inputs::standing::{self, OneByteCase, StandingCase};
use crate::models::salvage::{
    ends_bare, is_refused, is_undamaged, laid, placements, saved, stranger_among, written, Answer,
    Entry, Saved, RIGHT,
};
use crate::subjects::face::by_face;
use crate::subjects::port::Port;
use crate::subjects::the_crate::{offender_of, rows};

/// The codes that a salvage is to return, and the numbers that its lists are to have; and of captures that stand for an
/// undamaged text, and of such a text with one byte wrong, whether none of its bytes are kept, some or all: 0, 1 or 2.
pub static SEEN: [Answers; 4] = [
    Answers::new("salvage", &[0, 271, 278]),
    Answers::new(
        "salvage, by why a line is listed",
        &[0, 1, 2, 3, 4, 5, 6, 7, 8, 9, 13],
    ),
    Answers::new("salvage for a text, by what is kept", &[0, 1, 2]),
    Answers::new("salvage with one byte wrong, by what is kept", &[0, 1, 2]),
];

/// The places that refusal 2 of a listed line is to name.
pub static SEEN_PLACES: Places = Places::new("salvage", 1);

/// A form of captures: its name, and whether one has it, from what becomes of it.
type Form = (&'static str, fn(&SalvageCase, &Saved) -> bool);

/// What captures are to be.
const FORMS: [Form; 14] = [
    ("nothing dropped", |_, saved| saved.list.is_empty()),
    ("nothing kept but the end", |_, saved| {
        saved.lines.len() == 1 && saved.list.len() > 1
    }),
    ("an end added", |_, saved| {
        saved.list.last() == Some(&Entry::END_ADDED)
    }),
    ("a base unknown", |_, saved| {
        saved.list.iter().any(|entry| entry.why == 0)
    }),
    ("data kept after one that is dropped", |_, saved| {
        let unknown = saved.list.iter().any(|entry| entry.why == 0);
        unknown && saved.lines.iter().any(|line| line[7..9] == *b"00")
    }),
    ("a first line refused", |_, saved| {
        let first = saved.list.first();
        first.map_or(false, |entry| entry.line == 1 && entry.why > 0)
    }),
    ("a line over 65,535", |_, saved| {
        saved.list.iter().any(|entry| entry.line > 0xFFFF)
    }),
    ("output and list full", |case, saved| {
        (case.out, case.list) == (0, 0) && !saved.list.is_empty()
    }),
    ("output a byte short", |case, _| {
        case.out == -1 && case.list >= 0
    }),
    ("list an entry short", |case, saved| {
        case.out >= 0 && (-16..0).contains(&case.list) && !saved.list.is_empty()
    }),
    ("both short", |case, saved| {
        case.out < 0 && case.list < 0 && !saved.list.is_empty()
    }),
    ("a list of no bytes", |case, saved| {
        saved.list.is_empty() && case.list <= 0
    }),
    ("a part of an entry spare", |case, _| case.list % 16 != 0),
    ("no output", |case, saved| {
        case.out <= -(saved.clean().len() as isize)
    }),
];

/// How often each was called for.
static SEEN_FORMS: Times = Times::new();

/// Prints how often a capture of each form was called for, and says whether none is missing.
pub fn show_seen() -> bool {
    let names = FORMS.iter().map(|(name, _)| name.to_string());
    SEEN_FORMS.show("every form of a capture (form: times)", names.enumerate())
}

/// Notes what a capture is.
fn note(case: &SalvageCase, saved: &Saved, (code, _): Answer) {
    SEEN[0].note(code);
    for entry in &saved.list {
        SEEN[1].note(entry.why);
    }
    if saved.list.iter().any(|entry| entry.why == 2) {
        for (answer, _) in rows(&case.text, STOP_AFTER_EOF) {
            SEEN_PLACES.note(offender_of(&answer));
        }
    }
    for (form, (_, has)) in FORMS.iter().enumerate() {
        if has(case, saved) {
            SEEN_FORMS.note(form);
        }
    }
}

/// The output and the list that a case lends, for what is saved of its text.
fn lent(case: &SalvageCase, saved: &Saved) -> (Lent, Lent) {
    let with = |length: usize, spare: isize| {
        let length = length as isize;
        Lent::new(length.saturating_add(spare).max(0) as usize)
    };
    let list = with(saved.list.len() * DROPPED, case.list);
    (with(saved.clean().len(), case.out), list)
}

/// What is wrong with what the port saves, if it should be what the model saves.
fn port(port: &dyn Port, case: &SalvageCase) -> Option<String> {
    let saved = saved(RIGHT, &case.text);
    let (mut out, mut list) = lent(case, &saved);
    let (mut held, mut listed) = (out.bytes().to_vec(), list.bytes().to_vec());
    let should = laid(&saved, &mut held, &mut listed);
    note(case, &saved, should);
    let text = Lent::holding(&case.text);
    let mut numbers = Numbers::default();
    let beside = numbers.values()[2];
    let (a, b, _) = numbers.lend();
    let code = port.salvage(text.bytes(), out.slice(), list.slice(), (a, b));
    let [a, b, c] = numbers.values();
    if !numbers.is_guarded() || c != beside {
        return Some("numbers beside the lent ones were written".into());
    }
    let is = (code, [a, b]);
    if is != should {
        return Some(format!("port {is:?}, model {should:?}"));
    }
    out.unlike("output", &held)
        .or_else(|| list.unlike("list", &listed))
        .or_else(|| text.unlike("text", &case.text))
}

/// What the port saves of a text, with room for all that can be: the clean file, and the entries.
fn by_port(port: &dyn Port, text: &[u8]) -> Result<(Vec<u8>, Vec<Entry>), String> {
    let mut out = vec![0; text.len() + 13];
    let mut list = vec![0; DROPPED * (text.len() + 1)];
    let (mut a, mut b) = (0, 0);
    let code = port.salvage(text, &mut out, &mut list, (&mut a, &mut b));
    let (length, entries) = (a as usize, b as usize);
    if code != 0 || length > out.len() || entries > list.len() / DROPPED {
        return Err(format!(
            "port {code}, {length}, {entries}, with room for all"
        ));
    }
    out.truncate(length);
    let number = |bytes: &[u8]| {
        bytes
            .iter()
            .rev()
            .fold(0, |n, &byte| n << 8 | u64::from(byte))
    };
    let entry = |bytes: &[u8]| Entry {
        why: number(&bytes[..4]) as u32,
        a: number(&bytes[4..6]) as u16,
        b: number(&bytes[6..8]) as u16,
        line: number(&bytes[8..]),
    };
    let list = list.chunks(DROPPED).take(entries).map(entry).collect();
    Ok((out, list))
}

/// What is wrong where the port saves the clean file of a text again: it is to be itself, with nothing dropped.
fn unclean(port: &dyn Port, case: &SalvageCase) -> Option<String> {
    let again = || {
        let (clean, _) = by_port(port, &case.text)?;
        let (again, list) = by_port(port, &clean)?;
        match again == clean && list.is_empty() {
            true => Ok(()),
            false => Err(format!(
                "the clean file comes to another, and drops {list:?}"
            )),
        }
    };
    again().err()
}

/// What is wrong with the account of a text's lines: each that has a byte, through the end record, is to be in the clean
/// file or in the list, in order, and not in both. An end record that the text has not is to be in both.
fn unaccounted(port: &dyn Port, case: &SalvageCase) -> Option<String> {
    let account = || {
        let (clean, list) = by_port(port, &case.text)?;
        let mut kept = clean.split_inclusive(|&byte| byte == b'\n').peekable();
        let mut listed = list.iter().peekable();
        let mut ended = false;
        for (answer, place) in rows(&case.text, STOP_AFTER_EOF) {
            let own = listed
                .peek()
                .map_or(false, |entry| entry.line == place.line as u64);
            let line = answer
                .ok()
                .map(|record| [written(&record), vec![b'\n']].concat());
            match line {
                _ if own => drop(listed.next()),
                Some(line) if kept.next() == Some(&line) => ended = line == b":00000001FF\n",
                _ => return Err(format!("line {} is neither kept nor listed", place.line)),
            }
        }
        if !ended
            && (kept.next() != Some(b":00000001FF\n") || listed.next() != Some(&Entry::END_ADDED))
        {
            return Err("no end record is added and listed".into());
        }
        match (kept.next(), listed.next()) {
            (None, None) => Ok(()),
            (line, entry) => Err(format!("{line:?}, {entry:?} come of no line")),
        }
    };
    account().err()
}

/// What is wrong with a byte that the clean file of a capture states, if the undamaged text is to state it too.
fn unstated(port: &dyn Port, captured: &[u8], undamaged: &[u8], seen: &Answers) -> Option<String> {
    let clean = match by_port(port, captured) {
        Ok((clean, _)) => clean,
        Err(why) => return Some(why),
    };
    let (some, all) = (placements(&clean), placements(undamaged));
    if !all.is_empty() {
        seen.note(u32::from(!some.is_empty()) + u32::from(some == all));
    }
    let (address, byte) = stranger_among(&some, &all)?;
    Some(format!("the clean file states {byte:02X} at {address:08X}"))
}

/// What is wrong with a capture that stands for an undamaged text.
fn stands(port: &dyn Port, case: &StandingCase) -> Option<String> {
    let undamaged = case.undamaged();
    if !is_undamaged(&undamaged) || !case.refused().into_iter().all(|line| is_refused(line)) {
        return Some("this input is not one of the theorem's".into());
    }
    unstated(port, &case.captured(), &undamaged, &SEEN[2])
}

/// What is wrong with a text in which one byte is wrong. A smaller input may be damaged by itself, and then nothing is.
fn one_byte(port: &dyn Port, case: &OneByteCase) -> Option<String> {
    let such = is_undamaged(&case.text) && ends_bare(&case.text);
    such.then(|| unstated(port, &case.captured(), &case.text, &SEEN[3]))?
}

/// An entry of the face's list, as the port has it.
fn as_entry(line: usize, reason: Reason) -> Entry {
    let [a, b, _] = match reason {
        Reason::Refused(error) => by_face::refusal(&error).values,
        _ => [0; 3],
    };
    Entry {
        why: reason.number(),
        a: a as u16,
        b: b as u16,
        line: line as u64,
    }
}

/// What is wrong with a list of the face: its entries, how many it says there are, or its words.
fn mislisted(case: &SalvageCase, saved: &Saved, dropped: DroppedLines) -> Option<String> {
    let (length, hint) = (dropped.len(), dropped.size_hint());
    let all: Vec<ihex::Dropped> = dropped.collect();
    let entries = all.iter().map(|one| as_entry(one.line, one.reason));
    let entries: Vec<Entry> = entries.collect();
    if entries != saved.list {
        return Some(format!("face {entries:?}, model {:?}", saved.list));
    }
    if (length, hint) != (all.len(), (all.len(), Some(all.len()))) {
        return Some(format!("face counts {length}, {hint:?}"));
    }
    let rows = rows(&case.text, STOP_AFTER_EOF);
    let told = |entry: &Entry| {
        let row = rows
            .iter()
            .find(|(_, place)| place.line as u64 == entry.line);
        match row {
            Some((Err(why), place)) => why.printed(Some(place.line)),
            Some((Ok(_), place)) => {
                format!("line {}: base unknown after a refused line", place.line)
            }
            None => "end of file record added, the text has none".into(),
        }
    };
    let unlike = all
        .iter()
        .zip(&entries)
        .find(|(one, entry)| one.to_string() != told(entry));
    unlike.map(|(one, entry)| format!("face says {one}, should say {}", told(entry)))
}

/// What is wrong with what the face saves, in new buffers and in such as are lent.
fn face(case: &SalvageCase) -> Option<String> {
    let saved = saved(RIGHT, &case.text);
    let owned = match ihex::salvage(&case.text) {
        Ok(owned) => owned,
        Err(why) => return Some(format!("face {why}")),
    };
    if owned.clean.as_bytes() != saved.clean() {
        return Some("the face saves another file".into());
    }
    let (mut out, mut list) = lent(case, &saved);
    let (mut held, mut listed) = (out.bytes().to_vec(), list.bytes().to_vec());
    let (code, _) = laid(&saved, &mut held, &mut listed);
    let is = match ihex::salvage_into(&case.text, out.slice(), list.slice()) {
        Ok(lent) if lent.clean != owned.clean => Err("the face lends another file".to_string()),
        Ok(lent) => mislisted(case, &saved, lent.dropped).map_or(Ok(0), Err),
        Err(why @ (SalvageError::OutputFull | SalvageError::ListFull)) => {
            Ok(REFUSED + why.number())
        }
        Err(why) => Err(format!("face {why}")),
    };
    if is != Ok(code) {
        return Some(is.map_or_else(|why| why, |is| format!("face {is}, model {code}")));
    }
    mislisted(case, &saved, owned.dropped())
        .or_else(|| (DROPPED_SIZE != DROPPED).then(|| "the face has other entries".into()))
        .or_else(|| out.unlike("output", &held))
        .or_else(|| list.unlike("list", &listed))
}

/// What is compared with the model.
fn with_model<'a>(port: &'a dyn Port, plan: Plan) -> Vec<Kind<'a>> {
    let check = move |case: &SalvageCase| self::port(port, case);
    let kind = |name, thousands, make| by_chance(name, plan, thousands, make, check);
    let rule = |name, blocks, make| by_block(name, plan, blocks, make, check);
    vec![
        rule(
            "captures: every text of up to 4 lines of 13 kinds",
            inputs::SMALL,
            inputs::every_small as fn(u64, &mut _) -> _,
        ),
        rule(
            "captures: document 01's lines, one of them damaged",
            inputs::DOCUMENTS,
            inputs::document_damaged,
        ),
        rule(
            "captures: dumps with each extension record damaged",
            blocks(40, plan),
            inputs::bases_damaged,
        ),
        by_block(
            "captures of up to 70,000 empty lines",
            plan,
            1,
            inputs::many_lines,
            move |case: &ManyCase| self::port(port, &case.capture()),
        ),
        kind("captures of dumps", 80, inputs::capture),
        kind("captures: texts of all kinds of lines", 40, inputs::mixed),
        kind("captures: noise", 100, inputs::noise),
        by_length(
            "captures with lines of 519 to 70,000 bytes",
            plan,
            move |case| {
                let text = case.text().text;
                self::port(
                    port,
                    &SalvageCase {
                        text,
                        out: 0,
                        list: 0,
                    },
                )
            },
        ),
    ]
}

/// What can be relied on, run on the port.
pub fn relied_on<'a>(port: &'a dyn Port, plan: Plan) -> Vec<Kind<'a>> {
    let stands = move |case: &StandingCase| self::stands(port, case);
    vec![
        by_chance(
            "captures: a damaged line for a line",
            plan,
            60,
            standing::line_for_line,
            stands,
        ),
        by_chance(
            "captures that stand for a text, in all that is allowed",
            plan,
            80,
            standing::standing,
            stands,
        ),
        by_chance(
            "captures: one byte wrong",
            plan,
            80,
            standing::one_byte,
            move |case| one_byte(port, case),
        ),
        by_chance(
            "captures: each line accounted for",
            plan,
            40,
            inputs::capture,
            move |case| unaccounted(port, case),
        ),
        by_chance(
            "captures saved again",
            plan,
            40,
            inputs::capture,
            move |case| unclean(port, case),
        ),
    ]
}

/// What is compared with the port.
pub fn of_port<'a>(port: &'a dyn Port, plan: Plan) -> Vec<Kind<'a>> {
    let mut kinds = with_model(port, plan);
    kinds.extend(relied_on(port, plan));
    kinds
}

/// What is compared with the face.
pub fn of_face(plan: Plan) -> Vec<Kind<'static>> {
    let rule = "face: captures: every text of up to 4 lines of 13 kinds";
    vec![
        by_block(rule, plan, inputs::SMALL, inputs::every_small, face),
        by_chance("face: captures of dumps", plan, 20, inputs::capture, face),
        by_chance("face: captures: noise", plan, 20, inputs::noise, face),
    ]
}
