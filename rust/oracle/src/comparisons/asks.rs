//! One byte of a text: the model against the port and the face; and the port against its own loaders, place by place.

use ihex::LoadError;
use ihex_sys::REFUSED;

use crate::comparisons::lent::{Lent, Numbers};
use crate::comparisons::loads::{answer, refused};
use crate::comparisons::run::{block_of, blocks, by_block, by_chance, by_length, Kind, Plan};
use crate::comparisons::seen::{Answers, Places};
use crate::inputs::asks::{self as inputs, AskCase};
use crate::inputs::chance::Chance;
use crate::inputs::loads::{load, LoadCase};
use crate::inputs::marks::unpacked;
use crate::inputs::salvage::{capture, mixed, noise};
use crate::inputs::starts;
use crate::inputs::tables::{self, Kind as TextKind, Row, TableCase};
use crate::models::asks::{answered, found, telling, walked, AskAnswer, RIGHT};
use crate::models::loads::{LoadAnswer, BOTH_STOPS};
use crate::models::tables::BAD_TABLE;
use crate::subjects::port::Port;
use crate::subjects::the_crate::{offender_of, rows};

/// What is to be answered where a record states the byte, where none does, and where the text is loaded too.
pub static SEEN: [Answers; 3] = [
    Answers::new(
        "asker, where a record states the byte",
        &[0, 257, 258, 259, 260, 261, 262, 263, 264, 265, 269, 277],
    ),
    Answers::new(
        "asker, where no record states the byte",
        &[257, 258, 259, 260, 261, 262, 263, 264, 265, 269, 277, 514],
    ),
    Answers::new(
        "asker, where the text is loaded too",
        &[0, 257, 258, 262, 269, 277, 514],
    ),
];

/// The places that refusal 2 names.
pub static SEEN_PLACES: Places = Places::new("asker", 1);

/// A text that has more addresses to be asked at is asked at some of them.
const MOST: usize = 100;
/// So is a text that has more bytes.
const LONG: usize = 1000;

/// The most places of a window that are all asked for.
const ALL: usize = 1000;

/// How many texts by chance a block has, if each is asked at many addresses.
const FEW: u64 = 100;

/// What the port answers at an address, if it writes nothing beside that.
fn asked(port: &dyn Port, text: &[u8], address: u32) -> Option<AskAnswer> {
    let mut numbers = Numbers::default();
    let beside = numbers.values()[2];
    let mut lines = [3, 5, 7];
    let (a, b, _) = numbers.lend();
    let code = port.ask(text, address, &mut lines[1], (a, b));
    let [a, b, c] = numbers.values();
    let guarded = numbers.is_guarded() && c == beside && (lines[0], lines[2]) == (3, 7);
    guarded.then_some(AskAnswer {
        code,
        line: lines[1],
        values: [a, b],
    })
}

/// What is wrong with the port's answer at an address, if it should be this.
fn unlike(port: &dyn Port, text: &[u8], address: u32, should: AskAnswer) -> Option<String> {
    match asked(port, text, address) {
        Some(is) if is == should => None,
        Some(is) => Some(format!(
            "at {address:08X} port {is:?}, should be {should:?}"
        )),
        None => Some("numbers beside the lent ones were written".into()),
    }
}

/// What is wrong at an address at which a text is asked, if each should be answered as the model answers it.
fn by_model(text: &[u8], wrong: impl Fn(u32, AskAnswer, bool) -> Option<String>) -> Option<String> {
    let walk = walked(RIGHT, text);
    let addresses = telling(text);
    let step = 1 + addresses.len() / MOST + text.len() / LONG;
    addresses.into_iter().step_by(step).find_map(|address| {
        let stated = !found(RIGHT, &walk, address).is_empty();
        wrong(address, answered(RIGHT, &walk, address), stated)
    })
}

/// What is wrong with the port's answers to a text.
fn port(port: &dyn Port, case: &AskCase) -> Option<String> {
    let text = Lent::holding(&case.0);
    let offender = rows(&case.0, BOTH_STOPS)
        .last()
        .and_then(|(answer, _)| offender_of(answer));
    SEEN_PLACES.note(offender);
    let wrong = by_model(&case.0, |address, should, stated| {
        SEEN[usize::from(!stated)].note(should.code);
        unlike(port, text.bytes(), address, should)
    });
    wrong.or_else(|| text.unlike("text", &case.0))
}

/// What is wrong with the face's answers to a text.
fn face(case: &AskCase) -> Option<String> {
    by_model(&case.0, |address, should, _| {
        let is = as_port(ihex::ask(&case.0, address));
        (is != should).then(|| format!("at {address:08X} face {is:?}, model {should:?}"))
    })
}

/// What the face answers, in the form of the port's answers.
fn as_port(answer: Result<Option<u8>, LoadError>) -> AskAnswer {
    match answer {
        Ok(Some(byte)) => AskAnswer::stated(byte),
        Ok(None) => AskAnswer::NOT_STATED,
        Err(why) => refused(why).into(),
    }
}

/// What should be answered for a place, from its mark and its byte.
fn placed(mark: u8, byte: u8) -> AskAnswer {
    match mark {
        0 => AskAnswer::NOT_STATED,
        _ => AskAnswer::stated(byte),
    }
}

/// What is wrong beside a load of the text that was refused: other refusals than of the window, the table, and what lies
/// outside are answered at every address.
fn beside_refusal(port: &dyn Port, text: &[u8], load: LoadAnswer) -> Option<String> {
    if [16, 17, BAD_TABLE]
        .map(|number| REFUSED + number)
        .contains(&load.code)
    {
        return None;
    }
    SEEN[2].note(load.code);
    let addresses = [0, 1, 0xFFFF, 0x1_0000, u32::MAX];
    let mut wrong = addresses.into_iter();
    wrong.find_map(|address| unlike(port, text, address, load.into()))
}

/// What is wrong beside an accepted load, from the address, mark and byte of each place.
fn beside_places(
    port: &dyn Port,
    text: &[u8],
    mut places: impl Iterator<Item = (u32, u8, u8)>,
) -> Option<String> {
    places.find_map(|(address, mark, byte)| {
        let should = placed(mark, byte);
        SEEN[2].note(should.code);
        unlike(port, text, address, should)
    })
}

/// Whether a place of a window is asked for: in a long window the marked ones, their neighbours, and both ends.
fn is_asked(list: &[u8], place: usize) -> bool {
    let near = place.saturating_sub(1)..list.len().min(place + 2);
    list.len() <= ALL || place == 0 || place + 1 == list.len() || list[near].contains(&1)
}

/// What is wrong with the port's answers beside its load of the text into a window.
fn beside_load(port: &dyn Port, case: &LoadCase) -> Option<String> {
    let (mut page, mut marks) = (vec![0xEE; case.page], vec![0xFF; case.marks]);
    let loaded = answer(|places, numbers| {
        port.load(
            &case.text, case.first, &mut page, &mut marks, places, numbers,
        )
    });
    if loaded.code != 0 {
        return beside_refusal(port, &case.text, loaded);
    }
    let list = unpacked(&marks, page.len());
    let places = (0..page.len()).filter(|&place| is_asked(&list, place));
    let places = places.map(|place| (case.first + place as u32, list[place], page[place]));
    beside_places(port, &case.text, places)
}

/// What is wrong with the port's answers beside its load of the text through a table. Texts of S-records are passed over.
fn beside_table(port: &dyn Port, case: &TableCase) -> Option<String> {
    if case.kind == TextKind::SRecords {
        return None;
    }
    let (mut pool, mut marks) = (vec![0xEE; case.pool], vec![0xFF; case.marks]);
    let (text, table) = (&case.text, case.table());
    let loaded = answer(|places, numbers| {
        port.load_table(
            text, case.owner, &table, &mut pool, &mut marks, places, numbers,
        )
    });
    if loaded.code != 0 {
        return beside_refusal(port, text, loaded);
    }
    let list = unpacked(&marks, pool.len());
    let own = case.rows.iter().filter(|row| row.owner == case.owner);
    let places = own.flat_map(|row: &Row| {
        let (first, place) = (row.first, row.place as usize);
        (0..row.length as usize).map(move |i| (first + i as u32, place + i))
    });
    let places = places.map(|(address, place)| (address, list[place], pool[place]));
    beside_places(port, text, places)
}

/// What is compared with the model.
fn with_model<'a>(port: &'a dyn Port, plan: Plan) -> Vec<Kind<'a>> {
    let check = move |case: &AskCase| self::port(port, case);
    let kind = |name, hundreds, make: fn(&mut Chance) -> AskCase| {
        let make = block_of(FEW, make);
        by_block(name, plan, blocks(hundreds, plan), make, check)
    };
    vec![
        kind("bytes asked for", 600, inputs::text),
        by_block(
            "bytes asked for, every text of 3 lines of 16 kinds",
            plan,
            inputs::BLOCKS,
            inputs::by_rule,
            check,
        ),
        kind("bytes asked for, captures", 100, |chance| {
            AskCase(capture(chance).text)
        }),
        kind(
            "bytes asked for, texts of all kinds of lines",
            100,
            |chance| AskCase(mixed(chance).text),
        ),
        kind("bytes asked for, noise", 200, |chance| {
            AskCase(noise(chance).text)
        }),
        by_length(
            "bytes asked for, lines of 519 to 70,000 bytes",
            plan,
            move |case| self::port(port, &AskCase(case.text().text)),
        ),
    ]
}

/// What is compared with the port's own loaders.
pub fn beside_loads<'a>(port: &'a dyn Port, plan: Plan) -> Vec<Kind<'a>> {
    let check = move |case: &LoadCase| beside_load(port, case);
    let kind = |name, hundreds, make: fn(&mut Chance) -> LoadCase| {
        let make = block_of(FEW, make);
        by_block(name, plan, blocks(hundreds, plan), make, check)
    };
    vec![
        kind("bytes asked for and loaded", 100, load),
        kind("bytes asked for and loaded, with starts", 200, starts::load),
        by_chance(
            "bytes asked for and loaded through a table",
            plan,
            40,
            tables::load,
            move |case| beside_table(port, case),
        ),
    ]
}

/// What is compared with the port.
pub fn of_port<'a>(port: &'a dyn Port, plan: Plan) -> Vec<Kind<'a>> {
    let mut kinds = with_model(port, plan);
    kinds.extend(beside_loads(port, plan));
    kinds
}

/// What is compared with the face.
pub fn of_face(plan: Plan) -> Vec<Kind<'static>> {
    vec![
        by_chance("face: bytes asked for", plan, 20, inputs::text, face),
        by_block(
            "face: bytes asked for, every text of 3 lines of 16 kinds",
            plan,
            inputs::BLOCKS,
            inputs::by_rule,
            face,
        ),
    ]
}
