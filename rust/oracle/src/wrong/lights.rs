//! Ports whose lights are wrong.

use ihex_sys::{
    BAD_PLACE, COLOR_BROKEN, COLOR_FIRST, COLOR_GREEN, COLOR_NO_COUNT, COLOR_RESTARTED,
    COLOR_STALE, COUNT_UNKNOWN, MAX_PAGE, REFUSED,
};

use crate::inputs::marks::packed_length;
use crate::inputs::tables::Kind;
use crate::models::lights::{as_count, color_after, last_byte, moved, set_up, After};
use crate::models::loads::LoadAnswer;
use crate::subjects::port::Port;
use crate::subjects::told::Light;
use crate::wrong::named::Wrong;
use crate::wrong::panels::{changed, joined, remembered, ruled, sets_up, Call, Rules, RIGHT};

/// The code of the refusal of a page.
const BAD_WINDOW: u32 = REFUSED + 16;
/// The code of a text without an end record.
const MISSING_END: u32 = REFUSED + 13;
/// How many addresses there are.
const ADDRESSES: u128 = 1 << 32;

/// A port by the right rules.
pub fn right() -> Box<dyn Port> {
    ruled("is right", RIGHT).1
}

/// Every port whose lights are wrong.
pub fn all() -> Vec<Wrong> {
    [
        places_set_up(),
        windows_set_up(),
        known_set_up(),
        green_again(),
        forward(),
        compared(),
        remembers(),
        forgets(),
        reads(),
        unknown(),
        bytes(),
        marked(),
        places(),
        beyond_stops(),
        lengths(),
        misfits(),
        left_by_misfits(),
        unlike_loads(),
        colors(),
        colors_without_count(),
    ]
    .into_iter()
    .flatten()
    .collect()
}

/// A port that refuses lights for which this holds, and no others.
macro_rules! refuses {
    ($name:expr, |$light:ident| $refused:expr) => {
        sets_up($name, |$light, _| {
            let code = if $refused { REFUSED + BAD_PLACE } else { 0 };
            (code, COUNT_UNKNOWN)
        })
    };
}

/// Whether the right set-up refuses a light.
fn bad(light: Light) -> bool {
    set_up(light) != 0
}

/// Those that refuse other places.
fn places_set_up() -> Vec<Wrong> {
    vec![
        refuses!("sets up a high place just after the page", |l| {
            l.high > l.length || l.low >= l.length
        }),
        refuses!("sets up a low place just after the page", |l| {
            l.high >= l.length || l.low > l.length
        }),
        refuses!("refuses the last place for the high byte", |l| {
            bad(l) || l.high + 1 == l.length
        }),
        refuses!("refuses the last place for the low byte", |l| {
            bad(l) || l.low + 1 == l.length
        }),
        refuses!("looks at the high place alone", |l| l.high >= l.length),
        refuses!("looks at the low place alone", |l| l.low >= l.length),
        refuses!("refuses only if both places lie outside", |l| {
            l.high >= l.length && l.low >= l.length
        }),
        refuses!("refuses places that are the same", |l| {
            bad(l) || l.high == l.low
        }),
        refuses!("refuses a low place before the high one", |l| {
            bad(l) || l.low < l.high
        }),
        refuses!("refuses place 0", |l| bad(l) || l.high == 0 || l.low == 0),
        refuses!("takes places for addresses at set-up", |l| {
            let outside = |place: usize| place.wrapping_sub(l.first as usize) >= l.length;
            outside(l.high) || outside(l.low)
        }),
    ]
}

/// The address after a light's page.
fn end(light: Light) -> u128 {
    light.first as u128 + light.length as u128
}

/// Those that look at the window at set-up.
fn windows_set_up() -> Vec<Wrong> {
    vec![
        refuses!("refuses a page that ends beyond 2^32 with 24", |l| {
            bad(l) || end(l) > ADDRESSES
        }),
        refuses!("refuses a page that ends at 2^32 with 24", |l| {
            bad(l) || end(l) == ADDRESSES
        }),
        refuses!("refuses a page of over 65,536 places with 24", |l| {
            bad(l) || l.length > MAX_PAGE
        }),
        sets_up("refuses a place outside with 16", |light, _| {
            (set_up(light).min(BAD_WINDOW), COUNT_UNKNOWN)
        }),
        sets_up("refuses a page beyond 2^32 with 16", |light, _| {
            let code = if end(light) > ADDRESSES {
                BAD_WINDOW
            } else {
                0
            };
            (set_up(light).max(code), COUNT_UNKNOWN)
        }),
    ]
}

/// Those that know another count after set-up.
fn known_set_up() -> Vec<Wrong> {
    vec![
        sets_up(
            "knows what stood there when it was set up",
            |light, known| {
                (
                    set_up(light),
                    if bad(light) { COUNT_UNKNOWN } else { known },
                )
            },
        ),
        sets_up(
            "knows what stood there when it was refused",
            |light, known| {
                (
                    set_up(light),
                    if bad(light) { known } else { COUNT_UNKNOWN },
                )
            },
        ),
        sets_up("knows 0 at first", |light, _| (set_up(light), 0)),
        sets_up("knows 65,535 at first", |light, _| (set_up(light), 65_535)),
        sets_up("knows more than 65,536 at first", |light, _| {
            (set_up(light), u32::MAX)
        }),
    ]
}

/// A port with other colors for a count that moved so far.
macro_rules! moves {
    ($name:expr, $moved:pat => $color:expr) => {
        compares($name, |known, count| match moved(known, count) {
            $moved => $color,
            _ => color_after(known, count),
        })
    };
}

/// A port that compares a count so with the known one.
fn compares(name: &'static str, color: fn(u16, u16) -> u8) -> Wrong {
    ruled(name, Rules { color, ..RIGHT })
}

/// A port that remembers this after a dump.
fn knows(name: &'static str, known: fn(u8, u32, Option<u16>) -> u32) -> Wrong {
    ruled(name, Rules { known, ..RIGHT })
}

/// A port that remembers this after a dump of a color, from what was known.
macro_rules! knows_after {
    ($name:expr, $color:pat, |$known:ident| $then:expr) => {
        knows($name, |color, $known, count| match color {
            $color => $then,
            _ => remembered(color, $known, count),
        })
    };
}

/// Those that show green for the same dump twice running.
pub fn green_again() -> Vec<Wrong> {
    vec![
        moves!("shows green for the known count", 0 => COLOR_GREEN),
        knows_after!("does not remember a green dump", COLOR_GREEN, |known| known),
        knows("remembers one count less", |color, known, count| {
            remembered(color, known, count.map(|count| count.wrapping_sub(1)))
        }),
    ]
}

/// Those that have other limits of what is forward.
fn forward() -> Vec<Wrong> {
    vec![
        moves!("shows green 32,768 ahead", 32_768 => COLOR_GREEN),
        moves!("shows restarted 32,767 ahead", 32_767 => COLOR_RESTARTED),
        moves!("shows restarted 1 ahead", 1 => COLOR_RESTARTED),
        moves!("shows green 1 ahead alone", 2..=32_767 => COLOR_RESTARTED),
        moves!("shows green for every other count", 1..=65_535 => COLOR_GREEN),
        moves!("shows green 65,535 ahead", 65_535 => COLOR_GREEN),
        moves!("shows stale for a lower count", 32_768..=65_535 => COLOR_STALE),
        moves!("shows restarted for the known count", 0 => COLOR_RESTARTED),
        moves!("shows first for the known count", 0 => COLOR_FIRST),
    ]
}

/// Those that compare counts another way.
fn compared() -> Vec<Wrong> {
    vec![
        compares(
            "does not count on from 65,535 to 0",
            |known, count| match count < known {
                true => COLOR_RESTARTED,
                false => color_after(known, count),
            },
        ),
        compares(
            "shows green for every greater count",
            |known, count| match count > known {
                true => COLOR_GREEN,
                false => color_after(known, count),
            },
        ),
        compares(
            "shows green for every count after 0",
            |known, count| match known {
                0 => COLOR_GREEN,
                _ => color_after(known, count),
            },
        ),
        compares("compares the low bytes alone", |known, count| {
            color_after(known % 256, count % 256)
        }),
        compares("compares the high bytes alone", |known, count| {
            color_after(known / 256, count / 256)
        }),
        compares("looks how far the known count is ahead", |known, count| {
            color_after(count, known)
        }),
        compares("counts modulo 65,535", |known, count| {
            color_after(known % 65_535, count % 65_535)
        }),
    ]
}

/// Those that remember another count.
fn remembers() -> Vec<Wrong> {
    vec![
        knows_after!(
            "does not remember a restarted dump",
            COLOR_RESTARTED,
            |known| known
        ),
        knows_after!("does not remember a first dump", COLOR_FIRST, |known| known),
        knows("remembers the greatest count", |color, known, count| {
            let greatest = |count: u16| count.max(as_count(known).unwrap_or(0));
            remembered(color, known, count.map(greatest))
        }),
        knows_after!("counts on at a broken dump", COLOR_BROKEN, |known| {
            as_count(known).map_or(COUNT_UNKNOWN, |count| count.wrapping_add(1).into())
        }),
        changed(
            "remembers the count of a broken dump",
            has_no_end,
            |call, after| {
                after.shown.known = call.of_text(&ended(call)).shown.known;
            },
        ),
    ]
}

/// Those that forget the count.
fn forgets() -> Vec<Wrong> {
    vec![
        knows_after!("forgets at a broken dump", COLOR_BROKEN, |_known| {
            COUNT_UNKNOWN
        }),
        knows_after!(
            "forgets at a dump without a count",
            COLOR_NO_COUNT,
            |_known| COUNT_UNKNOWN
        ),
        knows_after!("forgets at a restarted dump", COLOR_RESTARTED, |_known| {
            COUNT_UNKNOWN
        }),
        knows_after!("forgets at a stale dump", COLOR_STALE, |_known| {
            COUNT_UNKNOWN
        }),
    ]
}

/// Those that read another count from what is known.
fn reads() -> Vec<Wrong> {
    let reads = |name, reads| ruled(name, Rules { reads, ..RIGHT });
    vec![
        reads("takes 16 bits of a number over 65,536", |known| {
            Some(known as u16).filter(|_| known != COUNT_UNKNOWN)
        }),
        reads("takes 65,535 for a number over 65,536", |known| {
            Some(known.min(65_535) as u16).filter(|_| known != COUNT_UNKNOWN)
        }),
        reads("takes 65,536 for 0", |known| match known {
            COUNT_UNKNOWN => Some(0),
            _ => as_count(known),
        }),
        reads("takes 0 for no count", |known| {
            as_count(known).filter(|&count| count > 0)
        }),
        reads("takes 65,535 for no count", |known| {
            as_count(known).filter(|&count| count < 65_535)
        }),
    ]
}

/// Those that write or show something else where no count is known.
fn unknown() -> Vec<Wrong> {
    let shows = |name, first| ruled(name, Rules { first, ..RIGHT });
    vec![
        knows("keeps a number over 65,536", |_, known, count| {
            count.map_or(known, u32::from)
        }),
        knows("writes 0 where no count is known", |color, known, count| {
            remembered(color, known, count) % COUNT_UNKNOWN
        }),
        shows("shows green where no count was known", COLOR_GREEN),
        shows("shows restarted where no count was known", COLOR_RESTARTED),
        shows("shows stale where no count was known", COLOR_STALE),
    ]
}

/// Whether both bytes of a light's count lie in one place.
fn in_one_place(call: &Call) -> bool {
    call.light.high == call.light.low
}

/// A port that makes such a count of the bytes of a dump.
fn counts(name: &'static str, count: fn(&Call, Option<u8>, Option<u8>) -> Option<u16>) -> Wrong {
    ruled(name, Rules { count, ..RIGHT })
}

/// Those that make another count of the bytes of a dump.
fn bytes() -> Vec<Wrong> {
    vec![
        counts("has the low byte first", |_, high, low| joined(low, high)),
        counts("has no count in one place", |call, high, low| {
            joined(high, low).filter(|_| !in_one_place(call))
        }),
        counts("has the low byte alone in one place", |call, high, low| {
            joined(
                high.map(|byte| if in_one_place(call) { 0 } else { byte }),
                low,
            )
        }),
        counts("has the lower place first", |call, high, low| {
            match call.light.low < call.light.high {
                true => joined(low, high),
                false => joined(high, low),
            }
        }),
        counts("has the low byte alone", |_, high, low| {
            joined(high.map(|_| 0), low)
        }),
        counts("has 255 for each of the high byte", |_, high, low| {
            joined(high, low).map(|count| count - count / 256)
        }),
    ]
}

/// The byte that a page holds before a dump.
fn held(call: &Call, place: usize) -> Option<u8> {
    call.page.get(place).copied()
}

/// Those that take bytes that the dump does not state.
fn marked() -> Vec<Wrong> {
    let takes = |name, byte| ruled(name, Rules { byte, ..RIGHT });
    vec![
        counts("takes the high byte from before", |call, high, low| {
            joined(high.or_else(|| held(call, call.light.high)), low)
        }),
        counts("takes the low byte from before", |call, high, low| {
            joined(high, low.or_else(|| held(call, call.light.low)))
        }),
        counts(
            "takes 0 for a high byte that is not stated",
            |_, high, low| joined(high.or(Some(0)), low),
        ),
        counts(
            "takes 0 for a low byte that is not stated",
            |_, high, low| joined(high, low.or(Some(0))),
        ),
        takes(
            "takes the count from the page, marked or not",
            |call, stated, place| last_byte(&stated.places, place).or_else(|| held(call, place)),
        ),
        takes(
            "takes a byte that was marked before",
            |call, stated, place| {
                let eight = call.marks.get(place / 8).copied().unwrap_or(0);
                let held = held(call, place).filter(|_| eight >> (place % 8) & 1 == 1);
                last_byte(&stated.places, place).or(held)
            },
        ),
        takes("takes the first byte that is stated", |_, stated, place| {
            let mut found = stated.places.iter().filter(|(at, _)| *at == place);
            found.next().map(|(_, byte)| *byte)
        }),
    ]
}

/// Those that look at another place.
fn places() -> Vec<Wrong> {
    /// A port that looks at this place in the place of another.
    macro_rules! looks {
        ($name:expr, |$call:ident, $place:ident| $other:expr) => {
            ruled(
                $name,
                Rules {
                    byte: |$call, stated, $place| last_byte(&stated.places, $other),
                    ..RIGHT
                },
            )
        };
    }
    vec![
        looks!("numbers places from 1", |_call, place| place
            .checked_sub(1)?),
        looks!("looks one place further", |_call, place| place
            .checked_add(1)?),
        looks!("takes places for addresses", |call, place| {
            place.checked_sub(call.light.first as usize)?
        }),
        looks!("takes 16 bits of a place", |_call, place| place & 0xFFFF),
        looks!("takes the last place for one outside", |call, place| {
            place.min(call.light.length.checked_sub(1)?)
        }),
        looks!("takes a place outside modulo the length", |call, place| {
            place.checked_rem(call.light.length)?
        }),
        changed(
            "shows broken if a place lies outside",
            |call, _| bad(call.light),
            |_, after| {
                after.shown.color = COLOR_BROKEN;
            },
        ),
    ]
}

fn always(_: &Call, _: &After) -> bool {
    true
}

fn is_accepted(_: &Call, after: &After) -> bool {
    after.shown.load.code == 0
}

fn is_broken(_: &Call, after: &After) -> bool {
    after.shown.color == COLOR_BROKEN
}

fn has_no_count(_: &Call, after: &After) -> bool {
    after.shown.color == COLOR_NO_COUNT
}

fn has_no_end(_: &Call, after: &After) -> bool {
    after.shown.load.code == MISSING_END
}

/// Whether the page has another length than the light wants.
fn is_misfit(call: &Call, _: &After) -> bool {
    call.page.len() != call.light.length
}

/// The text with one more end record after it.
fn ended(call: &Call) -> Vec<u8> {
    [call.text, b"\n", call.kind.end()].concat()
}

/// The text without its end records, and one after it.
fn endless(call: &Call) -> Vec<u8> {
    let end = call.kind.end();
    let lines = call.text.split(|&byte| byte == b'\n');
    let lines = lines.filter(|line| line.strip_suffix(b"\r").unwrap_or(line) != end);
    lines.chain([end]).collect::<Vec<_>>().join(&b'\n')
}

/// Those that look at what follows the line at which a load stops.
pub fn beyond_stops() -> Vec<Wrong> {
    vec![
        changed(
            "takes a count after the end record",
            is_accepted,
            |call, after| {
                let all = call.of_text(&endless(call)).shown;
                if all.load.code == 0 {
                    (after.shown.color, after.shown.known) = (all.color, all.known);
                }
            },
        ),
        changed(
            "shows broken for a refused line after the end",
            always,
            |call, after| {
                if call.of_text(&endless(call)).shown.load.code != 0 {
                    after.shown.color = COLOR_BROKEN;
                }
            },
        ),
        changed(
            "forgets if anything follows the end record",
            is_accepted,
            |call, after| {
                let line = call.text.split(|&byte| byte == b'\n').next_back();
                if line.map_or(false, |line| line != call.kind.end() && !line.is_empty()) {
                    after.shown.known = COUNT_UNKNOWN;
                }
            },
        ),
    ]
}

/// Those that take pages of other lengths.
fn lengths() -> Vec<Wrong> {
    let misfits = |name, misfits| ruled(name, Rules { misfits, ..RIGHT });
    vec![
        misfits("takes a page of any length", |_, _| false),
        misfits("takes a longer page", |length, page| page < length),
        misfits("takes a shorter page", |length, page| page > length),
        misfits("compares the lengths of the marks", |length, page| {
            packed_length(length.min(MAX_PAGE + 8)) != packed_length(page)
        }),
        misfits("compares 16 bits of the length", |length, page| {
            length & 0xFFFF != page & 0xFFFF
        }),
        misfits("refuses a page of 65,536 places", |length, page| {
            length != page || page == MAX_PAGE
        }),
        misfits("refuses an empty page", |length, page| {
            length != page || page == 0
        }),
    ]
}

/// Those that answer otherwise to a page of another length.
fn misfits() -> Vec<Wrong> {
    vec![
        changed("names a line with refusal 16", is_misfit, |_, after| {
            after.shown.load.line = 1;
        }),
        changed(
            "refuses a page of another length with 24",
            is_misfit,
            |_, after| {
                after.shown.load.code = REFUSED + BAD_PLACE;
            },
        ),
        changed(
            "tells the length that it wants",
            is_misfit,
            |call, after| {
                after.shown.load.values[0] = call.light.length as u64;
            },
        ),
        changed(
            "shows no count for a page of another length",
            is_misfit,
            |_, after| {
                after.shown.color = COLOR_NO_COUNT;
            },
        ),
        changed(
            "reads the text before it looks at the length",
            is_misfit,
            |call, after| {
                let loaded = call.at_any_length().shown.load;
                if loaded.code != 0 {
                    after.shown.load = loaded;
                }
            },
        ),
    ]
}

/// Those that leave something else where the page has another length.
fn left_by_misfits() -> Vec<Wrong> {
    vec![
        changed(
            "forgets at a page of another length",
            is_misfit,
            |_, after| {
                after.shown.known = COUNT_UNKNOWN;
            },
        ),
        changed(
            "clears the marks of a page of another length",
            is_misfit,
            |_, after| {
                after.marks.fill(0);
            },
        ),
        changed(
            "loads into a page of another length",
            is_misfit,
            |call, after| {
                let loaded = call.at_any_length();
                (after.page, after.marks) = (loaded.page, loaded.marks);
            },
        ),
    ]
}

/// Those that differ from a load into the page of the light.
pub fn unlike_loads() -> Vec<Wrong> {
    [other_loads(), other_answers(), left_by_loads()]
        .into_iter()
        .flatten()
        .collect()
}

/// Those that load something else, or elsewhere.
fn other_loads() -> Vec<Wrong> {
    vec![
        changed("reads S-records as Intel HEX", always, |call, after| {
            *after = call.by_port(call.light, Kind::Intel, call.text);
        }),
        changed("reads Intel HEX as S-records", always, |call, after| {
            *after = call.by_port(call.light, Kind::SRecords, call.text);
        }),
        changed("loads into a window at 0", always, |call, after| {
            let light = Light {
                first: 0,
                ..call.light
            };
            *after = call.by_port(light, call.kind, call.text);
        }),
    ]
}

/// Those that answer otherwise than the load.
fn other_answers() -> Vec<Wrong> {
    vec![
        changed("names no line of a broken dump", is_broken, |_, after| {
            after.shown.load.line = 0;
        }),
        changed("tells no start", always, |_, after| {
            after.shown.load.start = 0;
        }),
        changed("counts no data records", is_accepted, |_, after| {
            after.shown.load.values[0] = 0;
        }),
        changed(
            "refuses a dump without a count",
            has_no_count,
            |_, after| {
                after.shown.load = LoadAnswer::refused(BAD_PLACE, 0, 0, 0);
            },
        ),
    ]
}

/// Those that leave something else than the load.
fn left_by_loads() -> Vec<Wrong> {
    vec![
        changed(
            "clears the marks at a broken dump",
            is_broken,
            |_, after| {
                after.marks.fill(0);
            },
        ),
        changed("keeps the marks from before", is_accepted, |call, after| {
            let both = after.marks.iter_mut().zip(&call.marks);
            both.for_each(|(eight, old)| *eight |= old);
        }),
        changed(
            "keeps the page without a count",
            has_no_count,
            |call, after| {
                after.page = call.page.clone();
            },
        ),
    ]
}

/// Those that show another color for a broken dump.
fn colors() -> Vec<Wrong> {
    vec![
        changed(
            "leaves the color at a broken dump",
            is_broken,
            |call, after| {
                after.shown.color = call.color;
            },
        ),
        changed(
            "shows no count without an end record",
            has_no_end,
            |_, after| {
                after.shown.color = COLOR_NO_COUNT;
            },
        ),
        changed(
            "shows the color without an end record",
            has_no_end,
            |call, after| {
                after.shown.color = call.of_text(&ended(call)).shown.color;
            },
        ),
    ]
}

/// Those that show another color if no count is stated.
fn colors_without_count() -> Vec<Wrong> {
    vec![
        changed("shows broken without a count", has_no_count, |_, after| {
            after.shown.color = COLOR_BROKEN;
        }),
        changed("shows stale without a count", has_no_count, |_, after| {
            after.shown.color = COLOR_STALE;
        }),
        changed(
            "leaves the color without a count",
            has_no_count,
            |call, after| {
                after.shown.color = call.color;
            },
        ),
    ]
}
