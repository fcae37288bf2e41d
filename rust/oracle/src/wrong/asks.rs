//! Ports that are wrong where they are asked for one byte.

use ihex_sys::{REFUSED, STOP_AFTER_EOF, STOP_AFTER_FIRST_ERROR};
use original::Record;

use crate::models::asks::{
    after, answered, extended, found, walked, AskAnswer, Base, Rules, LAST_ADDRESS, LAST_OFFSET,
    RIGHT,
};
use crate::subjects::port::{Port, Real};
use crate::subjects::the_crate::places;
use crate::wrong::named::Wrong;

/// The code of a text without an end record.
const MISSING_END: u32 = REFUSED + 13;
/// The code of two starts that differ.
const START_CONFLICT: u32 = REFUSED + 21;

/// A port that answers so, from the text and the address.
struct Asker<F>(F);

impl<F: Fn(&[u8], u32) -> AskAnswer + Sync> Port for Asker<F> {
    fn ask(
        &self,
        text: &[u8],
        address: u32,
        line: &mut usize,
        (a, b): (&mut u64, &mut u64),
    ) -> u32 {
        let answer = self.0(text, address);
        *line = answer.line;
        [*a, *b] = answer.values;
        answer.code
    }
}

/// The port's own answer.
fn by_port(text: &[u8], address: u32) -> AskAnswer {
    let (mut line, mut a, mut b) = (0, 0, 0);
    let code = Real.ask(text, address, &mut line, (&mut a, &mut b));
    let values = [a, b];
    AskAnswer { code, line, values }
}

/// A port that goes by these rules.
fn by_rules(rules: Rules) -> Box<dyn Port> {
    let asked = move |text: &[u8], address| answered(rules, &walked(rules, text), address);
    Box::new(Asker(asked))
}

fn ruled(name: &'static str, rules: Rules) -> Wrong {
    (name, by_rules(rules))
}

/// The answer in place of the right one, from the text and the address.
type Change = fn(AskAnswer, &[u8], u32) -> AskAnswer;

/// A port that gives the right answers, each changed.
fn changed(name: &'static str, change: Change) -> Wrong {
    let asked = move |text: &[u8], address| change(by_port(text, address), text, address);
    (name, Box::new(Asker(asked)))
}

/// A port by the right rules.
pub fn right() -> Box<dyn Port> {
    by_rules(RIGHT)
}

/// Every port that is wrong where it is asked for one byte.
pub fn all() -> Vec<Wrong> {
    [
        walks(),
        segments(),
        bases(),
        addresses(),
        bytes(),
        readings(),
        refusals(),
        lines(),
        codes(),
        windows(),
        values(),
        refused_values(),
    ]
    .into_iter()
    .flatten()
    .collect()
}

/// Those that are to be found beside loads too.
pub fn beside_loads() -> Vec<Wrong> {
    let parts = [bases(), bytes()];
    parts.into_iter().flatten().collect()
}

/// Those that walk through a record wrongly.
fn walks() -> Vec<Wrong> {
    let walks = |name, next| ruled(name, Rules { next, ..RIGHT });
    vec![
        walks("goes on after a segment's end", |base, at| match base {
            Base::Segment(_) => at + 1,
            _ => after(base, at),
        }),
        walks("goes on after the last address", |base, at| match base {
            Base::Linear(_) => at + 1,
            _ => after(base, at),
        }),
        walks("wraps a linear base at 64K", |base, at| match base {
            Base::Linear(_) if at & LAST_OFFSET == LAST_OFFSET => at - LAST_OFFSET,
            _ => after(base, at),
        }),
        walks("wraps a segment to address 0", |base, at| match base {
            Base::Segment(first) if at == first + LAST_OFFSET => 0,
            _ => after(base, at),
        }),
        walks("wraps a linear base to itself", |base, at| match base {
            Base::Linear(first) if at == LAST_ADDRESS => first,
            _ => after(base, at),
        }),
        walks("has all bytes of a record at its first", |_, at| at),
    ]
}

/// Those that take a segment for a linear base.
fn segments() -> Vec<Wrong> {
    vec![
        ruled(
            "begins with a linear base",
            Rules {
                begins: Base::Linear(0),
                ..RIGHT
            },
        ),
        ruled(
            "takes a type 02 for a linear base",
            Rules {
                base: |base, record| match record {
                    Record::ExtendedSegmentAddress(n) => Base::Linear(16 * u64::from(*n)),
                    _ => extended(base, record),
                },
                ..RIGHT
            },
        ),
    ]
}

/// Those with another base.
fn bases() -> Vec<Wrong> {
    let bases = |name, base| ruled(name, Rules { base, ..RIGHT });
    vec![
        bases("keeps a type 02 after a type 04", |base, record| {
            match (base, extended(base, record)) {
                (Base::Segment(old), Base::Linear(new)) => Base::Linear(old + new),
                (_, next) => next,
            }
        }),
        bases("keeps a type 04 after a type 02", |base, record| {
            match (base, extended(base, record)) {
                (Base::Linear(old), Base::Segment(new)) => Base::Segment(old + new),
                (_, next) => next,
            }
        }),
        bases("takes no type 02 after a type 04", |base, record| {
            match (base, extended(base, record)) {
                (Base::Linear(_), Base::Segment(_)) => base,
                (_, next) => next,
            }
        }),
        bases(
            "takes the first extension record alone",
            |base, record| match base {
                Base::Segment(0) => extended(base, record),
                _ => base,
            },
        ),
        bases(
            "takes the base back to 0 at a start record",
            |base, record| match record {
                Record::StartLinearAddress(_) | Record::StartSegmentAddress { .. } => {
                    Base::Segment(0)
                }
                _ => extended(base, record),
            },
        ),
    ]
}

/// Those that compare addresses wrongly.
fn addresses() -> Vec<Wrong> {
    let meets = |name, meets| ruled(name, Rules { meets, ..RIGHT });
    vec![
        meets("compares 16 bits of the address", |at, asked| {
            at & LAST_OFFSET == u64::from(asked) & LAST_OFFSET
        }),
        meets("compares 20 bits of the address", |at, asked| {
            at & 0xF_FFFF == u64::from(asked) & 0xF_FFFF
        }),
        meets("never finds the last address", |at, asked| {
            at == u64::from(asked) && at != LAST_ADDRESS
        }),
        meets("looks one address further", |at, asked| {
            at == u64::from(asked) + 1
        }),
    ]
}

/// Those that take other bytes of a record, or return another of those that are stated.
fn bytes() -> Vec<Wrong> {
    let takes = |name, payload| ruled(name, Rules { payload, ..RIGHT });
    let returns = |name, which| ruled(name, Rules { which, ..RIGHT });
    vec![
        returns("returns the first byte", |stated| stated.first().copied()),
        returns(
            "returns nothing that is stated twice",
            |stated| match stated {
                [byte] => Some(*byte),
                _ => None,
            },
        ),
        takes("misses the last byte of a record", |mut bytes| {
            bytes.pop();
            bytes
        }),
        takes("misses the first byte of a record", |bytes| {
            bytes.into_iter().skip(1).collect()
        }),
        takes("takes the byte after a record", |mut bytes| {
            bytes.push(0);
            bytes
        }),
        takes("takes a record from its end", |mut bytes| {
            bytes.reverse();
            bytes
        }),
        takes("takes at most 16 bytes of a record", |mut bytes| {
            bytes.truncate(16);
            bytes
        }),
    ]
}

/// Those that read with other stops.
fn readings() -> Vec<Wrong> {
    let reads = |name, stops| ruled(name, Rules { stops, ..RIGHT });
    let accepts = |name, stops| {
        let rules = Rules {
            refuses: |_, why| why.code >= MISSING_END,
            stops,
            ..RIGHT
        };
        ruled(name, rules)
    };
    vec![
        reads("reads on after the end record", STOP_AFTER_FIRST_ERROR),
        reads("names the last refused line", STOP_AFTER_EOF),
        accepts("passes over refused lines", STOP_AFTER_EOF),
        accepts(
            "answers from what stands before a refused line",
            STOP_AFTER_EOF | STOP_AFTER_FIRST_ERROR,
        ),
        changed(
            "stops at the first record that states it",
            |right, text, asked| {
                let stated = found(RIGHT, &walked(RIGHT, text), asked);
                stated
                    .first()
                    .map_or(right, |&byte| AskAnswer::stated(byte))
            },
        ),
    ]
}

/// Those that do not refuse what is to be refused, or refuse more.
fn refusals() -> Vec<Wrong> {
    let refuses = |name, refuses| ruled(name, Rules { refuses, ..RIGHT });
    let compares = |name, differs| ruled(name, Rules { differs, ..RIGHT });
    vec![
        refuses(
            "returns a byte that stands before a refused line",
            |found, why| found.is_empty() || why.code >= MISSING_END,
        ),
        refuses("does not notice a missing end record", |_, why| {
            why.code != MISSING_END
        }),
        refuses(
            "returns a byte though the end record is missing",
            |found, why| found.is_empty() || why.code != MISSING_END,
        ),
        refuses("returns a byte though two starts differ", |found, why| {
            found.is_empty() || why.code != START_CONFLICT
        }),
        compares("does not notice two starts", |_, _| false),
        compares("refuses a start that is stated twice", |_, _| true),
        compares("does not tell a type 03 from a type 05", |first, later| {
            first.0 == later.0 && first != later
        }),
    ]
}

/// Those that name another line.
fn lines() -> Vec<Wrong> {
    vec![
        changed("counts lines from 0", |mut right, _, _| {
            right.line = right.line.saturating_sub(1);
            right
        }),
        changed("names the line after a refused one", |mut right, _, _| {
            right.line += usize::from(right.line > 0);
            right
        }),
        changed("does not count empty lines", |mut right, text, _| {
            let before = places(text)
                .into_iter()
                .filter(|one| one.line <= right.line);
            right.line = before.count();
            right
        }),
        changed("names a line with refusal 13", |mut right, text, _| {
            if right.code == MISSING_END {
                right.line = places(text).len();
            }
            right
        }),
        changed("names no line of refusal 21", |mut right, _, _| {
            if right.code == START_CONFLICT {
                right.line = 0;
            }
            right
        }),
        changed("names the line of the byte", |mut right, _, _| {
            right.line += usize::from(right.code == 0);
            right
        }),
    ]
}

/// Those that return another code.
fn codes() -> Vec<Wrong> {
    vec![
        changed(
            "returns 0 for a byte that is not stated",
            |right, _, _| match right {
                AskAnswer::NOT_STATED => AskAnswer::stated(0),
                _ => right,
            },
        ),
        changed(
            "returns FF for a byte that is not stated",
            |right, _, _| match right {
                AskAnswer::NOT_STATED => AskAnswer::stated(0xFF),
                _ => right,
            },
        ),
        changed("takes a byte of 0 for none", |right, _, _| {
            match right == AskAnswer::stated(0) {
                true => AskAnswer::NOT_STATED,
                false => right,
            }
        }),
        changed(
            "refuses a text without data with 13",
            |right, text, _| match walked(RIGHT, text).bytes.is_empty() {
                true => AskAnswer::refused(13, 0, 0, 0),
                false => right,
            },
        ),
        changed(
            "accepts every text without data",
            |right, text, _| match walked(RIGHT, text).bytes.is_empty() {
                true => AskAnswer::NOT_STATED,
                false => right,
            },
        ),
    ]
}

/// Those that refuse as if there were a window.
fn windows() -> Vec<Wrong> {
    vec![
        changed(
            "refuses what is not stated with 17",
            |right, _, asked| match right {
                AskAnswer::NOT_STATED => AskAnswer::refused(17, asked.into(), 0, 1),
                _ => right,
            },
        ),
        changed(
            "refuses data at another address with 17",
            |right, text, asked| {
                let walk = walked(RIGHT, text);
                let other = walk.bytes.iter().find(|(at, _)| *at != u64::from(asked));
                match other {
                    Some((at, _)) if walk.refused.is_none() => AskAnswer::refused(17, *at, 0, 1),
                    _ => right,
                }
            },
        ),
        changed(
            "refuses the last address with 16",
            |right, _, asked| match asked {
                u32::MAX => AskAnswer::refused(16, 0, 0, 0),
                _ => right,
            },
        ),
    ]
}

/// Those that return other values with a byte, or with none.
fn values() -> Vec<Wrong> {
    vec![
        changed("has the byte in b too", |mut right, _, _| {
            if right.code == 0 {
                right.values[1] = right.values[0];
            }
            right
        }),
        changed("counts the bytes of the text in b", |mut right, text, _| {
            if right.code == 0 {
                right.values[1] = walked(RIGHT, text).bytes.len() as u64;
            }
            right
        }),
        changed(
            "has the address in a if none is stated",
            |mut right, _, asked| {
                if right == AskAnswer::NOT_STATED {
                    right.values[0] = asked.into();
                }
                right
            },
        ),
    ]
}

/// Those that return other values of a refusal.
fn refused_values() -> Vec<Wrong> {
    vec![
        changed(
            "leaves the byte in a where it refuses",
            |mut right, text, asked| {
                let stated = found(RIGHT, &walked(RIGHT, text), asked);
                if let (true, Some(&byte)) = (right.code > REFUSED, stated.last()) {
                    right.values[0] = byte.into();
                }
                right
            },
        ),
        changed(
            "changes the values of refusal 6 for each other",
            |mut right, _, _| {
                if right.code == REFUSED + 6 {
                    right.values.reverse();
                }
                right
            },
        ),
        changed("names no place of refusal 2", |mut right, _, _| {
            if right.code == REFUSED + 2 {
                right.values[0] = 0;
            }
            right
        }),
    ]
}
