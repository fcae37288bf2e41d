//! Loaders that are wrong with the start.

use ihex_sys::{REFUSED, STOP_AFTER_EOF, STOP_AFTER_FIRST_ERROR};

use crate::inputs::loads::LoadCase;
use crate::models::loads::{placed_by, start_of, LoadAnswer, Rules, Start, BOTH_STOPS, RIGHT};
use crate::models::texts::line_of;
use crate::subjects::port::{Port, Real};
use crate::subjects::the_crate::rows;
use crate::wrong::loads::ruled;
use crate::wrong::named::{tell, Numbers, Places, Wrong};

/// The code of two starts that differ.
const START_CONFLICT: u32 = REFUSED + 21;

/// The answer in place of the right one, from the case.
type Change = fn(LoadAnswer, &LoadCase) -> LoadAnswer;

/// A loader that gives the right answers, each changed; page and marks are as they should be.
struct Changed(Change);

impl Port for Changed {
    fn load(
        &self,
        text: &[u8],
        first: u32,
        page: &mut [u8],
        marks: &mut [u8],
        places: Places,
        numbers: Numbers,
    ) -> u32 {
        let case = LoadCase::of(text, first, page, marks);
        let (mut line, mut start, mut a, mut b, mut c) = (0, 0, 0, 0, 0);
        let (own, values) = ((&mut line, &mut start), (&mut a, &mut b, &mut c));
        let code = Real.load(text, first, page, marks, own, values);
        let right = LoadAnswer {
            code,
            line,
            start,
            values: [a, b, c],
        };
        tell(self.0(right, &case), places, numbers)
    }
}

/// The starts that a text states, with their lines as bytes and by number, read with these stops.
fn starts(text: &[u8], flags: u8) -> Vec<(Start, Vec<u8>, usize)> {
    let rows = rows(text, flags);
    let stated = rows.iter().filter_map(|row| {
        let start = start_of(row.0.as_ref().ok()?)?;
        Some((start, line_of(text, row), row.1.line))
    });
    stated.collect()
}

/// The line of the first start whose form, made so of the start and its line, is not the first one's.
fn first_other<T: PartialEq>(
    starts: &[(Start, Vec<u8>, usize)],
    form: impl Fn(&Start, &[u8]) -> T,
) -> Option<usize> {
    let (start, line, _) = starts.first()?;
    let first = form(start, line);
    let mut others = starts
        .iter()
        .filter(|(start, line, _)| form(start, line) != first);
    others.next().map(|(.., number)| *number)
}

/// The refusal of two starts that differ, at a line.
fn conflict(line: usize) -> LoadAnswer {
    LoadAnswer::refused(21, 0, 0, line)
}

/// The linear address that a start comes to.
fn address(start: Start) -> u64 {
    match start {
        (3, cs, ip) => 16 * cs + ip,
        (_, address, _) => address,
    }
}

/// The payload of a start's record.
fn payload(start: Start) -> u64 {
    match start {
        (3, cs, ip) => cs << 16 | ip,
        (_, address, _) => address,
    }
}

fn changed(name: &'static str, change: Change) -> Wrong {
    (name, Box::new(Changed(change)))
}

/// Every loader that is wrong with the start.
pub fn all() -> Vec<Wrong> {
    [compared(), kept(), spelt(), told(), refused(), ordered()]
        .into_iter()
        .flatten()
        .collect()
}

/// Those that compare two starts wrongly.
fn compared() -> Vec<Wrong> {
    let compares = |name, differs| ruled(name, Rules { differs, ..RIGHT });
    vec![
        compares("refuses a start that is stated twice", |_, _| true),
        compares("refuses no second start, and tells the first", |_, _| false),
        compares(
            "compares CS with IP by their address",
            |first, later| match (first.0, later.0) {
                (3, 3) => address(first) != address(later),
                _ => first != later,
            },
        ),
        compares("compares all starts by their address", |first, later| {
            address(first) != address(later)
        }),
        compares("does not tell a type 03 from a type 05", |first, later| {
            payload(first) != payload(later)
        }),
        compares("compares CS alone", |first, later| {
            (first.0, first.1) != (later.0, later.1)
        }),
        compares("compares IP alone", |first, later| match first.0 {
            3 => (first.0, first.2) != (later.0, later.2),
            _ => first != later,
        }),
        compares("compares 16 bits of a linear address", |first, later| {
            (first.0, first.1 & 0xFFFF, first.2) != (later.0, later.1 & 0xFFFF, later.2)
        }),
        compares("takes a start at 0 for none", |first, later| {
            payload(first) != 0 && first != later
        }),
    ]
}

/// Those that keep another start than the first, or compare with another.
fn kept() -> Vec<Wrong> {
    vec![
        ruled(
            "tells the last start",
            Rules {
                differs: |_, _| false,
                kept: |_, later| later,
                ..RIGHT
            },
        ),
        changed(
            "reads a start after the end record",
            |right, case| match starts(&case.text, STOP_AFTER_FIRST_ERROR).first() {
                Some(&(start, ..)) if right.code == 0 && right.start == 0 => {
                    LoadAnswer::accepted(right.values[0], Some(start))
                }
                _ => right,
            },
        ),
        changed("compares a start after the end record", |right, case| {
            let all = starts(&case.text, STOP_AFTER_FIRST_ERROR);
            match first_other(&all, |start, _| *start) {
                Some(line) if right.code == 0 => conflict(line),
                _ => right,
            }
        }),
    ]
}

/// Those that compare how the record is spelt.
fn spelt() -> Vec<Wrong> {
    vec![
        changed("takes small letters for another start", |right, case| {
            let all = starts(&case.text, BOTH_STOPS);
            match first_other(&all, |_, line| line.to_vec()) {
                Some(line) if right.code == 0 => conflict(line),
                _ => right,
            }
        }),
        changed(
            "compares the address field of start records",
            |right, case| {
                let all = starts(&case.text, BOTH_STOPS);
                match first_other(&all, |_, line| line.to_ascii_uppercase()) {
                    Some(line) if right.code == 0 => conflict(line),
                    _ => right,
                }
            },
        ),
    ]
}

/// Those that tell the start wrongly.
fn told() -> Vec<Wrong> {
    vec![
        changed("tells no start", |right, _| match right.code {
            0 => LoadAnswer::accepted(right.values[0], None),
            _ => right,
        }),
        changed("tells no start that is 0", |right, _| match right.values {
            [records, 0, 0] if right.code == 0 => LoadAnswer::accepted(records, None),
            _ => right,
        }),
        changed("tells IP before CS", |mut right, _| {
            if right.start == 3 {
                right.values.swap(1, 2);
            }
            right
        }),
        changed("tells CS and IP as an address", |right, _| {
            let [records, b, c] = right.values;
            match right.start {
                3 => LoadAnswer::accepted(records, Some((5, address((3, b, c)), 0))),
                _ => right,
            }
        }),
        changed("tells a linear address in halves", |mut right, _| {
            if right.start == 5 {
                let address = right.values[1];
                right.values[1..].copy_from_slice(&[address >> 16, address & 0xFFFF]);
            }
            right
        }),
        changed("counts a start as a data record", |mut right, _| {
            right.values[0] += u64::from(right.start != 0);
            right
        }),
    ]
}

/// Those that refuse wrongly.
fn refused() -> Vec<Wrong> {
    vec![
        changed(
            "names the line of the first start in refusal 21",
            |mut right, case| {
                if right.code == START_CONFLICT {
                    right.line = starts(&case.text, BOTH_STOPS)[0].2;
                }
                right
            },
        ),
        changed("names no line of refusal 21", |mut right, _| {
            if right.code == START_CONFLICT {
                right.line = 0;
            }
            right
        }),
        changed("tells two starts with refusal 21", |mut right, case| {
            if right.code == START_CONFLICT {
                right.values[0] = payload(starts(&case.text, BOTH_STOPS)[0].0);
            }
            right
        }),
        changed(
            "tells the start of a text that it refuses",
            |mut right, case| {
                if right.code == REFUSED + 13 {
                    right.start = starts(&case.text, BOTH_STOPS).first().map_or(0, |s| s.0 .0);
                }
                right
            },
        ),
    ]
}

/// Those that judge in another order than the text's, and one that clears the marks before it refuses.
fn ordered() -> Vec<Wrong> {
    vec![
        changed("compares starts before it reads lines", |right, case| {
            let all = starts(&case.text, STOP_AFTER_EOF);
            match first_other(&all, |start, _| *start) {
                Some(line) if right.code == REFUSED + 6 => conflict(line),
                _ => right,
            }
        }),
        changed("compares starts before it places bytes", |right, case| {
            let all = starts(&case.text, BOTH_STOPS);
            match first_other(&all, |start, _| *start) {
                Some(line) if right.code == REFUSED + 17 => conflict(line),
                _ => right,
            }
        }),
        changed("compares starts after all lines", |right, case| {
            let rules = Rules {
                differs: |_, _| false,
                ..RIGHT
            };
            let (mut page, mut row) = (vec![0; case.page], vec![0; case.marks]);
            match placed_by(rules, case, &mut page, &mut row) {
                answer if right.code == START_CONFLICT && answer.code != 0 => answer,
                _ => right,
            }
        }),
        crate::wrong::loads::load("clears the marks before refusal 21", |code, _, marks, _| {
            if code == START_CONFLICT {
                marks.fill(0);
            }
        }),
    ]
}
