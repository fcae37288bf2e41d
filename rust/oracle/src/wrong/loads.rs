//! Loaders that are wrong.

use ihex_sys::REFUSED;

use crate::inputs::loads::LoadCase;
use crate::models::loads::{
    first_outside, intel, placed_by, Latest, Placing, Rules, RIGHT, UNWRAPPED,
};
use crate::subjects::port::{Port, Real};
use crate::wrong::named::{tell, Numbers, Places, Wrong};

/// What is done to the marks or the first number, from the code and the address after the window.
type LoadChange = fn(u32, u64, &mut [u8], &mut u64);

/// A loader that does something to its marks or first number.
struct Load(LoadChange);

impl Port for Load {
    fn load(
        &self,
        text: &[u8],
        first: u32,
        page: &mut [u8],
        marks: &mut [u8],
        places: Places,
        (a, b, c): Numbers,
    ) -> u32 {
        let code = Real.load(text, first, page, marks, places, (a, b, c));
        self.0(code, u64::from(first) + page.len() as u64, marks, a);
        code
    }
}

/// A loader that goes by other rules.
struct Ruled(Rules);

impl Port for Ruled {
    fn load(
        &self,
        text: &[u8],
        first: u32,
        page: &mut [u8],
        marks: &mut [u8],
        places: Places,
        numbers: Numbers,
    ) -> u32 {
        let case = LoadCase::of(text, first, page, marks);
        tell(placed_by(self.0, &case, page, marks), places, numbers)
    }
}

/// A loader that is wrong so.
pub fn load(name: &'static str, change: LoadChange) -> Wrong {
    (name, Box::new(Load(change)))
}

/// Loaders that answer or mark wrongly.
pub fn answers() -> Vec<Wrong> {
    vec![
        load("clears the marks before it refuses", |code, _, marks, _| {
            if code == REFUSED + 17 {
                marks.fill(0);
            }
        }),
        load(
            "names the address of the record, not of the byte outside",
            |code, behind, _, a| {
                if code == REFUSED + 17 && *a == behind {
                    *a = a.saturating_sub(1);
                }
            },
        ),
        load("accepts and stores nothing", |code, _, marks, _| {
            if code == 0 {
                marks.fill(0);
            }
        }),
    ]
}

/// A loader that goes by these rules.
pub fn ruled(name: &'static str, rules: Rules) -> Wrong {
    (name, Box::new(Ruled(rules)))
}

/// Loaders that place a record's bytes wrongly.
pub fn placings() -> Vec<Wrong> {
    let placed = |(name, placing)| ruled(name, Rules { placing, ..RIGHT });
    let others: [(_, Placing); 2] = [
        (
            "wraps at 64K under a linear base too",
            |latest, offset, i| match latest {
                Latest::Linear(base) => base + ((offset + i) & 0xFFFF),
                _ => intel(latest, offset, i),
            },
        ),
        (
            "wraps a segment at 1 MiB",
            |latest, offset, i| match latest {
                Latest::Segment(_) | Latest::Back(_) => intel(latest, offset, i) & 0xF_FFFF,
                _ => intel(latest, offset, i),
            },
        ),
    ];
    UNWRAPPED.into_iter().chain(others).map(placed).collect()
}

/// Loaders in which a start record changes the base or its rule.
pub fn starts() -> Vec<Wrong> {
    let start = |name, start| ruled(name, Rules { start, ..RIGHT });
    vec![
        start(
            "ends the wrap at a start record before any extension record",
            |latest| match latest {
                Latest::None => Latest::Linear(0),
                _ => latest,
            },
        ),
        start(
            "ends a segment's wrap at a start record",
            |latest| match latest {
                Latest::None => latest,
                _ => Latest::Linear(latest.base()),
            },
        ),
        start("takes the base back to 0 at a start record", |_| {
            Latest::None
        }),
        start("wraps a linear base behind a start record", |latest| {
            Latest::Segment(latest.base())
        }),
    ]
}

/// A loader in which a second type 02 changes the base, and one that looks at a record's two ends only.
pub fn others() -> Vec<Wrong> {
    vec![
        ruled(
            "adds a type 02 to the one before",
            Rules {
                segment: |latest, base| match latest {
                    Latest::Linear(_) => Latest::Back(base),
                    _ => Latest::Back(latest.base() + base),
                },
                ..RIGHT
            },
        ),
        ruled(
            "accepts a record whose first and last byte lie inside",
            Rules {
                outside: |addresses, window| match (addresses.first(), addresses.last()) {
                    (Some(a), Some(b)) if window.contains(a) && window.contains(b) => None,
                    _ => first_outside(addresses, window),
                },
                ..RIGHT
            },
        ),
    ]
}
