//! The forms that a page to be written can have, each of which is to be called for.

use std::ops::Range;

use ihex_sys::{MAX_PAGE, MAX_PAGE_FILE};

use crate::comparisons::seen::Times;
use crate::inputs::marks::packed_length;
use crate::inputs::pages::PageCase;
use crate::models::pages::{moved, parted, runs, upper};

/// What is looked at: a case, the runs of addresses in its file and the file's length, where it has one.
struct Look<'a> {
    case: &'a PageCase,
    runs: Vec<Range<u64>>,
    length: Option<usize>,
}

impl Look<'_> {
    fn has_run(&self, n: u64) -> bool {
        self.runs.iter().any(|run| run.end - run.start == n)
    }

    /// Whether a run and the next are such.
    fn has_gap(&self, such: fn(&Range<u64>, &Range<u64>) -> bool) -> bool {
        self.runs.windows(2).any(|two| such(&two[0], &two[1]))
    }

    /// How many unused bits of the marks are set.
    fn unused_set(&self) -> u32 {
        self.case.set_unused().count_ones()
    }

    /// Why page and marks are not a window: the marks have another length, the places are too many, or they
    /// pass 2^32.
    fn faults(&self) -> [bool; 3] {
        let places = self.case.places();
        let end = u64::from(self.case.first) + places as u64;
        [
            self.case.row().len() != packed_length(places),
            places > MAX_PAGE,
            end > 1 << 32,
        ]
    }

    /// Whether the marks have another length, and nothing else is wrong with the window.
    fn has_other_length(&self) -> bool {
        self.faults() == [true, false, false]
    }

    /// Whether that is so, by so many bytes.
    fn has_longer_row(&self, by: isize) -> bool {
        self.has_other_length() && self.case.longer == by
    }

    /// Whether there is a file, and so many places more than a multiple of 8.
    fn has_over(&self, more: usize) -> bool {
        self.length.is_some() && self.case.places() % 8 == more
    }

    fn is_window(&self) -> bool {
        self.faults() == [false; 3]
    }
}

/// A form: its name, and whether a case has it.
type Form = (&'static str, fn(&Look) -> bool);

/// The forms.
const FORMS: [Form; 28] = [
    ("no place", |look| {
        look.length.is_some() && look.case.page.is_empty()
    }),
    ("no mark", |look| {
        look.length == Some(12) && !look.case.page.is_empty()
    }),
    ("a run of 1", |look| look.has_run(1)),
    ("of 15", |look| look.has_run(15)),
    ("of 16", |look| look.has_run(16)),
    ("of 17", |look| look.has_run(17)),
    ("of 33", |look| look.has_run(33)),
    ("of 65,536", |look| look.has_run(65_536)),
    ("a gap of 1", |look| {
        look.has_gap(|one, next| next.start - one.end == 1)
    }),
    ("a run across a multiple of 65,536", |look| {
        look.runs.iter().any(|run| parted(run.clone()).len() == 2)
    }),
    ("a gap at a multiple", |look| {
        look.has_gap(|one, next| (one.end - 1) >> 16 < upper(next))
    }),
    ("first upper bits of 0", |look| {
        look.runs.first().map(upper) == Some(0)
    }),
    ("the address FFFFFFFF", |look| {
        look.runs.last().map(|run| run.end) == Some(1 << 32)
    }),
    ("the longest file", |look| {
        look.length == Some(MAX_PAGE_FILE)
    }),
    ("an output that is full", |look| {
        look.length.is_some() && look.case.spare == 0
    }),
    ("one that is a byte short", |look| {
        look.length.is_some() && look.case.spare == -1
    }),
    ("a multiple of 8 places", |look| look.has_over(0)),
    ("one more", |look| look.has_over(1)),
    ("seven more", |look| look.has_over(7)),
    ("one unused bit set", |look| {
        look.unused_set() == 1 && look.is_window()
    }),
    ("several", |look| look.unused_set() > 1 && look.is_window()),
    ("an unused bit set and no output", |look| {
        look.unused_set() > 0 && look.is_window() && look.case.spare <= 0
    }),
    ("an unused bit set in no window", |look| {
        look.unused_set() > 0 && !look.is_window()
    }),
    ("no window for a byte of marks too few", |look| {
        look.has_longer_row(-1)
    }),
    ("for a byte too many", |look| look.has_longer_row(1)),
    ("for a byte a place", |look| {
        let places = look.case.places();
        look.has_other_length() && places > 2 && look.case.row().len() == places
    }),
    ("for its length", |look| {
        look.faults() == [false, true, false]
    }),
    ("for its end", |look| look.faults() == [false, false, true]),
];

/// Notes the forms of a case, with its file, where it has one.
pub fn note(case: &PageCase, file: Option<&String>) {
    let first = u64::from(case.first);
    let length = file.map(String::len);
    let runs = length.map_or(vec![], |_| runs(&case.marks));
    let look = Look {
        case,
        runs: runs.into_iter().map(|run| moved(run, first)).collect(),
        length,
    };
    for (form, (_, has)) in FORMS.iter().enumerate() {
        if has(&look) {
            SEEN.note(form);
        }
    }
}

/// How often a page of each form was called for.
static SEEN: Times = Times::new();

/// Prints how often each form of a page was called for, and says whether none is missing.
pub fn show_seen() -> bool {
    let names = FORMS.iter().map(|(name, _)| name.to_string());
    SEEN.show("every form of a page (form: times)", names.enumerate())
}
