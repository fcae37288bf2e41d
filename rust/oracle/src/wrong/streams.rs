//! Ports whose listeners are wrong.

use ihex_sys::{
    CARRY, CR_WAITS, DONE, FRONT, NOT_READY, PASSED, READY, REFUSED, SKIPPING, SRECORDS, TAKING,
    USED_UP,
};

use crate::inputs::marks::packed_length;
use crate::subjects::port::{Port, Real};
use crate::subjects::told::{Light, Listening};
use crate::wrong::named::{Numbers, Places, Wrong};

/// Where a listener stands.
fn stands(listening: &Listening) -> u8 {
    listening.flags & READY
}

/// The same listener elsewhere.
fn put(listening: &mut Listening, at: u8) {
    listening.flags = listening.flags & SRECORDS | at;
}

/// What the port itself has answered to a chunk, or to a pause, which has none.
struct Call<'a> {
    chunk: &'a [u8],
    before: Listening,
    /// What the staging's marks held before.
    old: Vec<u8>,
    code: u32,
    taken: usize,
    line: usize,
    start: u8,
    listening: Listening,
    stated: &'a mut [u8],
    stage: &'a mut [u8],
}

impl Call<'_> {
    /// Whether a dump is refused.
    fn refused(&self) -> bool {
        (REFUSED..DONE).contains(&self.code)
    }

    /// Whether the rest of the chunk begins so.
    fn goes_on(&self, with: &[u8]) -> bool {
        self.chunk[self.taken..].starts_with(with)
    }
}

type Change = fn(&mut Call);

/// A port whose listener begins elsewhere, or whose answers are changed.
struct Listener {
    begin: fn(&mut Listening),
    feed: Change,
    pause: Change,
}

const SAME: Listener = Listener {
    begin: |_| {},
    feed: |_| {},
    pause: |_| {},
};

impl Port for Listener {
    fn feed(
        &self,
        chunk: &[u8],
        carry: &mut [u8],
        first: u32,
        (stage, stated): (&mut [u8], &mut [u8]),
        listening: &mut Listening,
        taken: &mut usize,
        places: Places,
        numbers: Numbers,
    ) -> u32 {
        (self.begin)(listening);
        let (before, old, (line, start)) = (*listening, stated.to_vec(), places);
        let (staging, spot) = ((&mut *stage, &mut *stated), (&mut *line, &mut *start));
        let code = Real.feed(
            chunk, carry, first, staging, listening, taken, spot, numbers,
        );
        let mut call = Call {
            chunk,
            before,
            old,
            code,
            taken: *taken,
            line: *line,
            start: *start,
            listening: *listening,
            stated,
            stage,
        };
        (self.feed)(&mut call);
        (*listening, *taken) = (call.listening, call.taken);
        (*line, *start) = (call.line, call.start);
        call.code
    }

    fn pause(
        &self,
        carry: &mut [u8],
        first: u32,
        (stage, stated): (&mut [u8], &mut [u8]),
        listening: &mut Listening,
        places: Places,
        numbers: Numbers,
    ) -> u32 {
        let (before, old) = (*listening, stated.to_vec());
        let (line, start) = places;
        let (a, b, c) = numbers;
        let staging = (&mut *stage, &mut *stated);
        let values = (&mut *a, &mut *b, &mut *c);
        let spot = (&mut *line, &mut *start);
        let code = Real.pause(carry, first, staging, listening, spot, values);
        let mut call = Call {
            chunk: &[],
            before,
            old,
            code,
            taken: 0,
            line: *line,
            start: *start,
            listening: *listening,
            stated,
            stage,
        };
        (self.pause)(&mut call);
        *listening = call.listening;
        (*line, *start) = (call.line, call.start);
        if call.code == DONE {
            (*line, *start, *a, *b, *c) = (0, 0, 0, 0, 0);
        }
        call.code
    }
}

/// A port whose answers to chunks are changed so.
fn feeds(name: &'static str, feed: Change) -> Wrong {
    (name, Box::new(Listener { feed, ..SAME }))
}

/// A port whose answers to pauses are changed so.
fn pauses(name: &'static str, pause: Change) -> Wrong {
    (name, Box::new(Listener { pause, ..SAME }))
}

/// A port whose listener begins each chunk so.
fn begins(name: &'static str, begin: fn(&mut Listening)) -> Wrong {
    (name, Box::new(Listener { begin, ..SAME }))
}

/// Those that say another number of used bytes.
fn used() -> Vec<Wrong> {
    vec![
        feeds("drops what follows a dump in its chunk", |call| {
            if call.code == 0 {
                call.taken = call.chunk.len();
            }
        }),
        feeds("drops what follows a refused line in its chunk", |call| {
            if call.refused() {
                call.taken = call.chunk.len();
            }
        }),
        feeds("drops what follows a skipped end record", |call| {
            if call.code == PASSED {
                call.taken = call.chunk.len();
            }
        }),
        feeds("uses the empty line after a dump", |call| {
            call.taken += usize::from(call.goes_on(b"\n"));
        }),
        feeds("leaves the LF of the line that decides", |call| {
            if call.code != USED_UP {
                call.taken -= 1;
            }
        }),
    ]
}

/// Those that skip more, or less.
fn skips() -> Vec<Wrong> {
    vec![
        feeds("begins anew at the line after a refused one", |call| {
            if call.refused() {
                put(&mut call.listening, FRONT);
            }
        }),
        begins("skips nothing", |listening| {
            if stands(listening) == SKIPPING {
                put(listening, FRONT);
            }
        }),
        feeds("skips through two end records", |call| {
            if call.code == PASSED {
                put(&mut call.listening, SKIPPING);
            }
        }),
        feeds("takes the skipped end record for a dump", |call| {
            if call.code == PASSED {
                call.code = 0;
                put(&mut call.listening, READY);
            }
        }),
    ]
}

/// Those that lose something from one chunk to the next.
fn forgets() -> Vec<Wrong> {
    vec![
        feeds("forgets a CR at a chunk's end", |call| {
            call.listening.flags &= !CR_WAITS;
        }),
        feeds("forgets the line that is begun", |call| {
            call.listening.used = 0;
        }),
        feeds("forgets how many digits it left out", |call| {
            call.listening.skipped = 0;
        }),
        feeds("forgets the base", |call| call.listening.base = 0),
        feeds("forgets the start", |call| call.listening.begin = 0),
        feeds("forgets the number of the line", |call| {
            call.listening.lines = 0;
        }),
        feeds("forgets the data records", |call| {
            call.listening.records = 0;
        }),
        feeds("forgets that it is in a dump", |call| {
            if stands(&call.listening) == TAKING {
                put(&mut call.listening, FRONT);
            }
        }),
    ]
}

/// Those that stage something else, or tell something else.
fn stages() -> Vec<Wrong> {
    vec![
        feeds("keeps the marks of the dump before", |call| {
            if stands(&call.before) != TAKING {
                for (mark, old) in call.stated.iter_mut().zip(&call.old) {
                    *mark |= old;
                }
            }
        }),
        feeds("stages another byte at the first place", |call| {
            call.stage[0] = 0xA7;
        }),
        feeds("clears the marks of a dump that is ready", |call| {
            if call.code == 0 {
                call.stated.fill(0);
            }
        }),
        feeds("counts an empty line before a dump", |call| {
            let front = stands(&call.before) == FRONT && call.chunk.starts_with(b"\n");
            if front && call.refused() {
                call.line += 1;
            }
        }),
        feeds("tells no start", |call| call.start = 0),
        feeds("is ready only when more comes", |call| {
            if call.code == 0 && call.taken == call.chunk.len() {
                call.code = USED_UP;
            }
        }),
    ]
}

/// Those that take a pause for something else.
fn at_pauses() -> Vec<Wrong> {
    vec![
        pauses("skips after a pause", |call| {
            if stands(&call.listening) == FRONT {
                put(&mut call.listening, SKIPPING);
            }
        }),
        pauses("skips on over a pause", |call| {
            if stands(&call.before) == SKIPPING {
                call.listening = call.before;
            }
        }),
        pauses("ends no dump at a pause", |call| {
            if call.code != DONE {
                call.code = DONE;
                put(&mut call.listening, FRONT);
            }
        }),
        pauses("goes on with a dump after a pause", |call| {
            if call.refused() {
                call.code = DONE;
                call.listening = call.before;
            }
        }),
        pauses("skips after a dump that a pause has ended", |call| {
            if call.refused() {
                put(&mut call.listening, SKIPPING);
            }
        }),
        pauses("lets a CR wait over a pause", |call| {
            call.listening.flags |= call.before.flags & CR_WAITS;
        }),
        pauses("tells the line of a dump without an end", |call| {
            if call.code == REFUSED + 13 {
                call.line = call.before.lines;
            }
        }),
    ]
}

/// A port that brings a carry, a staging and its marks to lengths that fit.
struct Lenient {
    carry: bool,
    marks: bool,
}

impl Port for Lenient {
    fn feed(
        &self,
        chunk: &[u8],
        carry: &mut [u8],
        first: u32,
        (stage, stated): (&mut [u8], &mut [u8]),
        listening: &mut Listening,
        taken: &mut usize,
        places: Places,
        numbers: Numbers,
    ) -> u32 {
        let (mut own, mut row) = (carry.to_vec(), stated.to_vec());
        if self.carry {
            own.resize(carry.len().max(CARRY), 0);
        }
        if self.marks {
            row.resize(packed_length(stage.len()), 0);
        }
        let staging = (stage, &mut row[..]);
        let code = Real.feed(
            chunk, &mut own, first, staging, listening, taken, places, numbers,
        );
        carry.copy_from_slice(&own[..carry.len()]);
        let n = stated.len().min(row.len());
        stated[..n].copy_from_slice(&row[..n]);
        code
    }
}

/// Those that take lengths that do not fit.
fn lengths() -> Vec<Wrong> {
    let lenient = |name, carry, marks| -> Wrong { (name, Box::new(Lenient { carry, marks })) };
    vec![
        lenient("takes a carry that is too small", true, false),
        lenient("takes marks of another length", false, true),
        feeds("says 16 and uses the chunk", |call| {
            if call.code == REFUSED + 16 {
                call.taken = call.chunk.len();
            }
        }),
        feeds("begins anew at a call that does not fit", |call| {
            if call.code == REFUSED + 16 || call.code == REFUSED + 18 {
                put(&mut call.listening, FRONT);
            }
        }),
        pauses("begins anew at a pause that does not fit", |call| {
            if call.code == REFUSED + 16 || call.code == REFUSED + 18 {
                put(&mut call.listening, FRONT);
            }
        }),
        commits("commits to a page that is longer", |lent| {
            let (stage, stated, page, marks, flags) = lent;
            let n = page.len().min(stage.len());
            right((stage, stated, &mut page[..n], marks, flags))
        }),
        commits("drops a dump whose commit is refused", |lent| {
            let (stage, stated, page, marks, flags) = lent;
            let code = right((stage, stated, page, marks, flags));
            *flags &= SRECORDS;
            code
        }),
    ]
}

/// Page, marks and flags that a commit is to change, with the staging.
type Lent<'a> = (&'a [u8], &'a [u8], &'a mut [u8], &'a mut [u8], &'a mut u8);

/// A port whose commit is this.
struct Commits(fn(Lent) -> u32);

impl Port for Commits {
    fn commit(
        &self,
        (stage, stated): (&[u8], &[u8]),
        page: &mut [u8],
        marks: &mut [u8],
        flags: &mut u8,
    ) -> u32 {
        self.0((stage, stated, page, marks, flags))
    }
}

/// A port whose commit is this, and which has this name.
fn commits(name: &'static str, commit: fn(Lent) -> u32) -> Wrong {
    (name, Box::new(Commits(commit)))
}

/// The port's own commit.
fn right((stage, stated, page, marks, flags): Lent) -> u32 {
    Real.commit((stage, stated), page, marks, flags)
}

/// Those that commit something else.
fn at_commits() -> Vec<Wrong> {
    vec![
        commits(
            "commits every place",
            |(stage, stated, page, marks, flags)| {
                let code = right((stage, stated, page, marks, flags));
                if code == 0 {
                    page.copy_from_slice(stage);
                }
                code
            },
        ),
        commits("leaves the marks", |(stage, stated, page, marks, flags)| {
            let old = marks.to_vec();
            let code = right((stage, stated, page, marks, flags));
            marks.copy_from_slice(&old);
            code
        }),
        commits(
            "adds to the old marks",
            |(stage, stated, page, marks, flags)| {
                let old = marks.to_vec();
                let code = right((stage, stated, page, marks, flags));
                if code == 0 {
                    marks
                        .iter_mut()
                        .zip(old)
                        .for_each(|(mark, old)| *mark |= old);
                }
                code
            },
        ),
    ]
}

/// Those that commit nothing, or go on in another way after a commit.
fn after_commits() -> Vec<Wrong> {
    vec![
        commits("leaves the page", |(stage, stated, page, marks, flags)| {
            let old = page.to_vec();
            let code = right((stage, stated, page, marks, flags));
            page.copy_from_slice(&old);
            code
        }),
        commits("stays ready", |(stage, stated, page, marks, flags)| {
            let before = *flags;
            let code = right((stage, stated, page, marks, flags));
            *flags = before;
            code
        }),
        commits(
            "skips after a commit",
            |(stage, stated, page, marks, flags)| {
                let code = right((stage, stated, page, marks, flags));
                *flags |= if code == 0 { SKIPPING } else { 0 };
                code
            },
        ),
        commits("forgets the kind", |(stage, stated, page, marks, flags)| {
            let code = right((stage, stated, page, marks, flags));
            *flags &= !SRECORDS;
            code
        }),
        commits("commits nothing", |_| NOT_READY),
    ]
}

/// A port whose light takes this for the code of a load, and knows this afterwards, from what it knew and knows.
struct Lights {
    code: fn(u32) -> u32,
    known: fn(u32, u32) -> u32,
}

impl Port for Lights {
    fn light_after(
        &self,
        code: u32,
        light: Light,
        page: &[u8],
        marks: &[u8],
        known: &mut u32,
    ) -> u8 {
        let before = *known;
        let color = Real.light_after((self.code)(code), light, page, marks, known);
        *known = (self.known)(before, *known);
        color
    }
}

/// Those whose light shows something else.
fn at_lights() -> Vec<Wrong> {
    let light = |name, code, known| -> Wrong { (name, Box::new(Lights { code, known })) };
    vec![
        light("shows a refused dump as the page", |_| 0, |_, known| known),
        light("shows broken always", |_| REFUSED + 13, |_, known| known),
        light("keeps the count that it knew", |code| code, |old, _| old),
        light(
            "forgets the count at a refusal",
            |code| code,
            |old, known| if old == known { 65_536 } else { known },
        ),
    ]
}

/// Every port whose listener is wrong.
pub fn all() -> Vec<Wrong> {
    let parts = [
        used(),
        skips(),
        forgets(),
        stages(),
        at_pauses(),
        at_commits(),
        after_commits(),
        at_lights(),
        lengths(),
    ];
    parts.into_iter().flatten().collect()
}
