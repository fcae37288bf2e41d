//! Readers of chunks that are wrong.

use ihex_sys::{CARRY, CR_WAITS, DONE, FINISHED, IN_CARRY, IN_CHUNK, REFUSED, USED_UP};

use crate::models::chunks::CARRY_TOO_SMALL;
use crate::subjects::port::{Port, Real};
use crate::subjects::told::Place;
use crate::wrong::chunk_calls::{ahead, behind, LAST_CARRIED};
use crate::wrong::named::Wrong;

/// Shows another place.
struct Shown(fn(Place) -> Place);

impl Port for Shown {
    fn shown(&self, place: Place, chunk: &[u8], carry: &[u8], start: &mut usize) -> usize {
        Real.shown(self.0(place), chunk, carry, start)
    }
}

/// Every wrong reader of chunks.
pub fn all() -> Vec<Wrong> {
    [
        cut(),
        long(),
        places(),
        counts(),
        numbers(),
        full(),
        shown(),
        ends(),
        small(),
    ]
    .into_iter()
    .flatten()
    .collect()
}

/// Those that go wrong where a line is cut.
fn cut() -> Vec<Wrong> {
    vec![
        behind(
            "takes a CR at a chunk's end for part of the line",
            |code, _, call| {
                let used = call.state.used;
                if code == USED_UP && call.state.flags & CR_WAITS != 0 && used < CARRY {
                    call.carry[used] = b'\r';
                    call.state.used += 1;
                    call.state.flags &= !CR_WAITS;
                }
            },
        ),
        behind("drops a CR at a chunk's end", |code, _, call| {
            if code == USED_UP {
                call.state.flags &= !CR_WAITS;
            }
        }),
        ahead("does not use the carry at a line's second cut", |call| {
            if call.chunk.is_some() && !call.rest().contains(&b'\n') && !call.rest().is_empty() {
                call.state.used = 0;
            }
        }),
        ahead(
            "skips a chunk's first byte behind a line of one byte",
            |call| {
                if call.chunk.is_some() && call.state.used == 1 {
                    call.state.position = 1;
                }
            },
        ),
    ]
}

/// Those that go wrong in a line that is too long.
fn long() -> Vec<Wrong> {
    vec![
        behind("forgets a line that is too long", |code, _, call| {
            if code == USED_UP && call.state.used == CARRY {
                call.state.used = 0;
            }
        }),
        behind(
            "does not see what stands behind 522 bytes",
            |code, before, call| {
                if code == USED_UP && before.used == CARRY {
                    call.carry[CARRY - 1] = b'0';
                }
            },
        ),
        ahead("forgets a byte that is no digit behind 522", |call| {
            if call.state.used == CARRY && call.carry.len() >= CARRY && call.chunk.is_some() {
                call.carry[CARRY - 1] = b'0';
            }
        }),
    ]
}

/// Those that name another place of a byte that is not a digit, in a line that is too long.
fn places() -> Vec<Wrong> {
    vec![
        behind(
            "forgets the digits left out, and names 521",
            |code, before, call| call.rename(code, before, |_| LAST_CARRIED),
        ),
        behind(
            "counts the digits left out one too many",
            |code, before, call| call.rename(code, before, |place| (place + 1).min(65_535)),
        ),
        ahead("names the last byte behind 521 that is no digit", |call| {
            if call.state.used == CARRY && call.carry.len() >= CARRY && call.has_offender_ahead() {
                call.carry[CARRY - 1] = b'0';
            }
        }),
    ]
}

/// Those whose count of the digits left out of such a line is another.
fn counts() -> Vec<Wrong> {
    vec![
        behind(
            "forgets between chunks the digits left out",
            |code, _, call| {
                if code == USED_UP {
                    call.state.skipped = 0;
                }
            },
        ),
        behind("counts a cut as a digit left out", |code, _, call| {
            if code == USED_UP && call.state.used == CARRY {
                call.state.skipped = call.state.skipped.saturating_add(1);
            }
        }),
        behind(
            "counts the digits left out from 0 again at 65,535",
            |code, _, call| {
                if code == USED_UP && call.state.skipped == u16::MAX {
                    call.state.skipped = 0;
                }
            },
        ),
        behind(
            "keeps the count of digits left out behind the line",
            |code, before, call| {
                if code == REFUSED + 2 {
                    call.state.skipped = before.skipped;
                }
            },
        ),
    ]
}

/// Those that count wrongly.
fn numbers() -> Vec<Wrong> {
    vec![
        behind(
            "does not count empty lines of earlier chunks",
            |code, _, call| {
                if code == USED_UP {
                    call.state.empties = 0;
                }
            },
        ),
        behind("counts a cut as a line", |code, _, call| {
            if code == USED_UP && call.state.used > 0 {
                call.state.empties = call.state.empties.wrapping_add(1);
            }
        }),
    ]
}

/// Those that do not keep all where the pool is full.
fn full() -> Vec<Wrong> {
    const FULL: u32 = REFUSED + 10;
    vec![
        behind(
            "uses up the line that finds the pool full",
            |code, _, call| {
                if code == FULL {
                    let feed = call.rest().iter().position(|&byte| byte == b'\n');
                    call.state.position += feed.map_or(0, |feed| feed + 1);
                    call.state.used = 0;
                }
            },
        ),
        behind(
            "writes into the carry's used bytes where the pool is full",
            |code, _, call| {
                if code == FULL && call.state.used > 0 {
                    call.carry[0] = 0;
                }
            },
        ),
    ]
}

/// Those that show another line.
fn shown() -> Vec<Wrong> {
    let show = |name, place| -> Wrong { (name, Box::new(Shown(place))) };
    vec![
        show(
            "shows a line from the other buffer",
            |(lies, from, len)| match lies {
                IN_CHUNK => (IN_CARRY, from, len),
                IN_CARRY => (IN_CHUNK, from, len),
                _ => (lies, from, len),
            },
        ),
        show("shows a line without its last byte", |(lies, from, len)| {
            (lies, from, len.saturating_sub(1))
        }),
        behind("says that an older line lies in the chunk", |_, _, call| {
            if call.place.0 == IN_CARRY {
                call.place.0 = IN_CHUNK;
            }
        }),
        behind("shows a line that is refused", |code, _, call| {
            if code > REFUSED && code < DONE {
                call.place = (IN_CARRY, 0, 1);
            }
        }),
    ]
}

/// Those that go wrong at a stop or at the text's end.
fn ends() -> Vec<Wrong> {
    vec![
        behind("goes on after an end record", |code, _, call| {
            if code == 1 {
                call.state.flags &= !FINISHED;
            }
        }),
        behind("uses up the chunk at an end record", |code, _, call| {
            if code == 1 && call.state.flags & FINISHED != 0 {
                call.state.position = call.chunk.map_or(0, <[u8]>::len);
            }
        }),
        ahead("drops a CR at the text's end", |call| {
            if call.chunk.is_none() {
                call.state.flags &= !CR_WAITS;
            }
        }),
        behind("goes on behind the text's end", |_, _, call| {
            if call.chunk.is_none() && call.state.flags & 3 == 0 {
                call.state.flags &= !FINISHED;
            }
        }),
    ]
}

/// Those that treat a carry wrongly that is too small.
fn small() -> Vec<Wrong> {
    vec![
        behind("writes into a carry that is too small", |code, _, call| {
            if let Some(last) = call.carry.last_mut().filter(|_| code == CARRY_TOO_SMALL) {
                *last = 0;
            }
        }),
        ahead("takes 523 used bytes for 522", |call| {
            if call.state.used == CARRY + 1 && call.carry.len() >= CARRY {
                call.state.used = CARRY;
            }
        }),
        ahead("judges a stop before the carry", |call| {
            let counts = call.state.used > CARRY && call.carry.len() >= CARRY;
            if counts && call.state.flags & FINISHED != 0 {
                call.state.used = 0;
            }
        }),
    ]
}
