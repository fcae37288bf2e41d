//! What a call of the chunk reader should answer and leave: the lines are cut here by the rules, and the
//! crate judges them.

use ihex_sys::{CARRY, CR_WAITS, DONE, FINISHED, IN_CARRY, IN_CHUNK, NOWHERE, REFUSED, USED_UP};

use crate::inputs::chunks::Standing;
use crate::models::lines::in_pool;
use crate::models::texts::flags_behind;
use crate::subjects::the_crate::{by_crate, read, Answer, Refusal};
use crate::subjects::told::{pool_full, told, Place, Told, LAST_PLACE};

/// The code of a carry under 522 bytes, or of a state that counts more than 522 used.
pub const CARRY_TOO_SMALL: u32 = REFUSED + 18;

/// What a call should answer and leave.
pub struct Outcome {
    pub told: Told,
    pub state: Standing,
    pub place: Place,
    /// The line that gave a record; else nothing.
    pub shown: Vec<u8>,
    /// What the carry begins with.
    pub carried: Vec<u8>,
}

/// What is kept of a line that is begun: of one over 522 bytes the first 521, and the first after them
/// that is not a digit, or the last if all are digits. And how many digits are left out between the two.
fn kept(line: &[u8]) -> (Vec<u8>, usize) {
    let (front, behind) = line.split_at(line.len().min(CARRY - 1));
    let last = behind.len().saturating_sub(1);
    let offender = behind.iter().position(|byte| !byte.is_ascii_hexdigit());
    let left = offender.unwrap_or(last);
    let one = behind.get(left..=left).unwrap_or(&[]);
    ([front, one].concat(), left)
}

/// The first line that has a byte, from a state on.
enum Cut {
    /// It ends in the chunk, and begins there at `from` if it is not older.
    Whole {
        from: Option<usize>,
        empties: usize,
        line: Vec<u8>,
        next: usize,
    },
    /// It does not end in the chunk, and begins there at `from` if it is not older.
    Open {
        from: Option<usize>,
        empties: usize,
        line: Vec<u8>,
        cr: bool,
    },
}

fn cut(state: Standing, chunk: &[u8], carry: &[u8]) -> Cut {
    let mut next = state.position.min(chunk.len());
    let mut empties = state.empties;
    let mut line = carry[..state.used].to_vec();
    let mut waits = state.flags & CR_WAITS != 0;
    let mut from = (line.is_empty() && !waits).then_some(next);
    loop {
        let rest = &chunk[next..];
        let feed = rest.iter().position(|&byte| byte == b'\n');
        let more = &rest[..feed.unwrap_or(rest.len())];
        if waits && !more.is_empty() {
            line.push(b'\r');
        }
        let cr = more.last().map_or(waits, |&byte| byte == b'\r');
        line.extend(more.strip_suffix(b"\r").unwrap_or(more));
        next += match feed {
            Some(feed) => feed + 1,
            None => {
                return Cut::Open {
                    from,
                    empties,
                    line,
                    cr,
                }
            }
        };
        if !line.is_empty() {
            return Cut::Whole {
                from,
                empties,
                line,
                next,
            };
        }
        empties = empties.wrapping_add(1);
        waits = false;
        from = Some(next);
    }
}

/// A call that leaves all as it is.
fn unchanged(told: Told, state: Standing, carried: &[u8]) -> Outcome {
    Outcome {
        told,
        state,
        place: (NOWHERE, 0, 0),
        shown: vec![],
        carried: carried.to_vec(),
    }
}

/// What a call is given beside the state.
pub struct Call<'a> {
    /// The chunk, or nothing where the text is to end.
    pub chunk: Option<&'a [u8]>,
    pub carry: &'a [u8],
    /// The pool's length.
    pub pool: usize,
    pub at: usize,
}

/// How many digits were left out of a line: none, if it begins in the chunk, or did not fill the carry.
fn left_out(state: Standing, from: Option<usize>) -> usize {
    match from {
        None if state.used == CARRY => state.skipped.into(),
        _ => 0,
    }
}

/// The crate's answer to what is held of a line, with the place of an offender in the whole line.
fn read_in_line(line: &[u8], left: usize) -> Answer {
    let mut answer = read(line);
    if let Err(Refusal {
        offender: Some(place),
        ..
    }) = &mut answer
    {
        if *place >= CARRY - 1 {
            *place += left;
        }
    }
    answer
}

/// A line is answered, and after it the next begins at this position.
fn answered(
    state: Standing,
    call: &Call,
    line: Vec<u8>,
    from: Option<usize>,
    behind: Standing,
) -> Outcome {
    let answer = read_in_line(&line, left_out(state, from));
    let told = in_pool(by_crate::answer(&answer, call.at), call.pool, call.at);
    if told == pool_full() {
        return unchanged(told, state, &call.carry[..state.used]);
    }
    let state = Standing {
        flags: flags_behind(state.flags & 3, &told) | behind.flags,
        used: 0,
        empties: 0,
        ..behind
    };
    let (place, carried) = match from {
        Some(from) => ((IN_CHUNK, from, line.len()), vec![]),
        None => ((IN_CARRY, 0, line.len()), kept(&line).0),
    };
    if told.code >= REFUSED {
        return unchanged(told, state, &carried);
    }
    Outcome {
        told,
        state,
        place,
        shown: line,
        carried,
    }
}

fn next_of(state: Standing, call: &Call, chunk: &[u8]) -> Outcome {
    match cut(state, chunk, call.carry) {
        Cut::Open {
            from,
            empties,
            line,
            cr,
        } => {
            let (carried, left) = kept(&line);
            let behind = Standing {
                position: 0,
                line: state.line,
                empties,
                used: carried.len(),
                skipped: (left_out(state, from) + left).min(LAST_PLACE) as u16,
                flags: state.flags & 3 | if cr { CR_WAITS } else { 0 },
            };
            unchanged(told(USED_UP, 0, 0, 0), behind, &carried)
        }
        Cut::Whole {
            from,
            empties,
            line,
            next,
        } => {
            let behind = Standing {
                position: next,
                line: state.line.wrapping_add(empties).wrapping_add(1),
                ..Standing::default()
            };
            answered(state, call, line, from, behind)
        }
    }
}

fn end_of(state: Standing, call: &Call) -> Outcome {
    let mut line = call.carry[..state.used].to_vec();
    if state.flags & CR_WAITS != 0 {
        line.push(b'\r');
    }
    if line.is_empty() {
        let mut over = state;
        over.flags |= FINISHED;
        return unchanged(told(DONE, 0, 0, 0), over, &[]);
    }
    let behind = Standing {
        line: state.line.wrapping_add(state.empties).wrapping_add(1),
        ..Standing::new(FINISHED)
    };
    answered(state, call, line, None, behind)
}

/// What a call should answer and leave, from any state.
pub fn outcome(state: Standing, call: &Call) -> Outcome {
    let state = Standing {
        flags: state.flags & 15,
        ..state
    };
    if call.carry.len() < CARRY || state.used > CARRY {
        return unchanged(told(CARRY_TOO_SMALL, 0, 0, 0), state, call.carry);
    }
    if state.flags & FINISHED != 0 {
        return unchanged(told(DONE, 0, 0, 0), state, call.carry);
    }
    match call.chunk {
        Some(chunk) => next_of(state, call, chunk),
        None => end_of(state, call),
    }
}
