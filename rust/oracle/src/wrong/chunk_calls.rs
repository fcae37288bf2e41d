//! What a wrong reader of chunks does around a right call.

use ihex_sys::{CARRY, REFUSED};

use crate::inputs::chunks::Standing;
use crate::subjects::port::{Port, Real};
use crate::subjects::told::Place;
use crate::wrong::named::{Numbers, Wrong};

/// The place of the carry's last byte, in a line of which nothing was left out.
pub const LAST_CARRIED: u64 = CARRY as u64 - 1;

/// What a call is given, and what it leaves.
pub struct Call<'a> {
    /// The chunk, or nothing where the text is to end.
    pub chunk: Option<&'a [u8]>,
    pub carry: &'a mut [u8],
    pub state: Standing,
    pub place: Place,
    /// The first of the three numbers that are told.
    pub first: u64,
}

impl<'a> Call<'a> {
    fn new(chunk: Option<&'a [u8]>, carry: &'a mut [u8], standing: &ihex_sys::Standing) -> Self {
        Call {
            chunk,
            carry,
            state: Standing::of(standing),
            place: (0, 0, 0),
            first: 0,
        }
    }

    /// The right call.
    fn made(&mut self, pool: &mut [u8], at: usize, (b, c): (&mut u64, &mut u64)) -> u32 {
        let standing = self.state.lend();
        let lies = (&mut self.place.0, &mut self.place.1, &mut self.place.2);
        let numbers = (&mut self.first, b, c);
        match self.chunk {
            Some(chunk) => Real.next_chunk(chunk, self.carry, pool, at, standing, lies, numbers),
            None => Real.finish(self.carry, pool, at, standing, lies, numbers),
        }
    }

    /// Tells what it leaves.
    fn tell(self, standing: ihex_sys::Standing, lies: ihex_sys::Lies) {
        *standing.0 = self.state.position;
        *standing.1 = self.state.line;
        *standing.2 = self.state.empties;
        *standing.3 = self.state.used;
        *standing.4 = self.state.skipped;
        *standing.5 = self.state.flags;
        *lies.0 = self.place.0;
        *lies.1 = self.place.1;
        *lies.2 = self.place.2;
    }

    /// What of the chunk is still to be read.
    pub fn rest(&self) -> &'a [u8] {
        let chunk = self.chunk.unwrap_or(&[]);
        chunk.get(self.state.position..).unwrap_or(&[])
    }

    /// Whether a byte that is not a digit stands in what is still to be read of the line.
    pub fn has_offender_ahead(&self) -> bool {
        let line = self.rest().split(|&byte| byte == b'\n').next();
        let line = line.unwrap_or(&[]);
        let line = line.strip_suffix(b"\r").unwrap_or(line);
        !line.iter().all(u8::is_ascii_hexdigit)
    }

    /// Names another place, where one is named after digits left out of a line that began in an earlier
    /// chunk.
    pub fn rename(&mut self, code: u32, before: Standing, place: fn(u64) -> u64) {
        if code == REFUSED + 2 && before.used > 0 && self.first > LAST_CARRIED {
            self.first = place(self.first);
        }
    }
}

/// A reader of chunks that does something before a call, and something after it, from the code and
/// the state before it.
struct Chunks {
    ahead: fn(&mut Call),
    behind: fn(u32, Standing, &mut Call),
}

impl Chunks {
    fn wrongly(
        &self,
        mut call: Call,
        (pool, at): (&mut [u8], usize),
        standing: ihex_sys::Standing,
        lies: ihex_sys::Lies,
        numbers: Numbers,
    ) -> u32 {
        let (a, b, c) = numbers;
        (self.ahead)(&mut call);
        let before = call.state;
        let code = call.made(pool, at, (b, c));
        (self.behind)(code, before, &mut call);
        *a = call.first;
        call.tell(standing, lies);
        code
    }
}

impl Port for Chunks {
    fn next_chunk(
        &self,
        chunk: &[u8],
        carry: &mut [u8],
        pool: &mut [u8],
        at: usize,
        standing: ihex_sys::Standing,
        lies: ihex_sys::Lies,
        numbers: Numbers,
    ) -> u32 {
        let call = Call::new(Some(chunk), carry, &standing);
        self.wrongly(call, (pool, at), standing, lies, numbers)
    }

    fn finish(
        &self,
        carry: &mut [u8],
        pool: &mut [u8],
        at: usize,
        standing: ihex_sys::Standing,
        lies: ihex_sys::Lies,
        numbers: Numbers,
    ) -> u32 {
        let call = Call::new(None, carry, &standing);
        self.wrongly(call, (pool, at), standing, lies, numbers)
    }
}

/// A reader that does this before each call.
pub fn ahead(name: &'static str, ahead: fn(&mut Call)) -> Wrong {
    let behind = |_: u32, _: Standing, _: &mut Call| {};
    (name, Box::new(Chunks { ahead, behind }))
}

/// A reader that does this after each call.
pub fn behind(name: &'static str, behind: fn(u32, Standing, &mut Call)) -> Wrong {
    let ahead = |_: &mut Call| {};
    (name, Box::new(Chunks { ahead, behind }))
}
