//! Texts in chunks, places to be shown, and where a reader of chunks stands.

use std::ops::Range;
use std::slice;

use crate::inputs::shrink::{
    fewer_flags, plainer, readable, shorter, smaller_number, smaller_text, with_each, Case,
};
use crate::subjects::told::Place;

/// Where a reader of chunks stands.
#[derive(Clone, Copy, PartialEq, Eq, Debug, Default)]
pub struct Standing {
    pub position: usize,
    pub line: usize,
    pub empties: usize,
    pub used: usize,
    /// How many digits of a line over 522 bytes were left out before the carry's last byte.
    pub skipped: u16,
    pub flags: u8,
}

impl Standing {
    /// At the beginning of a text, with these stops.
    pub fn new(flags: u8) -> Self {
        Standing {
            flags,
            ..Standing::default()
        }
    }

    /// What is lent to a call.
    pub fn of(lent: &ihex_sys::Standing) -> Self {
        Standing {
            position: *lent.0,
            line: *lent.1,
            empties: *lent.2,
            used: *lent.3,
            skipped: *lent.4,
            flags: *lent.5,
        }
    }

    /// Lends it to a call.
    pub fn lend(&mut self) -> ihex_sys::Standing<'_> {
        (
            &mut self.position,
            &mut self.line,
            &mut self.empties,
            &mut self.used,
            &mut self.skipped,
            &mut self.flags,
        )
    }

    fn smaller(&self) -> Vec<Self> {
        with_each!(
            self,
            position in smaller_number(self.position),
            line in smaller_number(self.line),
            empties in smaller_number(self.empties),
            used in smaller_number(self.used),
            skipped in smaller_number(self.skipped.into()).into_iter().map(|n| n as u16),
            flags in fewer_flags(self.flags),
        )
    }
}

#[derive(Clone)]
pub struct ChunkCase {
    pub chunks: Vec<Vec<u8>>,
    /// The pool's length.
    pub pool: usize,
    /// What the carry holds at the beginning.
    pub carry: Vec<u8>,
    /// The state at the beginning.
    pub state: Standing,
}

impl ChunkCase {
    /// The chunks, joined.
    pub fn text(&self) -> Vec<u8> {
        self.chunks.concat()
    }
}

/// Runs of n chunks: all of them first, then half of them, down to a sixteenth or one.
fn runs(n: usize) -> Vec<Range<usize>> {
    let mut found = Vec::new();
    let mut run = n;
    while run > 0 && run >= n / 16 {
        found.extend((0..n).step_by(run).map(|from| from..n.min(from + run)));
        run /= 2;
    }
    found
}

/// The chunks with a run of them left out, or joined.
fn fewer(chunks: &[Vec<u8>], join: bool) -> Vec<Vec<Vec<u8>>> {
    let long = |run: &Range<usize>| !join || run.len() > 1;
    let change = |run: Range<usize>| {
        let one = [chunks[run.clone()].concat()];
        let between = if join { &one[..] } else { &[] };
        [&chunks[..run.start], between, &chunks[run.end..]].concat()
    };
    runs(chunks.len())
        .into_iter()
        .filter(long)
        .map(change)
        .collect()
}

/// The bytes with a run of them made 0: all of them first, then half of them, down to 16.
fn zeroed(bytes: &[u8]) -> Vec<Vec<u8>> {
    let mut found = Vec::new();
    let mut run = bytes.len();
    while run >= 16 {
        for from in (0..bytes.len()).step_by(run) {
            let mut other = bytes.to_vec();
            other[from..bytes.len().min(from + run)].fill(b'0');
            found.push(other);
        }
        run /= 2;
    }
    found.retain(|other| other != bytes);
    found
}

impl Case for ChunkCase {
    fn smaller(&self) -> Vec<Self> {
        let plain = plainer(slice::from_ref(&self.carry), |carry| zeroed(carry));
        with_each!(
            self,
            chunks in fewer(&self.chunks, true),
            chunks in fewer(&self.chunks, false),
            chunks in plainer(&self.chunks, |chunk| zeroed(chunk)),
            chunks in plainer(&self.chunks, |chunk| smaller_text(chunk)),
            pool in smaller_number(self.pool),
            carry in plain.into_iter().map(|one| one.concat()),
            state in self.state.smaller(),
        )
    }

    fn size(&self) -> usize {
        self.text().len() + self.chunks.len()
    }

    fn show(&self) -> String {
        let chunks: Vec<String> = self.chunks.iter().map(|chunk| readable(chunk)).collect();
        format!(
            "chunks {} pool {} carry {} {:?}",
            chunks.join(" "),
            self.pool,
            self.carry.len(),
            self.state
        )
    }
}

/// A place by hand, to be shown.
#[derive(Clone)]
pub struct ShownCase {
    pub place: Place,
    pub chunk: Vec<u8>,
    pub carry: Vec<u8>,
}

impl Case for ShownCase {
    fn smaller(&self) -> Vec<Self> {
        let (lies, from, len) = self.place;
        let froms = smaller_number(from)
            .into_iter()
            .map(|from| (lies, from, len));
        let lens = smaller_number(len).into_iter().map(|len| (lies, from, len));
        with_each!(
            self,
            chunk in shorter(&self.chunk),
            carry in shorter(&self.carry),
            place in froms.chain(lens),
        )
    }

    fn size(&self) -> usize {
        self.chunk.len() + self.carry.len()
    }

    fn show(&self) -> String {
        let (chunk, carry) = (readable(&self.chunk), readable(&self.carry));
        format!("{:?} in chunk {chunk} carry {carry}", self.place)
    }
}
