//! The marks of a page, one bit a place: asked place by place, and walked run by run.

use core::iter::FusedIterator;
use core::ops::Range;

/// How many marks a byte holds.
const A_BYTE: usize = 8;

/// How many bytes the marks of so many places take: one bit a place, rounded up to whole bytes.
///
/// ```
/// let marks = [0; ihex::marks_len(20)];
/// assert_eq!(marks.len(), 3);
/// assert_eq!(ihex::marks_len(65_536), 8_192);
/// ```
pub const fn marks_len(places: usize) -> usize {
    places / A_BYTE + (places % A_BYTE + A_BYTE - 1) / A_BYTE
}

/// The marks of a page, as [`load`](crate::load) leaves them and [`write_page`](crate::write_page) takes
/// them. Place p is bit p modulo 8 of byte p / 8, lowest bit first; with this a program need not look at
/// bits.
///
/// ```
#[doc = include_str!("../examples/marks.rs")]
/// ```
#[derive(Clone, Copy, Debug)]
pub struct Marks<'a> {
    row: &'a [u8],
    /// No place from this one on is marked. The row has a bit for each place before it.
    end: usize,
}

impl<'a> Marks<'a> {
    /// The marks of a page of so many places. A place that is not below `places`, or that has no bit in
    /// `marks`, is not marked.
    pub fn new(marks: &'a [u8], places: usize) -> Self {
        let end = places.min(marks.len().saturating_mul(A_BYTE));
        Marks { row: marks, end }
    }

    /// Whether a place is marked.
    pub fn is_marked(&self, place: usize) -> bool {
        place < self.end && self.row[place / A_BYTE] >> (place % A_BYTE) & 1 == 1
    }

    /// How many places are marked.
    pub fn count(&self) -> usize {
        self.runs().map(|run| run.len()).sum()
    }

    /// The runs of marked places, the lowest first. A place that is not marked lies between two runs, so
    /// each is as long as it can be. No run is empty, and none goes beyond the last place: `&page[run]` has
    /// its bytes.
    pub fn runs(&self) -> Runs<'a> {
        Runs {
            marks: *self,
            from: 0,
        }
    }

    /// The first place from one on whose bit is 1 after an exclusive or of its byte with `flip`, or the end.
    fn find(&self, from: usize, flip: u8) -> usize {
        let mut place = from;
        while place < self.end {
            let bits = (self.row[place / A_BYTE] ^ flip) >> (place % A_BYTE);
            if bits != 0 {
                return self.end.min(place + bits.trailing_zeros() as usize);
            }
            place = (place | (A_BYTE - 1)).saturating_add(1);
        }
        self.end
    }
}

/// The runs of marked places: see [`Marks::runs`].
#[derive(Clone, Debug)]
pub struct Runs<'a> {
    marks: Marks<'a>,
    /// Where the next run is looked for.
    from: usize,
}

impl<'a> Iterator for Runs<'a> {
    type Item = Range<usize>;

    fn next(&mut self) -> Option<Range<usize>> {
        let start = self.marks.find(self.from, 0);
        self.from = self.marks.find(start, u8::MAX);
        Some(start..self.from).filter(|run| !run.is_empty())
    }
}

impl<'a> FusedIterator for Runs<'a> {}
