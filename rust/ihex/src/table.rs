//! A window table: the loads of two owners into one pool, which the crate does not have.

use std::error::Error;
use std::fmt;

use crate::loader::{self, LoadError, Loaded, Outcome};
use crate::marks::marks_len;
use crate::{srec, stranger};

/// The most windows of a table.
pub const MAX_WINDOWS: usize = ihex_sys::MOST_WINDOWS;

/// The most bytes of the pool of a table.
pub const MAX_POOL: usize = ihex_sys::MAX_PAGE;

/// How many addresses there are.
const ADDRESSES: u64 = 1 << 32;

/// Whose windows a text is loaded into.
#[derive(PartialEq, Eq, Clone, Copy, Debug, Hash)]
pub enum Owner {
    /// Owner 1.
    First,
    /// Owner 2.
    Second,
}

impl Owner {
    /// The number of the owner: 1 or 2.
    pub fn number(self) -> u32 {
        match self {
            Owner::First => 1,
            Owner::Second => 2,
        }
    }
}

/// A window of a table. The byte of address `first` + i lies at place `place` + i of the pool, for each i under
/// `length`.
#[derive(PartialEq, Eq, Clone, Copy, Debug, Hash)]
pub struct Window {
    /// Whose window it is.
    pub owner: Owner,
    /// Its first address.
    pub first: u32,
    /// How many addresses it has.
    pub length: usize,
    /// The place of its first address in the pool.
    pub place: usize,
}

/// A limit that a window table breaks, or a load through one. Windows are counted from 0, as in the list that the
/// table is made of.
#[derive(PartialEq, Eq, Clone, Copy, Debug, Hash)]
#[non_exhaustive]
pub enum BadTable {
    /// There are more than [`MAX_WINDOWS`] windows: so many.
    TooManyWindows(usize),
    /// The pool has more than [`MAX_POOL`] bytes: so many.
    PoolTooLong(usize),
    /// This window ends beyond the last address.
    BeyondAddresses(usize),
    /// This window ends beyond the pool.
    BeyondPool(usize),
    /// These two windows share a place of the pool.
    SharedPlace(usize, usize),
    /// These two windows have the same owner, and share an address.
    SharedAddress(usize, usize),
    /// The pool of a load has another length than the table was made for.
    PoolLength {
        /// Its length.
        len: usize,
        /// The length that the table was made for.
        made_for: usize,
    },
    /// The marks of a load do not have [`marks_len`](crate::marks_len) bytes for the places of the pool.
    MarksLength {
        /// Their length.
        len: usize,
        /// The length that the table was made for.
        made_for: usize,
    },
}

impl BadTable {
    /// The refusal's number: 23.
    pub fn number(&self) -> u32 {
        ihex_sys::BAD_TABLE
    }
}

impl fmt::Display for BadTable {
    fn fmt(&self, f: &mut fmt::Formatter) -> fmt::Result {
        match *self {
            BadTable::TooManyWindows(n) => {
                write!(f, "table has {n} windows, more than {MAX_WINDOWS}")
            }
            BadTable::PoolTooLong(n) => write!(f, "pool has {n} bytes, more than {MAX_POOL}"),
            BadTable::BeyondAddresses(i) => write!(f, "windows[{i}] ends beyond the last address"),
            BadTable::BeyondPool(i) => write!(f, "windows[{i}] ends beyond the pool"),
            BadTable::SharedPlace(i, j) => {
                write!(f, "windows[{i}] and windows[{j}] share a place of the pool")
            }
            BadTable::SharedAddress(i, j) => {
                write!(
                    f,
                    "windows[{i}] and windows[{j}] of one owner share an address"
                )
            }
            BadTable::PoolLength { len, made_for } => {
                write!(f, "pool has {len} bytes, the table was made for {made_for}")
            }
            BadTable::MarksLength { len, made_for } => {
                write!(
                    f,
                    "marks have {len} bytes, the table was made for {made_for}"
                )
            }
        }
    }
}

impl Error for BadTable {}

impl Window {
    /// The limit that this window, number `i` of a table, breaks alone, if it breaks one.
    fn limit(&self, i: usize, pool_len: usize) -> Option<BadTable> {
        if self.length as u64 > ADDRESSES - u64::from(self.first) {
            return Some(BadTable::BeyondAddresses(i));
        }
        let room = pool_len.checked_sub(self.length);
        match room {
            Some(room) if self.place <= room => None,
            _ => Some(BadTable::BeyondPool(i)),
        }
    }

    /// The bytes that stand for it in a table.
    fn bytes(&self) -> [u8; ihex_sys::WINDOW] {
        let (length, place) = (self.length as u64, self.place as u64);
        ihex_sys::window(self.owner.number(), self.first, length, place)
    }
}

/// Whether two stretches, each a start and a length, share a number. No sum is too large: each ends below 2^33.
fn share((start, n): (u64, u64), (other, m): (u64, u64)) -> bool {
    start.max(other) < (start + n).min(other + m)
}

/// The limit that two windows, numbers `i` and `j` of a table, break together, if they break one.
fn limit_of_two(windows: &[Window], i: usize, j: usize) -> Option<BadTable> {
    let (one, two) = (&windows[i], &windows[j]);
    let places = |window: &Window| (window.place as u64, window.length as u64);
    let addresses = |window: &Window| (u64::from(window.first), window.length as u64);
    if share(places(one), places(two)) {
        return Some(BadTable::SharedPlace(i, j));
    }
    let same = one.owner == two.owner && share(addresses(one), addresses(two));
    same.then_some(BadTable::SharedAddress(i, j))
}

/// The first limit that up to [`MAX_WINDOWS`] windows break, if they break one, in the order of [`Table::new`].
/// `ihex_check_table` decides; this puts a name to it.
fn limit(windows: &[Window], pool_len: usize) -> Option<BadTable> {
    if pool_len > MAX_POOL {
        return Some(BadTable::PoolTooLong(pool_len));
    }
    let mut each = windows.iter().enumerate();
    let alone = each.find_map(|(i, window)| window.limit(i, pool_len));
    let after = |i| (i + 1..windows.len()).map(move |j| (i, j));
    let mut pairs = (0..windows.len()).flat_map(after);
    alone.or_else(|| pairs.find_map(|(i, j)| limit_of_two(windows, i, j)))
}

/// Up to [`MAX_WINDOWS`] windows, through which two owners load their texts into one pool: a table that breaks no
/// limit, made once for a pool of one length.
///
/// No two windows share a place of the pool, and no two of one owner share an address. Both owners may have windows
/// of the same addresses. Windows may touch. A window without addresses shares nothing.
///
/// ```
#[doc = include_str!("../examples/table.rs")]
/// ```
#[derive(PartialEq, Eq, Clone, Debug)]
pub struct Table {
    /// The bytes of the windows, one after the other.
    bytes: [u8; MAX_WINDOWS * ihex_sys::WINDOW],
    /// How many of them there are.
    len: usize,
    pool_len: usize,
}

/// One of the two loads of `ihex_sys` through a table.
type Load = fn(
    &[u8],
    u32,
    &[u8],
    &mut [u8],
    &mut [u8],
    &mut usize,
    &mut u8,
    &mut u64,
    &mut u64,
    &mut u64,
) -> u32;

impl Table {
    /// A table of these windows for a pool of so many bytes, or the first limit that it breaks. The limits are looked at
    /// in this order:
    ///
    /// 1. the number of windows;
    /// 2. the length of the pool;
    /// 3. each window alone, in the order of the list: its end in the addresses, then its end in the pool;
    /// 4. each two windows, in the order (0, 1), (0, 2) and so on, then (1, 2): a shared place, then a shared address.
    pub fn new(windows: &[Window], pool_len: usize) -> Result<Self, BadTable> {
        if windows.len() > MAX_WINDOWS {
            return Err(BadTable::TooManyWindows(windows.len()));
        }
        let mut table = Table {
            bytes: [0; MAX_WINDOWS * ihex_sys::WINDOW],
            len: windows.len() * ihex_sys::WINDOW,
            pool_len,
        };
        let rows = table.bytes.chunks_exact_mut(ihex_sys::WINDOW);
        for (row, window) in rows.zip(windows) {
            row.copy_from_slice(&window.bytes());
        }
        match ihex_sys::check_table(table.as_bytes(), pool_len, table.marks_len()) {
            0 => Ok(table),
            code => Err(limit(windows, pool_len).unwrap_or_else(|| stranger(code))),
        }
    }

    /// The length of the pool that the table was made for.
    pub fn pool_len(&self) -> usize {
        self.pool_len
    }

    /// The length of the marks that go with the pool: [`marks_len`](crate::marks_len) of its length.
    pub fn marks_len(&self) -> usize {
        marks_len(self.pool_len)
    }

    /// The windows as the C entry points take them.
    fn as_bytes(&self) -> &[u8] {
        &self.bytes[..self.len]
    }

    /// Loads a text of Intel HEX for one owner into the pool, with the answers of [`load`](crate::load).
    ///
    /// On acceptance each place of the owner's windows whose address the text states holds the last byte that it
    /// states there, and its mark is 1; every other place of the owner's windows keeps its byte, and its mark is 0. No
    /// other byte of the pool and no other bit of the marks changes. A refused load changes nothing.
    /// [`LoadError::OutsideWindow`] is for a byte that lies outside all windows of the owner; a record may lie in more
    /// than one window.
    ///
    /// The owners are apart: whatever the other owner loads through the same table, before or after, changes no
    /// answer of this owner's loads, and no byte or mark of this owner's places.
    ///
    /// What [`load`](crate::load) promises about noise is said of it alone, and not of a load through a table.
    ///
    /// `pool` and `marks` have the lengths that the table was made for, else it is [`LoadError::BadTable`].
    pub fn load<T>(
        &self,
        owner: Owner,
        text: &T,
        pool: &mut [u8],
        marks: &mut [u8],
    ) -> Result<Loaded, LoadError>
    where
        T: AsRef<[u8]> + ?Sized,
    {
        let (call, outcome): (Load, Outcome) = (ihex_sys::load_table, loader::intel_result);
        self.load_by(call, outcome, owner, text.as_ref(), pool, marks)
    }

    /// Loads a text of S-records for one owner into the pool, as [`load`](Table::load) does a text of Intel HEX, with
    /// the answers of [`load_srecords`](crate::srec::load_srecords).
    pub fn load_srecords<T>(
        &self,
        owner: Owner,
        text: &T,
        pool: &mut [u8],
        marks: &mut [u8],
    ) -> Result<Loaded, LoadError>
    where
        T: AsRef<[u8]> + ?Sized,
    {
        let (call, outcome): (Load, Outcome) = (ihex_sys::load_srecords_table, srec::result);
        self.load_by(call, outcome, owner, text.as_ref(), pool, marks)
    }

    /// Whether pool and marks have the lengths that the table was made for.
    fn fits(&self, pool: usize, marks: usize) -> Result<(), BadTable> {
        let (pool_len, marks_len) = (self.pool_len, self.marks_len());
        if pool != pool_len {
            return Err(BadTable::PoolLength {
                len: pool,
                made_for: pool_len,
            });
        }
        if marks != marks_len {
            return Err(BadTable::MarksLength {
                len: marks,
                made_for: marks_len,
            });
        }
        Ok(())
    }

    fn load_by(
        &self,
        load: Load,
        outcome: Outcome,
        owner: Owner,
        text: &[u8],
        pool: &mut [u8],
        marks: &mut [u8],
    ) -> Result<Loaded, LoadError> {
        self.fits(pool.len(), marks.len())
            .map_err(LoadError::BadTable)?;
        let (mut line, mut start, mut a, mut b, mut c) = (0, 0, 0, 0, 0);
        let code = load(
            text,
            owner.number(),
            self.as_bytes(),
            pool,
            marks,
            &mut line,
            &mut start,
            &mut a,
            &mut b,
            &mut c,
        );
        outcome(code, line, start, [a, b, c])
    }
}
