//! A load that is fed: dump after dump, in chunks as they come. The crate does not have one.

use crate::loader::{self, LoadError, Loaded, Outcome};
use crate::marks::{marks_len, Marks};
use crate::{srec, stranger};

/// The kind of a text.
#[derive(PartialEq, Eq, Clone, Copy, Debug, Hash)]
pub enum TextKind {
    /// Intel HEX, as [`load`](crate::load) reads it.
    IntelHex,
    /// S-records, as [`load_srecords`](crate::srec::load_srecords) reads them.
    SRecords,
}

impl TextKind {
    /// The result of a load of this kind.
    fn outcome(self) -> Outcome {
        match self {
            TextKind::IntelHex => loader::intel_result,
            TextKind::SRecords => srec::result,
        }
    }

    /// The kind in the flags of a listener.
    fn flag(self) -> u8 {
        match self {
            TextKind::IntelHex => 0,
            TextKind::SRecords => ihex_sys::SRECORDS,
        }
    }
}

/// Listens to a serial line on which dump after dump comes, in chunks of any sizes, with noise between them.
///
/// Each dump is taken into a staging page with marks, which the intake owns. It is decided as soon as the line has come
/// that decides it, and as [`load`](crate::load) decides it, or [`load_srecords`](crate::srec::load_srecords), wherever the
/// chunks are cut. The text of the dump is not kept. The page that is shown is written by [`Ready::commit`] alone, and so
/// holds the last dump that was committed, whole.
///
/// After a dump that is refused, everything through the next end record is skipped, since it may be the rest of that dump.
/// So a refusal costs at most one good dump after it, and a tail of an old dump that is skipped is never ready. After a
/// [`pause`](Intake::pause) nothing is skipped.
///
/// Empty lines before the first line of a dump belong to no dump. The number of a line in a refusal counts from the dump's
/// first line that has a byte.
///
/// ```
#[doc = include_str!("../examples/intake.rs")]
/// ```
///
/// [`Dumps`](crate::Dumps) feeds an intake from a reader.
#[derive(Clone, Debug)]
pub struct Intake {
    kind: TextKind,
    first: u32,
    carry: Box<[u8; ihex_sys::CARRY]>,
    stage: Vec<u8>,
    stated: Vec<u8>,
    /// The result of the dump that is ready.
    loaded: Option<Loaded>,
    flags: u8,
    skipped: u16,
    base: u16,
    begin: u32,
    lines: usize,
    /// How many bytes of the carry belong to the line that is begun.
    carried: usize,
    records: usize,
}

/// The result of a chunk, or of a pause, in values.
#[derive(Clone, Copy)]
pub(crate) enum Told {
    WantsMore,
    Passed,
    Quiet,
    Decided(Result<Loaded, LoadError>),
}

/// What a call writes beside the state.
#[derive(Default)]
struct Values {
    taken: usize,
    line: usize,
    start: u8,
    a: u64,
    b: u64,
    c: u64,
}

impl Intake {
    /// An intake at the beginning of a text of this kind, for a page of `length` places whose first has the address
    /// `first`. A window that [`load`](crate::load) refuses is [`LoadError::BadWindow`].
    pub fn new(kind: TextKind, first: u32, length: usize) -> Result<Self, LoadError> {
        Intake::standing(ihex_sys::FRONT, kind, first, length)
    }

    /// An intake that begins to listen at an unknown place, which may be in the middle of a dump: everything through the
    /// next end record is skipped. All else is as in [`new`](Intake::new).
    pub fn joining(kind: TextKind, first: u32, length: usize) -> Result<Self, LoadError> {
        Intake::standing(ihex_sys::SKIPPING, kind, first, length)
    }

    fn standing(flags: u8, kind: TextKind, first: u32, length: usize) -> Result<Self, LoadError> {
        if length > ihex_sys::MAX_PAGE {
            return Err(LoadError::BadWindow);
        }
        let mut intake = Intake {
            kind,
            first,
            carry: Box::new([0; ihex_sys::CARRY]),
            stage: vec![0; length],
            stated: vec![0; marks_len(length)],
            loaded: None,
            flags: flags | kind.flag(),
            skipped: 0,
            base: 0,
            begin: 0,
            lines: 0,
            carried: 0,
            records: 0,
        };
        // A window that is refused is refused for every chunk, also for one of no bytes.
        match intake.take(&[]) {
            (_, Told::Decided(Err(why))) => Err(why),
            _ => Ok(intake),
        }
    }

    /// Feeds a chunk, which may be empty, up to the line that decides a dump. What is left of the chunk, from
    /// [`Step::used`] on, is for the next call. A dump that is ready and was not committed is dropped.
    pub fn feed<T>(&mut self, chunk: &T) -> Step<'_>
    where
        T: AsRef<[u8]> + ?Sized,
    {
        let (used, told) = self.take(chunk.as_ref());
        let fed = match told {
            Told::WantsMore => Fed::WantsMore,
            Told::Passed => Fed::Passed,
            Told::Decided(Ok(loaded)) => Fed::Ready(self.lent(loaded)),
            Told::Decided(Err(why)) => Fed::Refused(why),
            Told::Quiet => stranger(ihex_sys::DONE),
        };
        Step { used, fed }
    }

    /// Says that the line is silent, or that the input has ended. What comes after it is a known beginning. Call it after
    /// [`Fed::WantsMore`].
    ///
    /// In a dump, the line that is begun is its last one, and the dump is decided. A dump without an end record is
    /// refused with [`LoadError::MissingEndOfFileRecord`]. A dump that is ready stays so: see [`ready`](Intake::ready).
    ///
    /// The silence must be longer than any within a dump. After a pause in the middle of a dump the rest of that dump is
    /// taken for a text of its own, and may be accepted.
    pub fn pause(&mut self) -> Paused<'_> {
        match self.stop() {
            Told::Quiet => Paused::Quiet,
            Told::Decided(Ok(loaded)) => Paused::Ready(self.lent(loaded)),
            Told::Decided(Err(why)) => Paused::Refused(why),
            Told::WantsMore => stranger(ihex_sys::USED_UP),
            Told::Passed => stranger(ihex_sys::PASSED),
        }
    }

    /// The dump that is ready, if there is one. It is ready from the call that decided it until it is committed or the
    /// next chunk is fed.
    pub fn ready(&mut self) -> Option<Ready<'_>> {
        let loaded = self.loaded?;
        Some(self.lent(loaded))
    }

    /// The intake, lent with a dump that is ready.
    pub(crate) fn lent(&mut self, loaded: Loaded) -> Ready<'_> {
        Ready {
            intake: self,
            loaded,
        }
    }

    /// Feeds a chunk: how many bytes of it were used, and the result.
    pub(crate) fn take(&mut self, chunk: &[u8]) -> (usize, Told) {
        let mut told = Values::default();
        let code = ihex_sys::feed(
            chunk,
            &mut self.carry[..],
            self.first,
            &mut self.stage,
            &mut self.stated,
            (
                &mut self.flags,
                &mut self.skipped,
                &mut self.base,
                &mut self.begin,
                &mut self.lines,
                &mut self.carried,
                &mut self.records,
            ),
            &mut told.taken,
            &mut told.line,
            &mut told.start,
            &mut told.a,
            &mut told.b,
            &mut told.c,
        );
        self.loaded = None;
        (told.taken, self.settle(code, told))
    }

    /// Ends the text, and gives the result.
    pub(crate) fn stop(&mut self) -> Told {
        let mut told = Values::default();
        let code = ihex_sys::pause(
            &mut self.carry[..],
            self.first,
            &mut self.stage,
            &mut self.stated,
            (
                &mut self.flags,
                &mut self.skipped,
                &mut self.base,
                &mut self.begin,
                &mut self.lines,
                &mut self.carried,
                &mut self.records,
            ),
            &mut told.line,
            &mut told.start,
            &mut told.a,
            &mut told.b,
            &mut told.c,
        );
        self.settle(code, told)
    }

    /// The result of a call. That of a dump that is ready is kept.
    fn settle(&mut self, code: u32, told: Values) -> Told {
        match code {
            ihex_sys::USED_UP => Told::WantsMore,
            ihex_sys::PASSED => Told::Passed,
            ihex_sys::DONE => Told::Quiet,
            _ => {
                let outcome = self.kind.outcome();
                let load = outcome(code, told.line, told.start, [told.a, told.b, told.c]);
                self.loaded = load.ok();
                Told::Decided(load)
            }
        }
    }
}

/// The result of a chunk, and how much of it was used.
#[derive(Debug)]
#[must_use = "what is left of the chunk is for the next call"]
pub struct Step<'a> {
    /// How many bytes of the chunk were used. It is the whole chunk with [`Fed::WantsMore`]; else it is through the LF of
    /// the line that decided.
    pub used: usize,
    /// The result of the chunk.
    pub fed: Fed<'a>,
}

/// The result of a chunk, up to the line that decides.
#[derive(Debug)]
pub enum Fed<'a> {
    /// The chunk is used up: the next one is wanted, or a pause.
    WantsMore,
    /// A dump is accepted, and is ready to be committed.
    Ready(Ready<'a>),
    /// A dump is refused, as its load is. From here on everything through the next end record is skipped.
    Refused(LoadError),
    /// The end record of what was skipped has come. A text begins after it.
    Passed,
}

/// The result of a pause, or of the end of the input.
#[derive(Debug)]
#[must_use = "the pause may have ended a dump"]
pub enum Paused<'a> {
    /// The dump that it ended is accepted, and is ready to be committed.
    Ready(Ready<'a>),
    /// The dump that it ended is refused, as its load is.
    Refused(LoadError),
    /// There was no dump to end.
    Quiet,
}

/// A dump that was accepted, and is staged. Dropped, it leaves the page as it is.
#[derive(Debug)]
#[must_use = "the page does not change until the dump is committed"]
pub struct Ready<'a> {
    intake: &'a mut Intake,
    loaded: Loaded,
}

impl<'a> Ready<'a> {
    /// The result of the dump.
    pub fn loaded(&self) -> Loaded {
        self.loaded
    }

    /// The places that the dump states. A gateway whose dumps state every place may ask for that before it commits.
    pub fn stated(&self) -> Marks<'_> {
        Marks::new(&self.intake.stated, self.intake.stage.len())
    }

    /// Commits the dump to a page and its marks: they are then what [`load`](crate::load) leaves of the dump. A place that
    /// the dump does not state keeps its byte.
    ///
    /// If page or marks do not have the lengths that the intake was made for, it is [`LoadError::BadWindow`], and neither
    /// changes. The dump is still [`ready`](Intake::ready) then.
    pub fn commit(self, page: &mut [u8], marks: &mut [u8]) -> Result<Loaded, LoadError> {
        let Ready { intake, loaded } = self;
        let (stage, stated) = (&intake.stage, &intake.stated);
        let code = ihex_sys::commit(stage, stated, page, marks, &mut intake.flags);
        match code.wrapping_sub(ihex_sys::REFUSED) {
            16 => Err(LoadError::BadWindow),
            _ if code == 0 => {
                intake.loaded = None;
                Ok(loaded)
            }
            _ => stranger(code),
        }
    }
}
