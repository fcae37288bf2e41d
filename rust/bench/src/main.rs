//! One driver for all: does one piece of work a number of times.
//!
//!     bench WHO WHAT BYTES RECORDS REPETITIONS
//!     bench port|face chunks|fed|committed BYTES RECORDS REPETITIONS CHUNK
//!     bench port segment|linear|across BYTES RECORDS REPETITIONS
//!     bench WHO page BYTES RECORDS REPETITIONS EVERY
//!     bench port|face|floor srecord|srecords BYTES RECORDS REPETITIONS TYPE
//!     bench port|face salvage|noisy BYTES RECORDS REPETITIONS
//!     bench port|face table|last BYTES RECORDS REPETITIONS WINDOWS
//!     bench port alike BYTES RECORDS REPETITIONS
//!     bench port|face ask|every BYTES RECORDS REPETITIONS ADDRESS
//!
//! WHO is crate, port, face or floor. WHAT is record or text (reading), line or object (writing), or
//! load. BYTES are a record's payload, RECORDS how many there are in a text, or calls a repetition.
//! `chunks` reads the text in chunks of CHUNK bytes, to the number that `text` prints. `fed` loads it from such chunks
//! into a staging page, and `committed` commits that to the page too, each to the number that `load` prints. `segment` and
//! `linear` load it after a type 02 and a type 04, `across` so many records across a segment's end,
//! each to the number that `load` prints. `page` writes all payloads as a page in which each multiple of
//! EVERY is marked; the crate is given its records. `srecord` and `srecords` read a record and load the
//! text as S-records of at most 252 bytes, each to the number that `record` and `load` print. `salvage` saves
//! what can be of the text, which is all of it, and `noisy` of the text after a line that is refused, which is
//! its end record. `table` loads the text through a table of so many windows that fill the pool, and `last` through
//! one whose last window fills it and whose others are empty, each to the number that `load` prints. `alike` reads a text
//! in which all records lie at address 1. `ask` asks the text, and `every` that other text, for the byte at ADDRESS, which
//! is not 0.
//! It prints a number that comes from the results, the same for all, and the nanoseconds taken.

mod floor;

use std::env;
use std::process::exit;
use std::time::Instant;

use ihex::srec::{SRecord, SType};

/// The inputs, the same for all.
pub struct Given {
    /// Payload bytes a record.
    n: usize,
    records: usize,
    /// All payloads, one after the other.
    pool: Vec<u8>,
    /// The object's text, with an end record.
    text: String,
    /// Its first line.
    line: String,
    /// The text after a type 02, after a type 04, and with every record across its segment's end.
    segment: String,
    linear: String,
    across: String,
    /// The text after a line that is refused.
    noisy: String,
    /// The text with every record at the same address.
    alike: String,
    /// The address that is asked for.
    address: u32,
    /// The text as S-records, and its first line.
    srecords: String,
    srecord: String,
    of_crate: Vec<original::Record>,
    of_face: Vec<ihex::Record>,
    /// The records as the C entry points take them.
    list: Vec<u8>,
    /// How many bytes a chunk has.
    chunk: usize,
    /// The marks of all payloads as a page, and its records as the crate takes them.
    marked: Vec<u8>,
    of_page: Vec<original::Record>,
    /// Tables of windows that fill a pool: all of them together, and the last alone.
    table: Tabled,
    last: Tabled,
    /// What is lent for writing.
    out: Vec<u8>,
    page: Vec<u8>,
    marks: Vec<u8>,
    stage: Vec<u8>,
    stated: Vec<u8>,
    intake: ihex::Intake,
    dropped: Vec<u8>,
}

/// A window table as the face has it, and as the C entry points take it.
struct Tabled {
    of_face: ihex::Table,
    bytes: Vec<u8>,
}

/// A table of so many windows of the first owner that fill a pool, one after the other in the addresses and in the pool:
/// all but the last have so many bytes.
fn filling(windows: usize, part: usize) -> Tabled {
    let before = windows.clamp(1, ihex::MAX_WINDOWS) - 1;
    let rest = ihex::MAX_POOL - before * part;
    let (mut windows, mut bytes, mut place) = (vec![], vec![], 0);
    for length in std::iter::repeat(part).take(before).chain([rest]) {
        let owner = ihex::Owner::First;
        let first = place as u32;
        windows.push(ihex::Window {
            owner,
            first,
            length,
            place,
        });
        let (long, at) = (length as u64, place as u64);
        bytes.extend(ihex_sys::window(owner.number(), first, long, at));
        place += length;
    }
    let of_face = ihex::Table::new(&windows, place).expect("a good table");
    Tabled { of_face, bytes }
}

/// An object's records, as the crate has them, as the face has them, and in bytes.
type Object = (Vec<original::Record>, Vec<ihex::Record>, Vec<u8>);

/// The object of so many payloads, n bytes each, with an end record.
fn object(n: usize, records: usize, pool: &[u8]) -> Object {
    let (mut of_crate, mut of_face, mut list) = (vec![], vec![], vec![]);
    for i in 0..records {
        let value = pool[i * n..(i + 1) * n].to_vec();
        let offset = (i * n) as u16;
        of_face.push(ihex::Record::Data {
            offset,
            value: value.clone(),
        });
        of_crate.push(original::Record::Data { offset, value });
        list.extend(ihex_sys::entry(0, offset.into(), 0, i * n, n));
    }
    of_face.push(ihex::Record::EndOfFile);
    of_crate.push(original::Record::EndOfFile);
    list.extend(ihex_sys::entry(1, 0, 0, 0, 0));
    (of_crate, of_face, list)
}

/// The inputs; `step` is a chunk's length, which places of a page are marked, the type of S-records, how many windows a
/// table has, or an address.
fn given(n: usize, records: usize, step: usize) -> Given {
    let byte = |i: usize| (i.wrapping_add(1).wrapping_mul(2_654_435_761) >> 13) as u8;
    let pool: Vec<u8> = (0..n * records).map(byte).collect();
    let (of_crate, of_face, list) = object(n, records, &pool);
    let text = original::create_object_file_representation(&of_crate).expect("a good object");
    let line = text.lines().next().unwrap_or("").to_string();
    Given {
        n,
        records,
        segment: format!(":020000020000FC\n{text}"),
        linear: format!(":020000040000FA\n{text}"),
        across: at_one(n, &pool, (65_536 - n / 2) as u16),
        alike: at_one(n, &pool, ALIKE),
        address: step as u32,
        noisy: format!("x\n{text}"),
        srecord: srecord(data_type(step), 0, &pool[..n.min(pool.len())]),
        srecords: srecords(data_type(step), n, &pool),
        table: filling(step, ihex::MAX_POOL / ihex::MAX_WINDOWS),
        last: filling(step, 0),
        marked: marked(pool.len(), step),
        of_page: of_page(&pool, step),
        pool,
        out: vec![0; (text.len() + 13).max(ihex::MAX_PAGE_FILE)],
        text,
        line,
        of_crate,
        of_face,
        list,
        chunk: step,
        page: vec![0; 65_536],
        marks: vec![0; ihex::marks_len(65_536)],
        stage: vec![0; 65_536],
        stated: vec![0; ihex::marks_len(65_536)],
        intake: ihex::Intake::new(ihex::TextKind::IntelHex, 0, 65_536).expect("a good window"),
        dropped: vec![0; ihex::DROPPED_SIZE * (records + 2)],
    }
}

/// Marks so many places from one on, one bit each, the lowest of a byte first.
fn mark(marks: &mut [u8], from: usize, n: usize) {
    for place in from..from + n {
        marks[place / 8] |= 1 << (place % 8);
    }
}

/// The marks of so many places, of which each multiple of `every` is marked.
fn marked(places: usize, every: usize) -> Vec<u8> {
    let mut marks = vec![0; ihex::marks_len(places)];
    for place in (0..places).step_by(every) {
        mark(&mut marks, place, 1);
    }
    marks
}

/// Where all records lie in the text in which they lie at the same address.
const ALIKE: u16 = 1;

/// A text of these payloads, n bytes each, every one at this offset.
fn at_one(n: usize, pool: &[u8], offset: u16) -> String {
    let data = |value: &[u8]| original::Record::Data {
        offset,
        value: value.to_vec(),
    };
    let mut records: Vec<_> = pool.chunks(n.max(1)).map(data).collect();
    records.push(original::Record::EndOfFile);
    original::create_object_file_representation(&records).expect("a good object")
}

/// The line of an S-record, or nothing where there is none.
fn srecord(kind: SType, address: u32, value: &[u8]) -> String {
    let value = value.to_vec();
    let record = SRecord {
        kind,
        address,
        value,
    };
    record.to_record_string().unwrap_or_default()
}

/// The type of data with this digit, and S1 for any other number.
fn data_type(digit: usize) -> SType {
    match digit {
        2 => SType::S2,
        3 => SType::S3,
        _ => SType::S1,
    }
}

/// A text of S-records of this type and these payloads, n bytes each, with an end record.
fn srecords(kind: SType, n: usize, pool: &[u8]) -> String {
    let mut text = String::new();
    for (i, value) in pool.chunks(n.max(1)).enumerate() {
        text += &srecord(kind, u32::from((i * n) as u16), value);
        text += "\n";
    }
    text + &srecord(SType::S9, 0, &[]) + "\n"
}

/// The records of a page of these bytes from address 0 on, in which each multiple of `every` is marked.
fn of_page(page: &[u8], every: usize) -> Vec<original::Record> {
    let (size, step) = if every == 1 { (16, 16) } else { (1, every) };
    let data = |place: usize| original::Record::Data {
        offset: place as u16,
        value: page[place..page.len().min(place + size)].to_vec(),
    };
    let mut records = vec![original::Record::ExtendedLinearAddress(0)];
    records.extend((0..page.len()).step_by(step).map(data));
    records.push(original::Record::EndOfFile);
    records
}

/// A piece of work, and the number that comes from its result.
type Work = fn(&mut Given) -> u64;

/// The reading, the writing of lines and the writing of objects, for the crate and for the face.
macro_rules! rusts {
    ($name:ident, $from:ident, $records:ident) => {
        mod $name {
            use super::Given;
            use $from::{create_object_file_representation, Reader, Record};

            fn first(record: &Record) -> u64 {
                match record {
                    Record::Data { value, .. } => value.first().map_or(0, |&byte| byte.into()),
                    _ => 0,
                }
            }

            /// What the answers to a text add to its number.
            pub fn sum<E>(answers: impl Iterator<Item = Result<Record, E>>) -> u64 {
                answers.map(|read| 1 + read.map_or(0, |r| first(&r))).sum()
            }

            pub fn record(given: &mut Given) -> u64 {
                let read = |_| Record::from_record_string(&given.line).map_or(0, |r| first(&r));
                (0..given.records).map(read).sum()
            }

            pub fn text(given: &mut Given) -> u64 {
                sum(Reader::new(&given.text))
            }

            pub fn line(given: &mut Given) -> u64 {
                let write = |_| given.$records[0].to_record_string().map_or(0, |s| s.len());
                (0..given.records).map(write).sum::<usize>() as u64
            }

            pub fn object(given: &mut Given) -> u64 {
                create_object_file_representation(&given.$records).map_or(0, |s| s.len()) as u64
            }
        }
    };
}

rusts!(by_crate, original, of_crate);
rusts!(by_face, ihex, of_face);

/// What a program does that has the crate's reader alone: reads all, then places it.
fn crate_load(given: &mut Given) -> u64 {
    let read: Result<Vec<original::Record>, _> = original::Reader::new(&given.text).collect();
    let mut loaded = 0;
    given.marks.fill(0);
    for record in read.unwrap_or_default() {
        if let original::Record::Data { offset, value } = record {
            let offset = usize::from(offset);
            let (here, wrapped) = value.split_at(value.len().min(given.page.len() - offset));
            for (from, part) in [(offset, here), (0, wrapped)] {
                given.page[from..from + part.len()].copy_from_slice(part);
                mark(&mut given.marks, from, part.len());
            }
            loaded += 1;
        }
    }
    loaded
}

fn face_load(given: &mut Given) -> u64 {
    let loaded = ihex::load(&given.text, 0, &mut given.page, &mut given.marks);
    loaded.map_or(0, |loaded| loaded.data_records as u64)
}

fn face_chunks(given: &mut Given) -> u64 {
    let mut reader = ihex::ChunkReader::new();
    let chunks = given.text.as_bytes().chunks(given.chunk);
    let sum: u64 = chunks.map(|chunk| by_face::sum(reader.feed(chunk))).sum();
    sum + by_face::sum(reader.finish())
}

/// Feeds the text in chunks to the intake, up to the line that decides.
fn face_listen(given: &mut Given) {
    for chunk in given.text.as_bytes().chunks(given.chunk) {
        if !matches!(given.intake.feed(chunk).fed, ihex::Fed::WantsMore) {
            break;
        }
    }
}

fn face_fed(given: &mut Given) -> u64 {
    face_listen(given);
    let ready = given.intake.ready();
    ready.map_or(0, |ready| ready.loaded().data_records as u64)
}

fn face_committed(given: &mut Given) -> u64 {
    face_listen(given);
    let (page, marks) = (&mut given.page, &mut given.marks);
    let committed = given.intake.ready().map(|ready| ready.commit(page, marks));
    committed.map_or(0, |of| of.map_or(0, |loaded| loaded.data_records as u64))
}

fn face_srecord(given: &mut Given) -> u64 {
    let first = |read: SRecord| read.value.first().map_or(0, |&byte| byte.into());
    let read = |_| SRecord::from_record_string(&given.srecord).map_or(0, first);
    (0..given.records).map(read).sum()
}

fn face_srecords(given: &mut Given) -> u64 {
    let loaded = ihex::srec::load_srecords(&given.srecords, 0, &mut given.page, &mut given.marks);
    loaded.map_or(0, |loaded| loaded.data_records as u64)
}

fn face_through(table: &ihex::Table, text: &str, pool: &mut [u8], marks: &mut [u8]) -> u64 {
    let loaded = table.load(ihex::Owner::First, text, pool, marks);
    loaded.map_or(0, |loaded| loaded.data_records as u64)
}

fn face_table(given: &mut Given) -> u64 {
    let (pool, marks) = (&mut given.page, &mut given.marks);
    face_through(&given.table.of_face, &given.text, pool, marks)
}

fn face_last(given: &mut Given) -> u64 {
    let (pool, marks) = (&mut given.page, &mut given.marks);
    face_through(&given.last.of_face, &given.text, pool, marks)
}

/// What is returned of a byte that is not stated.
const NONE: u64 = 256;

fn face_asked(text: &str, address: u32) -> u64 {
    let asked = ihex::ask(text, address);
    asked.map_or(0, |byte| byte.map_or(NONE, u64::from))
}

fn face_ask(given: &mut Given) -> u64 {
    face_asked(&given.text, given.address)
}

fn face_every(given: &mut Given) -> u64 {
    face_asked(&given.alike, given.address)
}

/// How long the clean file of a text is, and how many entries its list has, in one number.
fn face_saved(text: &str) -> u64 {
    let saved = ihex::salvage(text);
    saved.map_or(0, |saved| {
        (saved.clean.len() + saved.dropped().len()) as u64
    })
}

fn face_salvage(given: &mut Given) -> u64 {
    face_saved(&given.text)
}

fn face_noisy(given: &mut Given) -> u64 {
    face_saved(&given.noisy)
}

/// What a program does that has the crate's writer alone, once it has made the records.
fn crate_page(given: &mut Given) -> u64 {
    let written = original::create_object_file_representation(&given.of_page);
    written.map_or(0, |text| text.len() as u64)
}

fn face_page(given: &mut Given) -> u64 {
    let written = ihex::write_page(0, &given.pool, &given.marked);
    written.map_or(0, |text| text.len() as u64)
}

mod by_port {
    use super::{Given, NONE};

    pub fn record(given: &mut Given) -> u64 {
        let mut pool = [0; 255];
        let (mut a, mut b, mut c, mut sum) = (0, 0, 0, 0);
        for _ in 0..given.records {
            let line = given.line.as_bytes();
            let code = ihex_sys::read_record(line, &mut pool, 0, &mut a, &mut b, &mut c);
            sum += if code == 0 { u64::from(pool[0]) } else { 0 };
        }
        sum
    }

    pub fn srecord(given: &mut Given) -> u64 {
        let mut pool = [0; 255];
        let (mut a, mut b, mut c, mut sum) = (0, 0, 0, 0);
        for _ in 0..given.records {
            let line = given.srecord.as_bytes();
            let code = ihex_sys::read_srecord(line, &mut pool, 0, &mut a, &mut b, &mut c);
            sum += if code < 4 { u64::from(pool[0]) } else { 0 };
        }
        sum
    }

    pub fn srecords(given: &mut Given) -> u64 {
        let (mut line, mut start, mut a, mut b, mut c) = (0, 0, 0, 0, 0);
        let (page, marks) = (&mut given.page, &mut given.marks);
        let text = given.srecords.as_bytes();
        ihex_sys::load_srecords(
            text, 0, page, marks, &mut line, &mut start, &mut a, &mut b, &mut c,
        );
        a
    }

    /// How many answers a text has, and the sum of the first bytes of its records, in one number.
    fn read(text: &str) -> u64 {
        let mut pool = [0; 255];
        let (mut position, mut line, mut flags) = (0, 0, 3);
        let (mut a, mut b, mut c, mut sum) = (0, 0, 0, 0);
        loop {
            let code = ihex_sys::next(
                text.as_bytes(),
                &mut pool,
                0,
                &mut position,
                &mut line,
                &mut flags,
                &mut a,
                &mut b,
                &mut c,
            );
            if code == ihex_sys::DONE {
                return sum;
            }
            sum += 1 + if code == 0 { u64::from(pool[0]) } else { 0 };
        }
    }

    pub fn text(given: &mut Given) -> u64 {
        read(&given.text)
    }

    pub fn alike(given: &mut Given) -> u64 {
        read(&given.alike)
    }

    fn asked(text: &str, address: u32) -> u64 {
        let (mut line, mut a, mut b) = (0, 0, 0);
        match ihex_sys::ask(text.as_bytes(), address, &mut line, &mut a, &mut b) {
            ihex_sys::NOT_STATED => NONE,
            _ => a,
        }
    }

    pub fn ask(given: &mut Given) -> u64 {
        asked(&given.text, given.address)
    }

    pub fn every(given: &mut Given) -> u64 {
        asked(&given.alike, given.address)
    }

    /// A reader of chunks, and the number that comes from its answers.
    struct Chunks {
        carry: [u8; ihex_sys::CARRY],
        pool: [u8; 255],
        position: usize,
        line: usize,
        empties: usize,
        used: usize,
        skipped: u16,
        flags: u8,
        sum: u64,
    }

    impl Chunks {
        /// The code of the next answer of a chunk, or of the end.
        fn next(&mut self, chunk: Option<&[u8]>) -> u32 {
            let standing = (
                &mut self.position,
                &mut self.line,
                &mut self.empties,
                &mut self.used,
                &mut self.skipped,
                &mut self.flags,
            );
            let (mut lies, mut from, mut len) = (0, 0, 0);
            let lies = (&mut lies, &mut from, &mut len);
            let (carry, pool) = (&mut self.carry, &mut self.pool);
            let (mut a, mut b, mut c) = (0, 0, 0);
            let (a, b, c) = (&mut a, &mut b, &mut c);
            match chunk {
                Some(chunk) => ihex_sys::next_chunk(chunk, carry, pool, 0, standing, lies, a, b, c),
                None => ihex_sys::finish(carry, pool, 0, standing, lies, a, b, c),
            }
        }

        fn read(&mut self, chunk: Option<&[u8]>) {
            loop {
                let code = self.next(chunk);
                if code == ihex_sys::USED_UP || code == ihex_sys::DONE {
                    return;
                }
                self.sum += 1 + if code == 0 {
                    u64::from(self.pool[0])
                } else {
                    0
                };
            }
        }
    }

    pub fn chunks(given: &mut Given) -> u64 {
        let mut reader = Chunks {
            carry: [0; ihex_sys::CARRY],
            pool: [0; 255],
            position: 0,
            line: 0,
            empties: 0,
            used: 0,
            skipped: 0,
            flags: 3,
            sum: 0,
        };
        for chunk in given.text.as_bytes().chunks(given.chunk) {
            reader.read(Some(chunk));
        }
        reader.read(None);
        reader.sum
    }

    /// A listener, and how many data records the dump has that is ready.
    struct Listener {
        carry: [u8; ihex_sys::CARRY],
        flags: u8,
        skipped: u16,
        base: u16,
        begin: u32,
        lines: usize,
        used: usize,
        records: usize,
        ready: u64,
    }

    impl Listener {
        fn new() -> Self {
            Listener {
                carry: [0; ihex_sys::CARRY],
                flags: ihex_sys::FRONT,
                skipped: 0,
                base: 0,
                begin: 0,
                lines: 0,
                used: 0,
                records: 0,
                ready: 0,
            }
        }

        /// Feeds a chunk, up to the line that decides: the code of what it comes to.
        fn feed(&mut self, chunk: &[u8], stage: &mut [u8], stated: &mut [u8]) -> u32 {
            let standing = (
                &mut self.flags,
                &mut self.skipped,
                &mut self.base,
                &mut self.begin,
                &mut self.lines,
                &mut self.used,
                &mut self.records,
            );
            let (mut taken, mut line, mut start) = (0, 0, 0);
            let (taken, line, start) = (&mut taken, &mut line, &mut start);
            let (carry, a) = (&mut self.carry, &mut self.ready);
            let (mut b, mut c) = (0, 0);
            let (b, c) = (&mut b, &mut c);
            ihex_sys::feed(
                chunk, carry, 0, stage, stated, standing, taken, line, start, a, b, c,
            )
        }
    }

    /// A listener to which the text was fed in chunks, up to the line that decides; nothing if no dump is ready then.
    fn listened(given: &mut Given) -> Option<Listener> {
        let mut listener = Listener::new();
        let mut code = ihex_sys::USED_UP;
        for chunk in given.text.as_bytes().chunks(given.chunk) {
            code = listener.feed(chunk, &mut given.stage, &mut given.stated);
            if code != ihex_sys::USED_UP {
                break;
            }
        }
        (code == 0).then_some(listener)
    }

    pub fn fed(given: &mut Given) -> u64 {
        listened(given).map_or(0, |listener| listener.ready)
    }

    pub fn committed(given: &mut Given) -> u64 {
        listened(given).map_or(0, |mut listener| {
            let (stage, stated) = (&given.stage, &given.stated);
            let (page, marks) = (&mut given.page, &mut given.marks);
            match ihex_sys::commit(stage, stated, page, marks, &mut listener.flags) {
                0 => listener.ready,
                _ => 0,
            }
        })
    }

    pub fn line(given: &mut Given) -> u64 {
        let (mut value, mut sum) = (0, 0);
        for _ in 0..given.records {
            let out = &mut given.out;
            ihex_sys::to_record_string(0, 0, 0, 0, given.n, &given.pool, out, &mut value);
            sum += value;
        }
        sum
    }

    pub fn object(given: &mut Given) -> u64 {
        let mut value = 0;
        let (list, pool) = (&given.list, &given.pool);
        ihex_sys::create_object_file_representation(list, pool, &mut given.out, &mut value);
        value
    }

    fn loaded(text: &str, page: &mut [u8], marks: &mut [u8]) -> u64 {
        let (mut line, mut start, mut a, mut b, mut c) = (0, 0, 0, 0, 0);
        let text = text.as_bytes();
        ihex_sys::load(
            text, 0, page, marks, &mut line, &mut start, &mut a, &mut b, &mut c,
        );
        a
    }

    pub fn load(given: &mut Given) -> u64 {
        loaded(&given.text, &mut given.page, &mut given.marks)
    }

    pub fn segment(given: &mut Given) -> u64 {
        loaded(&given.segment, &mut given.page, &mut given.marks)
    }

    pub fn linear(given: &mut Given) -> u64 {
        loaded(&given.linear, &mut given.page, &mut given.marks)
    }

    pub fn across(given: &mut Given) -> u64 {
        loaded(&given.across, &mut given.page, &mut given.marks)
    }

    fn through(table: &[u8], text: &str, pool: &mut [u8], marks: &mut [u8]) -> u64 {
        let (mut line, mut start, mut a, mut b, mut c) = (0, 0, 0, 0, 0);
        let text = text.as_bytes();
        ihex_sys::load_table(
            text, 1, table, pool, marks, &mut line, &mut start, &mut a, &mut b, &mut c,
        );
        a
    }

    pub fn table(given: &mut Given) -> u64 {
        let (pool, marks) = (&mut given.page, &mut given.marks);
        through(&given.table.bytes, &given.text, pool, marks)
    }

    pub fn last(given: &mut Given) -> u64 {
        let (pool, marks) = (&mut given.page, &mut given.marks);
        through(&given.last.bytes, &given.text, pool, marks)
    }

    fn saved(text: &str, out: &mut [u8], list: &mut [u8]) -> u64 {
        let (mut a, mut b) = (0, 0);
        ihex_sys::salvage(text.as_bytes(), out, list, &mut a, &mut b);
        a + b
    }

    pub fn salvage(given: &mut Given) -> u64 {
        saved(&given.text, &mut given.out, &mut given.dropped)
    }

    pub fn noisy(given: &mut Given) -> u64 {
        saved(&given.noisy, &mut given.out, &mut given.dropped)
    }

    pub fn page(given: &mut Given) -> u64 {
        let mut value = 0;
        let (page, marks) = (&given.pool, &given.marked);
        ihex_sys::write_page(0, page, marks, &mut given.out, &mut value);
        value
    }
}

mod by_floor {
    use super::{floor, Given};

    pub fn record(given: &mut Given) -> u64 {
        let mut pool = [0; 255];
        let mut sum = 0;
        for _ in 0..given.records {
            let n = floor::read_record(given.line.as_bytes(), &mut pool);
            sum += if n < 0 { 0 } else { u64::from(pool[0]) };
        }
        sum
    }

    pub fn srecord(given: &mut Given) -> u64 {
        let mut pool = [0; 255];
        let mut sum = 0;
        for _ in 0..given.records {
            let n = floor::read_srecord(given.srecord.as_bytes(), &mut pool);
            sum += if n < 0 { 0 } else { u64::from(pool[0]) };
        }
        sum
    }

    pub fn srecords(given: &mut Given) -> u64 {
        let text = given.srecords.as_bytes();
        floor::load_srecords(text, &mut given.page, &mut given.marks) as u64
    }

    pub fn text(given: &mut Given) -> u64 {
        let mut sum = 0;
        let records = floor::read_text(given.text.as_bytes(), &mut [0; 255], &mut sum);
        records as u64 + sum
    }

    pub fn line(given: &mut Given) -> u64 {
        let mut out = [0; 521];
        let payload = &given.pool[..given.n];
        (0..given.records)
            .map(|_| floor::write_record(0, 0, payload, &mut out) as u64)
            .sum()
    }

    pub fn object(given: &mut Given) -> u64 {
        floor::write_object(&given.pool, given.n, &mut given.out) as u64
    }

    pub fn load(given: &mut Given) -> u64 {
        floor::load(given.text.as_bytes(), &mut given.page, &mut given.marks) as u64
    }

    pub fn page(given: &mut Given) -> u64 {
        floor::write_page(0, &given.pool, &given.marked, &mut given.out) as u64
    }
}

/// The crate's work of a name, if it has it.
fn crate_work(what: &str) -> Option<Work> {
    Some(match what {
        "record" => by_crate::record,
        "text" => by_crate::text,
        "line" => by_crate::line,
        "object" => by_crate::object,
        "load" => crate_load,
        "page" => crate_page,
        _ => return None,
    })
}

/// The face's work of a name, if it has it.
fn face_work(what: &str) -> Option<Work> {
    Some(match what {
        "record" => by_face::record,
        "text" => by_face::text,
        "line" => by_face::line,
        "object" => by_face::object,
        "load" => face_load,
        "chunks" => face_chunks,
        "fed" => face_fed,
        "committed" => face_committed,
        "page" => face_page,
        "srecord" => face_srecord,
        "srecords" => face_srecords,
        "salvage" => face_salvage,
        "noisy" => face_noisy,
        "table" => face_table,
        "last" => face_last,
        "ask" => face_ask,
        "every" => face_every,
        _ => return None,
    })
}

/// The port's work of a name, if it has it.
fn port_work(what: &str) -> Option<Work> {
    Some(match what {
        "record" => by_port::record,
        "text" => by_port::text,
        "chunks" => by_port::chunks,
        "fed" => by_port::fed,
        "committed" => by_port::committed,
        "line" => by_port::line,
        "object" => by_port::object,
        "load" => by_port::load,
        "segment" => by_port::segment,
        "linear" => by_port::linear,
        "across" => by_port::across,
        "page" => by_port::page,
        "srecord" => by_port::srecord,
        "srecords" => by_port::srecords,
        "salvage" => by_port::salvage,
        "noisy" => by_port::noisy,
        "table" => by_port::table,
        "last" => by_port::last,
        "alike" => by_port::alike,
        "ask" => by_port::ask,
        "every" => by_port::every,
        _ => return None,
    })
}

/// The plain C loop's work of a name, if it has it.
fn floor_work(what: &str) -> Option<Work> {
    Some(match what {
        "record" => by_floor::record,
        "text" => by_floor::text,
        "line" => by_floor::line,
        "object" => by_floor::object,
        "load" => by_floor::load,
        "page" => by_floor::page,
        "srecord" => by_floor::srecord,
        "srecords" => by_floor::srecords,
        _ => return None,
    })
}

fn work(who: &str, what: &str) -> Option<Work> {
    match who {
        "crate" => crate_work(what),
        "face" => face_work(what),
        "port" => port_work(what),
        "floor" => floor_work(what),
        _ => None,
    }
}

const USAGE: &str = "\
usage: bench crate|port|face|floor record|text|line|object|load BYTES RECORDS REPETITIONS
       bench port|face chunks|fed|committed BYTES RECORDS REPETITIONS CHUNK
       bench port segment|linear|across BYTES RECORDS REPETITIONS
       bench crate|port|face|floor page BYTES RECORDS REPETITIONS EVERY
       bench port|face|floor srecord|srecords BYTES RECORDS REPETITIONS TYPE
       bench port|face salvage|noisy BYTES RECORDS REPETITIONS
       bench port|face table|last BYTES RECORDS REPETITIONS WINDOWS
       bench port alike BYTES RECORDS REPETITIONS
       bench port|face ask|every BYTES RECORDS REPETITIONS ADDRESS";

fn main() {
    let words: Vec<String> = env::args().skip(1).collect();
    let number = |i: usize| {
        words
            .get(i)
            .and_then(|word| word.parse().ok())
            .unwrap_or(usize::MAX)
    };
    let (n, records, repetitions) = (number(2), number(3), number(4));
    let step = number(5);
    let asked = words
        .first()
        .zip(words.get(1))
        .and_then(|(who, what)| work(who, what));
    let work = match asked {
        Some(work) if n <= 255 && records <= 1 << 20 && repetitions < usize::MAX && step > 0 => {
            work
        }
        _ => {
            eprintln!("{USAGE}");
            exit(2)
        }
    };
    if words[0] == "crate" && !original::AT_HAND {
        println!("not at hand");
        return;
    }
    let mut given = given(n, records, step);
    let mut result = 0;
    let start = Instant::now();
    for _ in 0..repetitions {
        result = work(&mut given);
    }
    println!("{result} {}", start.elapsed().as_nanos());
}
