//! The C entry points of libihex.a as safe functions: a slice stands for a pointer and a length, a
//! reference for a pointer. `include/ihex.h` says what each promises. All unsafe code stands here.
#![no_std]
#![allow(clippy::too_many_arguments)]

/// A refusal's code is this and the refusal's number.
pub const REFUSED: u32 = 256;
/// The text reader has no further answer.
pub const DONE: u32 = 512;
/// The chunk has no further answer: the next may be handed over.
pub const USED_UP: u32 = 513;
/// The text is accepted, and states no byte at the address that was asked for.
pub const NOT_STATED: u32 = 514;
/// What was skipped has come to its end record, and a text begins after it.
pub const PASSED: u32 = 515;
/// No dump is ready, so nothing was committed.
pub const NOT_READY: u32 = 516;
/// What should be written is not a record: its type is not one of the format's, or its number does not fit the type.
pub const BAD_RECORD: u32 = 1024;

/// Flag of the text reader: after a refused line, only [`DONE`].
pub const STOP_AFTER_FIRST_ERROR: u8 = 1;
/// Flag of the text reader: after an end record, only [`DONE`].
pub const STOP_AFTER_EOF: u8 = 2;
/// Flag of the text reader: only [`DONE`] from now on.
pub const FINISHED: u8 = 4;
/// Flag of the chunk reader: a CR comes after the used bytes of the carry.
pub const CR_WAITS: u8 = 8;

/// Flags of a listener: where a text begins.
pub const FRONT: u8 = 0;
/// Flags of a listener: in a dump.
pub const TAKING: u8 = 1;
/// Flags of a listener: at an unknown place, where everything through the next end record is skipped.
pub const SKIPPING: u8 = 2;
/// Flags of a listener: a dump was accepted, and is staged.
pub const READY: u8 = 3;
/// Flag of a listener: the text is of S-records.
pub const SRECORDS: u8 = 4;

/// The least length of a carry.
pub const CARRY: usize = 522;

/// The answer is not a record, and no line is shown.
pub const NOWHERE: u8 = 0;
/// The line that gave the record lies in the chunk.
pub const IN_CHUNK: u8 = 1;
/// The line that gave the record lies at the carry's start.
pub const IN_CARRY: u8 = 2;

/// The text of an accepted load states no start.
pub const NO_START: u8 = 0;
/// It states CS and IP.
pub const START_SEGMENT_ADDRESS: u8 = 3;
/// It states a linear address.
pub const START_LINEAR_ADDRESS: u8 = 5;

/// How many bytes stand for a record in the list that an object is written from.
pub const ENTRY: usize = 24;

/// How many bytes stand for an entry in the list of a salvage.
pub const DROPPED: usize = 16;
/// Why an entry is in the list: it is a data record, and its base is unknown.
pub const BASE_UNKNOWN: u32 = 0;
/// Why an entry is in the list: the text has no end record, and one was added.
pub const MISSING_END_OF_FILE_RECORD: u32 = 13;

/// How many bytes stand for a window in a table.
pub const WINDOW: usize = 24;
/// The most windows of a table.
pub const MOST_WINDOWS: usize = 16;
/// The number of the refusal of a table.
pub const BAD_TABLE: u32 = 23;

/// What a light shows after a dump that was refused. 0 is not green.
pub const COLOR_BROKEN: u8 = 0;
/// After one that states no count.
pub const COLOR_NO_COUNT: u8 = 1;
/// After one that states a count where none was known.
pub const COLOR_FIRST: u8 = 2;
/// After one whose count moved forward.
pub const COLOR_GREEN: u8 = 3;
/// After one whose count is the known one.
pub const COLOR_STALE: u8 = 4;
/// After one with any other count.
pub const COLOR_RESTARTED: u8 = 5;
/// The count of a light that knows none.
pub const COUNT_UNKNOWN: u32 = 65_536;
/// The number of the refusal of a place.
pub const BAD_PLACE: u32 = 24;

/// The most places of a page, and of the pool of a window table.
pub const MAX_PAGE: usize = 65_536;
/// The most bytes of a page's file.
pub const MAX_PAGE_FILE: usize = 458_810;

/// The most bytes of data of an S-record.
pub const MAX_SRECORD_DATA: usize = 252;
/// The most characters of an S-record's line, without its line end.
pub const MAX_SRECORD_LINE: usize = 514;

mod c {
    extern "C" {
        pub fn ihex_checksum(bytes: *const u8, bytes_len: usize) -> u8;
        pub fn ihex_read_record(
            line: *const u8,
            line_len: usize,
            pool: *mut u8,
            pool_len: usize,
            at: usize,
            a: *mut u64,
            b: *mut u64,
            c: *mut u64,
        ) -> u32;
        pub fn ihex_next(
            text: *const u8,
            text_len: usize,
            pool: *mut u8,
            pool_len: usize,
            at: usize,
            position: *mut usize,
            line: *mut usize,
            flags: *mut u8,
            a: *mut u64,
            b: *mut u64,
            c: *mut u64,
        ) -> u32;
        pub fn ihex_next_chunk(
            chunk: *const u8,
            chunk_len: usize,
            carry: *mut u8,
            carry_len: usize,
            pool: *mut u8,
            pool_len: usize,
            at: usize,
            position: *mut usize,
            line: *mut usize,
            empties: *mut usize,
            used: *mut usize,
            skipped: *mut u16,
            flags: *mut u8,
            lies: *mut u8,
            from: *mut usize,
            len: *mut usize,
            a: *mut u64,
            b: *mut u64,
            c: *mut u64,
        ) -> u32;
        pub fn ihex_finish(
            carry: *mut u8,
            carry_len: usize,
            pool: *mut u8,
            pool_len: usize,
            at: usize,
            position: *mut usize,
            line: *mut usize,
            empties: *mut usize,
            used: *mut usize,
            skipped: *mut u16,
            flags: *mut u8,
            lies: *mut u8,
            from: *mut usize,
            len: *mut usize,
            a: *mut u64,
            b: *mut u64,
            c: *mut u64,
        ) -> u32;
        pub fn ihex_shown(
            lies: u8,
            from: usize,
            len: usize,
            chunk: *const u8,
            chunk_len: usize,
            carry: *const u8,
            carry_len: usize,
            start: *mut usize,
        ) -> usize;
        pub fn ihex_to_record_string(
            kind: u8,
            number: u32,
            second: u16,
            at: usize,
            len: usize,
            pool: *const u8,
            pool_len: usize,
            out: *mut u8,
            out_len: usize,
            value: *mut u64,
        ) -> u32;
        pub fn ihex_create_object_file_representation(
            list: *const u8,
            list_len: usize,
            pool: *const u8,
            pool_len: usize,
            out: *mut u8,
            out_len: usize,
            value: *mut u64,
        ) -> u32;
        pub fn ihex_load(
            text: *const u8,
            text_len: usize,
            first: u32,
            page: *mut u8,
            page_len: usize,
            marks: *mut u8,
            marks_len: usize,
            line: *mut usize,
            start: *mut u8,
            a: *mut u64,
            b: *mut u64,
            c: *mut u64,
        ) -> u32;
        pub fn ihex_check_table(
            table: *const u8,
            table_len: usize,
            pool_len: usize,
            marks_len: usize,
        ) -> u32;
        pub fn ihex_load_table(
            text: *const u8,
            text_len: usize,
            owner: u32,
            table: *const u8,
            table_len: usize,
            pool: *mut u8,
            pool_len: usize,
            marks: *mut u8,
            marks_len: usize,
            line: *mut usize,
            start: *mut u8,
            a: *mut u64,
            b: *mut u64,
            c: *mut u64,
        ) -> u32;
        pub fn ihex_ask(
            text: *const u8,
            text_len: usize,
            address: u32,
            line: *mut usize,
            a: *mut u64,
            b: *mut u64,
        ) -> u32;
        pub fn ihex_set_up_light(
            first: u32,
            length: usize,
            high: usize,
            low: usize,
            known: *mut u32,
        ) -> u32;
        pub fn ihex_light(
            text: *const u8,
            text_len: usize,
            first: u32,
            length: usize,
            high: usize,
            low: usize,
            page: *mut u8,
            page_len: usize,
            marks: *mut u8,
            marks_len: usize,
            known: *mut u32,
            color: *mut u8,
            line: *mut usize,
            start: *mut u8,
            a: *mut u64,
            b: *mut u64,
            c: *mut u64,
        ) -> u32;
        pub fn ihex_feed(
            chunk: *const u8,
            chunk_len: usize,
            carry: *mut u8,
            carry_len: usize,
            first: u32,
            stage: *mut u8,
            stage_len: usize,
            stated: *mut u8,
            stated_len: usize,
            flags: *mut u8,
            skipped: *mut u16,
            base: *mut u16,
            begin: *mut u32,
            lines: *mut usize,
            used: *mut usize,
            records: *mut usize,
            taken: *mut usize,
            line: *mut usize,
            start: *mut u8,
            a: *mut u64,
            b: *mut u64,
            c: *mut u64,
        ) -> u32;
        pub fn ihex_pause(
            carry: *mut u8,
            carry_len: usize,
            first: u32,
            stage: *mut u8,
            stage_len: usize,
            stated: *mut u8,
            stated_len: usize,
            flags: *mut u8,
            skipped: *mut u16,
            base: *mut u16,
            begin: *mut u32,
            lines: *mut usize,
            used: *mut usize,
            records: *mut usize,
            line: *mut usize,
            start: *mut u8,
            a: *mut u64,
            b: *mut u64,
            c: *mut u64,
        ) -> u32;
        pub fn ihex_commit(
            stage: *const u8,
            stage_len: usize,
            stated: *const u8,
            stated_len: usize,
            page: *mut u8,
            page_len: usize,
            marks: *mut u8,
            marks_len: usize,
            flags: *mut u8,
        ) -> u32;
        pub fn ihex_light_after(
            code: u32,
            first: u32,
            length: usize,
            high: usize,
            low: usize,
            page: *const u8,
            page_len: usize,
            marks: *const u8,
            marks_len: usize,
            known: *mut u32,
        ) -> u8;
        pub fn ihex_page_file_length(
            first: u32,
            page: *const u8,
            page_len: usize,
            marks: *const u8,
            marks_len: usize,
            value: *mut u64,
        ) -> u32;
        pub fn ihex_write_page(
            first: u32,
            page: *const u8,
            page_len: usize,
            marks: *const u8,
            marks_len: usize,
            out: *mut u8,
            out_len: usize,
            value: *mut u64,
        ) -> u32;
        pub fn ihex_salvage(
            text: *const u8,
            text_len: usize,
            out: *mut u8,
            out_len: usize,
            list: *mut u8,
            list_len: usize,
            a: *mut u64,
            b: *mut u64,
        ) -> u32;
        pub fn ihex_read_srecord(
            line: *const u8,
            line_len: usize,
            pool: *mut u8,
            pool_len: usize,
            at: usize,
            a: *mut u64,
            b: *mut u64,
            c: *mut u64,
        ) -> u32;
        pub fn ihex_to_srecord_string(
            kind: u8,
            address: u32,
            at: usize,
            len: usize,
            pool: *const u8,
            pool_len: usize,
            out: *mut u8,
            out_len: usize,
            value: *mut u64,
        ) -> u32;
        pub fn ihex_load_srecords(
            text: *const u8,
            text_len: usize,
            first: u32,
            page: *mut u8,
            page_len: usize,
            marks: *mut u8,
            marks_len: usize,
            line: *mut usize,
            start: *mut u8,
            a: *mut u64,
            b: *mut u64,
            c: *mut u64,
        ) -> u32;
        pub fn ihex_load_srecords_table(
            text: *const u8,
            text_len: usize,
            owner: u32,
            table: *const u8,
            table_len: usize,
            pool: *mut u8,
            pool_len: usize,
            marks: *mut u8,
            marks_len: usize,
            line: *mut usize,
            start: *mut u8,
            a: *mut u64,
            b: *mut u64,
            c: *mut u64,
        ) -> u32;
        pub fn ihex_light_srecords(
            text: *const u8,
            text_len: usize,
            first: u32,
            length: usize,
            high: usize,
            low: usize,
            page: *mut u8,
            page_len: usize,
            marks: *mut u8,
            marks_len: usize,
            known: *mut u32,
            color: *mut u8,
            line: *mut usize,
            start: *mut u8,
            a: *mut u64,
            b: *mut u64,
            c: *mut u64,
        ) -> u32;
    }
}

// In each call below, every pointer comes from a reference or a slice that lives through the call,
// with that slice's own length, and what is written is lent for writing and apart from all else.

/// The checksum of the bytes.
pub fn checksum(bytes: &[u8]) -> u8 {
    unsafe { c::ihex_checksum(bytes.as_ptr(), bytes.len()) }
}

/// One line to a record or a refusal.
pub fn read_record(
    line: &[u8],
    pool: &mut [u8],
    at: usize,
    a: &mut u64,
    b: &mut u64,
    c: &mut u64,
) -> u32 {
    let (line, line_len) = (line.as_ptr(), line.len());
    unsafe { c::ihex_read_record(line, line_len, pool.as_mut_ptr(), pool.len(), at, a, b, c) }
}

/// The next answer of a text, from a state in numbers, which is moved.
pub fn next(
    text: &[u8],
    pool: &mut [u8],
    at: usize,
    position: &mut usize,
    line: &mut usize,
    flags: &mut u8,
    a: &mut u64,
    b: &mut u64,
    c: &mut u64,
) -> u32 {
    let (text, text_len) = (text.as_ptr(), text.len());
    let (pool, pool_len) = (pool.as_mut_ptr(), pool.len());
    unsafe {
        c::ihex_next(
            text, text_len, pool, pool_len, at, position, line, flags, a, b, c,
        )
    }
}

/// Where a reader of chunks stands: the pointers of its state, in the order of the C entry points.
pub type Standing<'a> = (
    &'a mut usize,
    &'a mut usize,
    &'a mut usize,
    &'a mut usize,
    &'a mut u16,
    &'a mut u8,
);

/// Where the line lies that gave a record: `lies`, `from` and `len`.
pub type Lies<'a> = (&'a mut u8, &'a mut usize, &'a mut usize);

/// The next answer of a chunk, from a state in numbers, which is moved.
pub fn next_chunk(
    chunk: &[u8],
    carry: &mut [u8],
    pool: &mut [u8],
    at: usize,
    (position, line, empties, used, skipped, flags): Standing,
    (lies, from, len): Lies,
    a: &mut u64,
    b: &mut u64,
    c: &mut u64,
) -> u32 {
    let (chunk, chunk_len) = (chunk.as_ptr(), chunk.len());
    let (carry, carry_len) = (carry.as_mut_ptr(), carry.len());
    let (pool, pool_len) = (pool.as_mut_ptr(), pool.len());
    unsafe {
        c::ihex_next_chunk(
            chunk, chunk_len, carry, carry_len, pool, pool_len, at, position, line, empties, used,
            skipped, flags, lies, from, len, a, b, c,
        )
    }
}

/// Ends a text that came in chunks.
pub fn finish(
    carry: &mut [u8],
    pool: &mut [u8],
    at: usize,
    (position, line, empties, used, skipped, flags): Standing,
    (lies, from, len): Lies,
    a: &mut u64,
    b: &mut u64,
    c: &mut u64,
) -> u32 {
    let (carry, carry_len) = (carry.as_mut_ptr(), carry.len());
    let (pool, pool_len) = (pool.as_mut_ptr(), pool.len());
    unsafe {
        c::ihex_finish(
            carry, carry_len, pool, pool_len, at, position, line, empties, used, skipped, flags,
            lies, from, len, a, b, c,
        )
    }
}

/// How many bytes the line at a place has, and where it begins in its buffer.
pub fn shown(
    lies: u8,
    from: usize,
    len: usize,
    chunk: &[u8],
    carry: &[u8],
    start: &mut usize,
) -> usize {
    let (chunk, chunk_len) = (chunk.as_ptr(), chunk.len());
    let (carry, carry_len) = (carry.as_ptr(), carry.len());
    unsafe { c::ihex_shown(lies, from, len, chunk, chunk_len, carry, carry_len, start) }
}

/// One record to a line.
pub fn to_record_string(
    kind: u8,
    number: u32,
    second: u16,
    at: usize,
    len: usize,
    pool: &[u8],
    out: &mut [u8],
    value: &mut u64,
) -> u32 {
    let (pool, pool_len) = (pool.as_ptr(), pool.len());
    let (out, out_len) = (out.as_mut_ptr(), out.len());
    unsafe {
        c::ihex_to_record_string(
            kind, number, second, at, len, pool, pool_len, out, out_len, value,
        )
    }
}

/// A list of records, [`ENTRY`] bytes each, to a text.
pub fn create_object_file_representation(
    list: &[u8],
    pool: &[u8],
    out: &mut [u8],
    value: &mut u64,
) -> u32 {
    let (list, list_len) = (list.as_ptr(), list.len());
    let (pool, pool_len) = (pool.as_ptr(), pool.len());
    let (out, out_len) = (out.as_mut_ptr(), out.len());
    unsafe {
        c::ihex_create_object_file_representation(
            list, list_len, pool, pool_len, out, out_len, value,
        )
    }
}

/// A text into a page with marks. Marks take one bit a place: place p is bit p modulo 8 of byte p / 8,
/// lowest bit first, and the unused bits of the last byte are 0 after an accepted load. Then `start` is the
/// kind of start that the text states, with its values in `b` and `c`.
pub fn load(
    text: &[u8],
    first: u32,
    page: &mut [u8],
    marks: &mut [u8],
    line: &mut usize,
    start: &mut u8,
    a: &mut u64,
    b: &mut u64,
    c: &mut u64,
) -> u32 {
    let (text, text_len) = (text.as_ptr(), text.len());
    let (page, page_len) = (page.as_mut_ptr(), page.len());
    let (marks, marks_len) = (marks.as_mut_ptr(), marks.len());
    unsafe {
        c::ihex_load(
            text, text_len, first, page, page_len, marks, marks_len, line, start, a, b, c,
        )
    }
}

/// Whether a window table, [`WINDOW`] bytes a window, is good for a pool and marks of these lengths: 0, or
/// [`REFUSED`] and [`BAD_TABLE`].
pub fn check_table(table: &[u8], pool_len: usize, marks_len: usize) -> u32 {
    unsafe { c::ihex_check_table(table.as_ptr(), table.len(), pool_len, marks_len) }
}

/// A text for one owner, 1 or 2, through a window table into a pool with marks, one bit a place. On acceptance
/// only the owner's places and their marks change.
pub fn load_table(
    text: &[u8],
    owner: u32,
    table: &[u8],
    pool: &mut [u8],
    marks: &mut [u8],
    line: &mut usize,
    start: &mut u8,
    a: &mut u64,
    b: &mut u64,
    c: &mut u64,
) -> u32 {
    let (text, text_len) = (text.as_ptr(), text.len());
    let (table, table_len) = (table.as_ptr(), table.len());
    let (pool, pool_len) = (pool.as_mut_ptr(), pool.len());
    let (marks, marks_len) = (marks.as_mut_ptr(), marks.len());
    unsafe {
        c::ihex_load_table(
            text, text_len, owner, table, table_len, pool, pool_len, marks, marks_len, line, start,
            a, b, c,
        )
    }
}

/// The byte that a text states at an address: 0 and the byte in `a`, or [`NOT_STATED`], or a refusal as [`load`] has it.
pub fn ask(text: &[u8], address: u32, line: &mut usize, a: &mut u64, b: &mut u64) -> u32 {
    unsafe { c::ihex_ask(text.as_ptr(), text.len(), address, line, a, b) }
}

/// Sets up a light for a page of `length` places from `first` on, with the bytes of the count at the places `high` and `low`.
pub fn set_up_light(first: u32, length: usize, high: usize, low: usize, known: &mut u32) -> u32 {
    unsafe { c::ihex_set_up_light(first, length, high, low, known) }
}

/// A dump of Intel HEX into the page of a light, and what the light shows after it. Marks take one bit a place.
pub fn light(
    text: &[u8],
    first: u32,
    length: usize,
    high: usize,
    low: usize,
    page: &mut [u8],
    marks: &mut [u8],
    known: &mut u32,
    color: &mut u8,
    line: &mut usize,
    start: &mut u8,
    a: &mut u64,
    b: &mut u64,
    c: &mut u64,
) -> u32 {
    let (text, text_len) = (text.as_ptr(), text.len());
    let (page, page_len) = (page.as_mut_ptr(), page.len());
    let (marks, marks_len) = (marks.as_mut_ptr(), marks.len());
    unsafe {
        c::ihex_light(
            text, text_len, first, length, high, low, page, page_len, marks, marks_len, known,
            color, line, start, a, b, c,
        )
    }
}

/// Where a listener stands: the pointers of its seven numbers, in the order of the C entry points.
pub type Listener<'a> = (
    &'a mut u8,
    &'a mut u16,
    &'a mut u16,
    &'a mut u32,
    &'a mut usize,
    &'a mut usize,
    &'a mut usize,
);

/// A chunk of a line on which dump after dump comes, taken into a staging page and its marks. `taken` is how many bytes of
/// the chunk were used. Marks take one bit a place.
pub fn feed(
    chunk: &[u8],
    carry: &mut [u8],
    first: u32,
    stage: &mut [u8],
    stated: &mut [u8],
    (flags, skipped, base, begin, lines, used, records): Listener,
    taken: &mut usize,
    line: &mut usize,
    start: &mut u8,
    a: &mut u64,
    b: &mut u64,
    c: &mut u64,
) -> u32 {
    let (chunk, chunk_len) = (chunk.as_ptr(), chunk.len());
    let (carry, carry_len) = (carry.as_mut_ptr(), carry.len());
    let (stage, stage_len) = (stage.as_mut_ptr(), stage.len());
    let (stated, stated_len) = (stated.as_mut_ptr(), stated.len());
    unsafe {
        c::ihex_feed(
            chunk, chunk_len, carry, carry_len, first, stage, stage_len, stated, stated_len, flags,
            skipped, base, begin, lines, used, records, taken, line, start, a, b, c,
        )
    }
}

/// Tells a listener that the line is silent, or that the input has ended.
pub fn pause(
    carry: &mut [u8],
    first: u32,
    stage: &mut [u8],
    stated: &mut [u8],
    (flags, skipped, base, begin, lines, used, records): Listener,
    line: &mut usize,
    start: &mut u8,
    a: &mut u64,
    b: &mut u64,
    c: &mut u64,
) -> u32 {
    let (carry, carry_len) = (carry.as_mut_ptr(), carry.len());
    let (stage, stage_len) = (stage.as_mut_ptr(), stage.len());
    let (stated, stated_len) = (stated.as_mut_ptr(), stated.len());
    unsafe {
        c::ihex_pause(
            carry, carry_len, first, stage, stage_len, stated, stated_len, flags, skipped, base,
            begin, lines, used, records, line, start, a, b, c,
        )
    }
}

/// Commits a dump that is ready to the page: the staged bytes at stated places, and the marks.
pub fn commit(
    stage: &[u8],
    stated: &[u8],
    page: &mut [u8],
    marks: &mut [u8],
    flags: &mut u8,
) -> u32 {
    let (stage, stage_len) = (stage.as_ptr(), stage.len());
    let (stated, stated_len) = (stated.as_ptr(), stated.len());
    let (page, page_len) = (page.as_mut_ptr(), page.len());
    let (marks, marks_len) = (marks.as_mut_ptr(), marks.len());
    unsafe {
        c::ihex_commit(
            stage, stage_len, stated, stated_len, page, page_len, marks, marks_len, flags,
        )
    }
}

/// What a light shows after a load that returned this code and left these page and marks.
pub fn light_after(
    code: u32,
    first: u32,
    length: usize,
    high: usize,
    low: usize,
    page: &[u8],
    marks: &[u8],
    known: &mut u32,
) -> u8 {
    let (page, page_len) = (page.as_ptr(), page.len());
    let (marks, marks_len) = (marks.as_ptr(), marks.len());
    unsafe {
        c::ihex_light_after(
            code, first, length, high, low, page, page_len, marks, marks_len, known,
        )
    }
}

/// How long the file of a page with marks is. Marks take one bit a place.
pub fn page_file_length(first: u32, page: &[u8], marks: &[u8], value: &mut u64) -> u32 {
    let (page, page_len) = (page.as_ptr(), page.len());
    let (marks, marks_len) = (marks.as_ptr(), marks.len());
    unsafe { c::ihex_page_file_length(first, page, page_len, marks, marks_len, value) }
}

/// The file of a page with marks. Marks take one bit a place.
pub fn write_page(first: u32, page: &[u8], marks: &[u8], out: &mut [u8], value: &mut u64) -> u32 {
    let (page, page_len) = (page.as_ptr(), page.len());
    let (marks, marks_len) = (marks.as_ptr(), marks.len());
    let (out, out_len) = (out.as_mut_ptr(), out.len());
    unsafe { c::ihex_write_page(first, page, page_len, marks, marks_len, out, out_len, value) }
}

/// What can be saved of a text, into the output, and what was dropped, into the list: [`DROPPED`] bytes an entry.
pub fn salvage(text: &[u8], out: &mut [u8], list: &mut [u8], a: &mut u64, b: &mut u64) -> u32 {
    let (text, text_len) = (text.as_ptr(), text.len());
    let (out, out_len) = (out.as_mut_ptr(), out.len());
    let (list, list_len) = (list.as_mut_ptr(), list.len());
    unsafe { c::ihex_salvage(text, text_len, out, out_len, list, list_len, a, b) }
}

/// One line of S-records to a record or a refusal.
pub fn read_srecord(
    line: &[u8],
    pool: &mut [u8],
    at: usize,
    a: &mut u64,
    b: &mut u64,
    c: &mut u64,
) -> u32 {
    let (line, line_len) = (line.as_ptr(), line.len());
    unsafe { c::ihex_read_srecord(line, line_len, pool.as_mut_ptr(), pool.len(), at, a, b, c) }
}

/// One S-record to a line.
pub fn to_srecord_string(
    kind: u8,
    address: u32,
    at: usize,
    len: usize,
    pool: &[u8],
    out: &mut [u8],
    value: &mut u64,
) -> u32 {
    let (pool, pool_len) = (pool.as_ptr(), pool.len());
    let (out, out_len) = (out.as_mut_ptr(), out.len());
    unsafe {
        c::ihex_to_srecord_string(kind, address, at, len, pool, pool_len, out, out_len, value)
    }
}

/// A text of S-records into a page with marks, as [`load`] does a text of Intel HEX.
pub fn load_srecords(
    text: &[u8],
    first: u32,
    page: &mut [u8],
    marks: &mut [u8],
    line: &mut usize,
    start: &mut u8,
    a: &mut u64,
    b: &mut u64,
    c: &mut u64,
) -> u32 {
    let (text, text_len) = (text.as_ptr(), text.len());
    let (page, page_len) = (page.as_mut_ptr(), page.len());
    let (marks, marks_len) = (marks.as_mut_ptr(), marks.len());
    unsafe {
        c::ihex_load_srecords(
            text, text_len, first, page, page_len, marks, marks_len, line, start, a, b, c,
        )
    }
}

/// A text of S-records for one owner through a window table, as [`load_table`] does a text of Intel HEX.
pub fn load_srecords_table(
    text: &[u8],
    owner: u32,
    table: &[u8],
    pool: &mut [u8],
    marks: &mut [u8],
    line: &mut usize,
    start: &mut u8,
    a: &mut u64,
    b: &mut u64,
    c: &mut u64,
) -> u32 {
    let (text, text_len) = (text.as_ptr(), text.len());
    let (table, table_len) = (table.as_ptr(), table.len());
    let (pool, pool_len) = (pool.as_mut_ptr(), pool.len());
    let (marks, marks_len) = (marks.as_mut_ptr(), marks.len());
    unsafe {
        c::ihex_load_srecords_table(
            text, text_len, owner, table, table_len, pool, pool_len, marks, marks_len, line, start,
            a, b, c,
        )
    }
}

/// The same for a dump of S-records.
pub fn light_srecords(
    text: &[u8],
    first: u32,
    length: usize,
    high: usize,
    low: usize,
    page: &mut [u8],
    marks: &mut [u8],
    known: &mut u32,
    color: &mut u8,
    line: &mut usize,
    start: &mut u8,
    a: &mut u64,
    b: &mut u64,
    c: &mut u64,
) -> u32 {
    let (text, text_len) = (text.as_ptr(), text.len());
    let (page, page_len) = (page.as_mut_ptr(), page.len());
    let (marks, marks_len) = (marks.as_mut_ptr(), marks.len());
    unsafe {
        c::ihex_light_srecords(
            text, text_len, first, length, high, low, page, page_len, marks, marks_len, known,
            color, line, start, a, b, c,
        )
    }
}

/// The bytes that stand for a window in a table.
pub fn window(owner: u32, first: u32, length: u64, place: u64) -> [u8; WINDOW] {
    let mut bytes = [0; WINDOW];
    bytes[..4].copy_from_slice(&owner.to_le_bytes());
    bytes[4..8].copy_from_slice(&first.to_le_bytes());
    bytes[8..16].copy_from_slice(&length.to_le_bytes());
    bytes[16..].copy_from_slice(&place.to_le_bytes());
    bytes
}

/// The bytes that stand for a record in the list that an object is written from.
pub fn entry(kind: u8, number: u32, second: u16, at: usize, len: usize) -> [u8; ENTRY] {
    let mut bytes = [0; ENTRY];
    bytes[0] = kind;
    bytes[2..4].copy_from_slice(&second.to_le_bytes());
    bytes[4..8].copy_from_slice(&number.to_le_bytes());
    bytes[8..16].copy_from_slice(&(at as u64).to_le_bytes());
    bytes[16..24].copy_from_slice(&(len as u64).to_le_bytes());
    bytes
}
