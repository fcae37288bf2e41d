//! The plain C loops of floor.c as safe functions. The unsafe code of the bench stands here.

mod c {
    extern "C" {
        pub fn floor_read_record(line: *const u8, len: usize, pool: *mut u8) -> i64;
        pub fn floor_read_srecord(line: *const u8, len: usize, pool: *mut u8) -> i64;
        pub fn floor_read_text(text: *const u8, len: usize, pool: *mut u8, sum: *mut u64) -> usize;
        pub fn floor_load(
            text: *const u8,
            len: usize,
            page: *mut u8,
            marks: *mut u8,
            size: usize,
        ) -> usize;
        pub fn floor_load_srecords(
            text: *const u8,
            len: usize,
            page: *mut u8,
            marks: *mut u8,
            size: usize,
        ) -> usize;
        pub fn floor_write_record(
            kind: u8,
            address: u16,
            payload: *const u8,
            n: usize,
            out: *mut u8,
        ) -> usize;
        pub fn floor_write_object(pool: *const u8, n: usize, records: usize, out: *mut u8)
            -> usize;
        pub fn floor_write_page(
            first: u32,
            page: *const u8,
            marks: *const u8,
            size: usize,
            out: *mut u8,
            room: usize,
        ) -> usize;
    }
}

pub fn read_record(line: &[u8], pool: &mut [u8; 255]) -> i64 {
    unsafe { c::floor_read_record(line.as_ptr(), line.len(), pool.as_mut_ptr()) }
}

pub fn read_srecord(line: &[u8], pool: &mut [u8; 255]) -> i64 {
    unsafe { c::floor_read_srecord(line.as_ptr(), line.len(), pool.as_mut_ptr()) }
}

pub fn read_text(text: &[u8], pool: &mut [u8; 255], sum: &mut u64) -> usize {
    unsafe { c::floor_read_text(text.as_ptr(), text.len(), pool.as_mut_ptr(), sum) }
}

/// As many places as both have: a byte of the page, and a bit of the marks.
fn places(page: &[u8], marks: &[u8]) -> usize {
    page.len().min(8 * marks.len())
}

pub fn load(text: &[u8], page: &mut [u8], marks: &mut [u8]) -> usize {
    let size = places(page, marks);
    let (page, marks) = (page.as_mut_ptr(), marks.as_mut_ptr());
    unsafe { c::floor_load(text.as_ptr(), text.len(), page, marks, size) }
}

pub fn load_srecords(text: &[u8], page: &mut [u8], marks: &mut [u8]) -> usize {
    let size = places(page, marks);
    let (page, marks) = (page.as_mut_ptr(), marks.as_mut_ptr());
    unsafe { c::floor_load_srecords(text.as_ptr(), text.len(), page, marks, size) }
}

/// A line of up to 255 payload bytes into an output of 521.
pub fn write_record(kind: u8, address: u16, payload: &[u8], out: &mut [u8; 521]) -> usize {
    let n = payload.len().min(255);
    unsafe { c::floor_write_record(kind, address, payload.as_ptr(), n, out.as_mut_ptr()) }
}

/// The pool's bytes, `n` a record, and an end record, if the output has room for them.
pub fn write_object(pool: &[u8], n: usize, out: &mut [u8]) -> usize {
    let records = pool.len() / n.max(1);
    if out.len() < records * (12 + 2 * n) + 12 {
        return 0;
    }
    unsafe { c::floor_write_object(pool.as_ptr(), n, records, out.as_mut_ptr()) }
}

/// The marked places of a page, and an end record, if the output has room for them.
pub fn write_page(first: u32, page: &[u8], marks: &[u8], out: &mut [u8]) -> usize {
    let size = places(page, marks);
    let (page, marks) = (page.as_ptr(), marks.as_ptr());
    unsafe { c::floor_write_page(first, page, marks, size, out.as_mut_ptr(), out.len()) }
}
