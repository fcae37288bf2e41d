//! Record writers and object writers that are wrong.

use ihex_sys::REFUSED;

use crate::subjects::port::{Port, Real};
use crate::subjects::told::Entry;
use crate::wrong::named::Wrong;

/// A record writer that does something to its answer or output: from the right code and the record.
struct Record(fn(u32, &Entry, &mut [u8], &mut u64) -> u32);

impl Port for Record {
    fn to_record_string(&self, entry: &Entry, pool: &[u8], out: &mut [u8], value: &mut u64) -> u32 {
        let code = Real.to_record_string(entry, pool, out, value);
        self.0(code, entry, out, value)
    }
}

/// An object writer that does something to its output or number: from the code.
struct Object(fn(u32, &mut [u8], &mut u64));

impl Port for Object {
    fn create_object_file_representation(
        &self,
        list: &[u8],
        pool: &[u8],
        out: &mut [u8],
        value: &mut u64,
    ) -> u32 {
        let code = Real.create_object_file_representation(list, pool, out, value);
        self.0(code, out, value);
        code
    }
}

/// Every wrong record writer.
pub fn records() -> Vec<Wrong> {
    let record = |name, change| -> Wrong { (name, Box::new(Record(change))) };
    vec![
        record("writes small letters", |code, _, out, value| {
            if code == 0 {
                out[..*value as usize].make_ascii_lowercase();
            }
            code
        }),
        record(
            "clears the output behind what it writes",
            |code, _, out, value| {
                if let Some(byte) = out.get_mut(*value as usize).filter(|_| code == 0) {
                    *byte = 0;
                }
                code
            },
        ),
        record(
            "judges the length before the place",
            |code, entry, _, value| {
                if code == REFUSED + 11 && entry.len > 255 {
                    *value = entry.len as u64;
                    return REFUSED + 12;
                }
                code
            },
        ),
    ]
}

/// Every wrong object writer.
pub fn objects() -> Vec<Wrong> {
    let object = |name, change| -> Wrong { (name, Box::new(Object(change))) };
    vec![
        object("counts end records up to the second", |code, _, value| {
            if code == REFUSED + 14 {
                *value = 2;
            }
        }),
        object("writes as much as fits, then refuses", |code, out, _| {
            if let Some(byte) = out.first_mut().filter(|_| code == REFUSED + 15) {
                *byte = b':';
            }
        }),
    ]
}
