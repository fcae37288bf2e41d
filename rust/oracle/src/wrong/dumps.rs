//! Faces that go on wrongly after a stop.

use ihex::ChunkReader;

use crate::subjects::face::{options, Face};

/// A face that says another number of used bytes, from the right one and the chunk.
struct Used(fn(&ChunkReader, &[u8]) -> usize);

impl Face for Used {
    fn used(&self, reader: &ChunkReader, chunk: &[u8]) -> usize {
        self.0(reader, chunk).min(chunk.len())
    }
}

/// A face that begins the next text in another way, with these stops.
struct Begun(fn(&mut ChunkReader, u8));

impl Face for Begun {
    fn begin_next(&self, reader: &mut ChunkReader, flags: u8) {
        self.0(reader, flags);
    }
}

/// A face that is wrong: in what, and the face.
pub type WrongFace = (&'static str, Box<dyn Face>);

/// Every face that goes on wrongly after a stop.
pub fn all() -> Vec<WrongFace> {
    vec![
        (
            "loses what follows a stop in its chunk",
            Box::new(Used(|_, chunk| chunk.len())),
        ),
        (
            "uses the empty line after a stop",
            Box::new(Used(|reader, chunk| {
                let used = reader.used();
                used + usize::from(chunk.get(used) == Some(&b'\n'))
            })),
        ),
        (
            "reads the LF of a line that stopped it once more",
            Box::new(Used(|reader, _| reader.used().saturating_sub(1))),
        ),
        (
            "uses a byte of the chunk though it stopped in what it held",
            Box::new(Used(|reader, _| reader.used().max(1))),
        ),
        (
            "loses what it held at a stop",
            Box::new(Begun(|reader, flags| {
                *reader = ChunkReader::new_with_options(options(flags));
            })),
        ),
        (
            "begins the next text with the default stops",
            Box::new(Begun(|reader, _| {
                let mut next = ChunkReader::new();
                drop(next.feed(reader.held()));
                *reader = next;
            })),
        ),
    ]
}
