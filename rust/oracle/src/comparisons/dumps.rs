//! Dumps that follow each other in chunks: the crate reads each as a text of its own, and the face's chunk
//! reader goes on where it stopped.

use ihex::ChunkReader;

use crate::comparisons::run::{blocks, by_block, by_chance, Kind, Plan};
use crate::comparisons::seen::Times;
use crate::inputs::chunks::ChunkCase;
use crate::inputs::dumps::{cut_dumps, cut_dumps_everywhere};
use crate::models::dumps::by_the_crate;
use crate::subjects::face::{ask, options, Face};
use crate::subjects::told::Shown;

/// The ways in which a reader can stop, each of which is to be called for.
const STOPS: [&str; 5] = [
    "inside a chunk",
    "at a chunk's end",
    "in what was held",
    "before an empty line",
    "at the text's end",
];

/// How often a reader stopped in each way.
static SEEN: Times = Times::new();

/// Prints how often a reader stopped in each way, and says whether none is missing.
pub fn show_seen() -> bool {
    let ways = STOPS.iter().map(|way| way.to_string());
    SEEN.show(
        "every stop between two dumps (way: times)",
        ways.enumerate(),
    )
}

/// Notes how a reader has stopped, before this rest of a chunk, or at the text's end.
fn note(reader: &ChunkReader, rest: Option<&[u8]>) {
    let in_chunk = reader.used() > 0;
    let held = !reader.held().is_empty();
    let empty = |text: &[u8]| text.starts_with(b"\n") || text.starts_with(b"\r\n");
    let ways = [
        rest.map_or(false, |rest| in_chunk && !rest.is_empty()),
        rest.map_or(false, |rest| in_chunk && rest.is_empty()),
        held,
        empty(if held {
            reader.held()
        } else {
            rest.unwrap_or(&[])
        }),
        rest.is_none() && !held,
    ];
    for (way, is) in ways.into_iter().enumerate() {
        if is {
            SEEN.note(way);
        }
    }
}

/// A reader of the face, and the answers to each dump so far.
struct Reading<'a> {
    face: &'a dyn Face,
    flags: u8,
    reader: ChunkReader,
    dumps: Vec<Vec<Shown>>,
    /// How many texts it may still begin.
    texts: usize,
}

impl<'a> Reading<'a> {
    fn dump(&mut self) -> &mut Vec<Shown> {
        self.dumps.last_mut().expect("there is always one dump")
    }

    /// Hands over a chunk, asks for so many answers at a time, and goes on after each stop.
    fn chunk(&mut self, chunk: &[u8], most: usize) -> Result<(), String> {
        let mut rest = chunk;
        loop {
            let mut answers = Vec::new();
            ask(self.reader.feed(rest), most, &mut answers);
            self.dump().extend(answers);
            if !self.reader.is_finished() {
                return Ok(());
            }
            let used = self.face.used(&self.reader, rest);
            rest = rest.get(used..).ok_or("more is used than there is")?;
            self.follow(Some(rest))?;
        }
    }

    /// Ends the text, as often as what is held has another dump.
    fn end(&mut self) -> Result<(), String> {
        loop {
            let mut answers = Vec::new();
            ask(self.reader.finish(), usize::MAX, &mut answers);
            if answers.is_empty() {
                return Ok(());
            }
            self.dump().extend(answers);
            self.follow(None)?;
        }
    }

    fn follow(&mut self, rest: Option<&[u8]>) -> Result<(), String> {
        self.texts = self.texts.checked_sub(1).ok_or("no end of dumps")?;
        note(&self.reader, rest);
        self.face.begin_next(&mut self.reader, self.flags);
        self.dumps.push(Vec::new());
        Ok(())
    }
}

/// The face's answers to each dump. Of one chunk in three all are asked for at a time, of one the first, of
/// one none; what is left comes at the end.
fn by_the_face(face: &dyn Face, case: &ChunkCase) -> Result<Vec<Vec<Shown>>, String> {
    let flags = case.state.flags;
    let mut reading = Reading {
        face,
        flags,
        reader: ChunkReader::new_with_options(options(flags)),
        dumps: vec![Vec::new()],
        texts: case.text().len() + 1,
    };
    for (i, chunk) in case.chunks.iter().enumerate() {
        reading.chunk(chunk, [usize::MAX, 1, 0][i % 3])?;
    }
    reading.end()?;
    Ok(reading.dumps)
}

/// What is wrong with the answers to dumps that follow each other, those without an answer at the end left
/// out.
fn face(face: &dyn Face, case: &ChunkCase) -> Option<String> {
    let trimmed = |mut dumps: Vec<Vec<Shown>>| {
        while dumps.last().map_or(false, Vec::is_empty) {
            dumps.pop();
        }
        dumps
    };
    let should = trimmed(by_the_crate(&case.text(), case.state.flags));
    match by_the_face(face, case).map(trimmed) {
        Err(why) => Some(why),
        Ok(is) => (is != should).then(|| format!("face {is:?}, crate {should:?}")),
    }
}

/// What is compared with the face.
pub fn of_face<'a>(face: &'a dyn Face, plan: Plan) -> Vec<Kind<'a>> {
    let check = move |case: &ChunkCase| self::face(face, case);
    vec![
        by_chance(
            "face: texts in chunks, dump after dump",
            plan,
            8,
            cut_dumps,
            check,
        ),
        by_block(
            "face: texts in chunks, dump after dump, cut in two at every place",
            plan,
            blocks(60, plan),
            |_, chance| cut_dumps_everywhere(chance),
            check,
        ),
    ]
}
