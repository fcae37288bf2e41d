//! Lines on which dump after dump comes: the model against the port's listener and the face's.

use std::io::{self, Read};

use ihex::{Dumps, Fed, Intake, LoadError, Loaded, Paused};
use ihex_sys::{
    CARRY, COUNT_UNKNOWN, DONE, FRONT, NOT_READY, PASSED, REFUSED, SKIPPING, SRECORDS, USED_UP,
};

use crate::comparisons::lent::{Lent, Numbers};
use crate::comparisons::lights::number;
use crate::comparisons::loads::as_port;
use crate::comparisons::run::{block_of, blocks, by_block, Kind, Plan};
use crate::comparisons::seen::Answers;
use crate::inputs::marks::packed_length;
use crate::inputs::streams::{stream, stream_everywhere, Piece, StreamCase};
use crate::inputs::tables::Kind as TextKind;
use crate::models::loads::LoadAnswer;
use crate::models::streams::{model, Event, Events};
use crate::subjects::port::Port;
use crate::subjects::told::Listening;

/// What listeners are to be asked for: what a chunk comes to, of each kind of text, and a pause.
pub static SEEN: [Answers; 3] = [
    Answers::new(
        "listener, by a chunk",
        &[
            0, 257, 258, 259, 260, 261, 262, 263, 264, 265, 273, 277, 515,
        ],
    ),
    Answers::new(
        "listener of S-records, by a chunk",
        &[0, 257, 258, 259, 261, 262, 273, 276, 515],
    ),
    Answers::new("listener, by a pause", &[0, 257, 258, 262, 269, 512]),
];

/// Notes what should happen on a line. A dump that a pause decides has no LF after it.
fn note(case: &StreamCase, events: &Events) {
    let mut pauses = Vec::new();
    let mut come = 0;
    for piece in &case.pieces {
        match piece {
            Piece::Chunk(bytes) => come += bytes.len(),
            Piece::Pause => pauses.push(come),
        }
    }
    for (at, event) in events {
        let code = match event {
            Event::Passed => PASSED,
            Event::Quiet => DONE,
            Event::Decided { load, .. } => load.code,
        };
        let by_pause = code == DONE || code == REFUSED + 13;
        match case.kind {
            _ if by_pause || pauses.contains(at) && code != PASSED => SEEN[2].note(code),
            TextKind::Intel => SEEN[0].note(code),
            TextKind::SRecords => SEEN[1].note(code),
        }
    }
}

/// What the numbers of an answer hold before a call.
const BEFORE: (usize, u8, usize) = (0x55AA, 0x5A, usize::MAX);

/// What a port answers to a chunk, or to a pause if there is none, and how many bytes of the chunk it used.
fn asked(
    port: &dyn Port,
    chunk: Option<&[u8]>,
    first: u32,
    carry: &mut [u8],
    staging: (&mut [u8], &mut [u8]),
    listening: &mut Listening,
) -> Result<(LoadAnswer, usize), String> {
    let mut numbers = Numbers::default();
    let (mut line, mut start, mut taken) = BEFORE;
    let (places, values) = ((&mut line, &mut start), numbers.lend());
    let code = match chunk {
        None => {
            taken = 0;
            port.pause(carry, first, staging, listening, places, values)
        }
        Some(chunk) => port.feed(
            chunk, carry, first, staging, listening, &mut taken, places, values,
        ),
    };
    if !numbers.is_guarded() {
        return Err("numbers beside the lent ones were written".into());
    }
    let values = numbers.values();
    let answer = LoadAnswer {
        code,
        line,
        start,
        values,
    };
    Ok((answer, taken))
}

/// A listener of the port, and all that is lent to it.
struct Panel<'a> {
    port: &'a dyn Port,
    case: &'a StreamCase,
    listening: Listening,
    carry: Lent,
    stage: Lent,
    stated: Lent,
    page: Lent,
    marks: Lent,
    known: u32,
    /// How many bytes have been used.
    used: usize,
    events: Events,
    /// Whether calls with lengths that do not fit come before each call.
    misfits: bool,
}

impl<'a> Panel<'a> {
    fn new(port: &'a dyn Port, case: &'a StreamCase, misfits: bool) -> Self {
        let lent = |len: usize| Lent::holding(&vec![case.old; len]);
        let (length, marks) = (case.light.length, packed_length(case.light.length));
        let begins = if case.known { FRONT } else { SKIPPING };
        let kind = match case.kind {
            TextKind::Intel => 0,
            TextKind::SRecords => SRECORDS,
        };
        Panel {
            port,
            case,
            listening: Listening {
                flags: begins | kind,
                ..Listening::default()
            },
            carry: lent(CARRY),
            stage: lent(length),
            stated: lent(marks),
            page: lent(length),
            marks: lent(marks),
            known: COUNT_UNKNOWN,
            used: 0,
            events: vec![],
            misfits,
        }
    }

    /// A call with a carry, staging and marks of these lengths, from this address on: its code, if it changes nothing.
    fn misfit(&self, chunk: Option<&[u8]>, lengths: [usize; 3], first: u32) -> Result<u32, String> {
        let lent = [&self.carry, &self.stage, &self.stated].map(Lent::bytes);
        let mut before = lent.map(<[u8]>::to_vec);
        for (bytes, length) in before.iter_mut().zip(lengths) {
            bytes.resize(length, self.case.old);
        }
        let [mut carry, mut stage, mut stated] = before.clone();
        let (staging, mut listening) = ((&mut stage[..], &mut stated[..]), self.listening);
        let (answer, taken) = asked(self.port, chunk, first, &mut carry, staging, &mut listening)?;
        let same = listening == self.listening && [carry, stage, stated] == before;
        match same && taken == 0 && answer == bare(answer.code) {
            true => Ok(answer.code),
            false => Err(format!("{answer:?}, and something has changed")),
        }
    }

    /// Calls with lengths that do not fit: each is refused, and changes nothing.
    fn misfit_calls(&mut self, chunk: Option<&[u8]>) -> Result<(), String> {
        let (length, marks) = (
            self.case.light.length,
            packed_length(self.case.light.length),
        );
        let first = self.case.light.first;
        let beyond = (length as u32).wrapping_neg().wrapping_add(1);
        let calls = [
            ([CARRY - 1, length, marks], first, 18),
            ([CARRY - 1, length, marks + 1], first, 18),
            ([CARRY, length, marks + 1], first, 16),
            ([CARRY, length, marks - 1], first, 16),
            ([CARRY, length + 8, marks], 0, 16),
            ([CARRY, length, marks], beyond, 16),
        ];
        for (lengths, first, number) in calls {
            // A page of one place ends at 2^32 at most.
            if lengths == [CARRY, 1, 1] {
                continue;
            }
            let code = self.misfit(chunk, lengths, first)?;
            if code != REFUSED + number {
                return Err(format!("a call with {lengths:?} from {first:08X}: {code}"));
            }
        }
        Ok(())
    }

    /// Commits with lengths that do not fit: each is refused, and changes nothing.
    fn misfit_commits(&mut self) -> Result<(), String> {
        let (length, marks) = (
            self.case.light.length,
            packed_length(self.case.light.length),
        );
        let staging = (self.stage.bytes(), self.stated.bytes());
        let before = self.listening.flags;
        for (places, bytes) in [
            (length - 1, marks),
            (length + 1, marks),
            (length, marks + 1),
        ] {
            let (mut page, mut row) = (vec![0x5A; places], vec![0x5A; bytes]);
            let flags = &mut self.listening.flags;
            let code = self.port.commit(staging, &mut page, &mut row, flags);
            let same = page.iter().chain(&row).all(|&byte| byte == 0x5A);
            if code != REFUSED + 16 || *flags != before || !same {
                return Err(format!("a commit to {places} and {bytes}: {code}"));
            }
        }
        Ok(())
    }

    /// What a chunk comes to, or a pause if there is none, and how many bytes of it were used.
    fn call(&mut self, chunk: Option<&[u8]>) -> Result<(LoadAnswer, usize), String> {
        if self.misfits {
            self.misfit_calls(chunk)?;
        }
        let staging = (self.stage.slice(), self.stated.slice());
        let (carry, first) = (self.carry.slice(), self.case.light.first);
        let told = asked(self.port, chunk, first, carry, staging, &mut self.listening)?;
        let lent = [&self.carry, &self.stage, &self.stated];
        match lent.iter().all(|lent| lent.is_guarded()) {
            true => Ok(told),
            false => Err("something beside the lent ones was written".into()),
        }
    }

    /// Commits the dump that is ready. After that there is none.
    fn commit(&mut self) -> Result<(), String> {
        if self.misfits {
            self.misfit_commits()?;
        }
        let staging = (self.stage.bytes(), self.stated.bytes());
        let (page, marks) = (self.page.slice(), self.marks.slice());
        let flags = &mut self.listening.flags;
        let first = self.port.commit(staging, page, marks, flags);
        let second = self.port.commit(staging, page, marks, flags);
        if !self.page.is_guarded() || !self.marks.is_guarded() {
            return Err("something beside page and marks was written".into());
        }
        match (first, second) {
            (0, NOT_READY) => Ok(()),
            other => Err(format!("commits of a dump that is ready: {other:?}")),
        }
    }

    /// A dump is decided, as its load is.
    fn decided(&mut self, load: LoadAnswer) -> Result<(), String> {
        if load.code == 0 {
            self.commit()?;
        }
        let (page, marks) = (self.page.bytes(), self.marks.bytes());
        let color = self
            .port
            .light_after(load.code, self.case.light, page, marks, &mut self.known);
        let event = Event::Decided {
            load,
            color,
            known: self.known,
            page: page.to_vec(),
            marks: marks.to_vec(),
        };
        self.events.push((self.used, event));
        Ok(())
    }

    /// Feeds a chunk to its end.
    fn feed(&mut self, mut chunk: &[u8]) -> Result<(), String> {
        let mut calls = chunk.len() + 1;
        loop {
            let (answer, taken) = self.call(Some(chunk))?;
            let rest = chunk.get(taken..).ok_or("more is used than there is")?;
            self.used += taken;
            chunk = rest;
            calls = calls.checked_sub(1).ok_or("no end of answers")?;
            match answer.code {
                USED_UP if !rest.is_empty() => return Err("a chunk is not used up".into()),
                USED_UP | PASSED if answer != bare(answer.code) => {
                    return Err(format!("values beside {answer:?}"))
                }
                USED_UP => return Ok(()),
                PASSED => self.events.push((self.used, Event::Passed)),
                _ => self.decided(answer)?,
            }
        }
    }

    /// Pauses.
    fn pause(&mut self) -> Result<(), String> {
        let (answer, _) = self.call(None)?;
        match answer.code {
            DONE if answer != bare(DONE) => Err(format!("values beside {answer:?}")),
            DONE => {
                self.events.push((self.used, Event::Quiet));
                Ok(())
            }
            _ => self.decided(answer),
        }
    }
}

/// An answer without values.
fn bare(code: u32) -> LoadAnswer {
    LoadAnswer {
        code,
        line: 0,
        start: 0,
        values: [0; 3],
    }
}

/// The first event that is not as it should be, if there is one.
fn unlike(is: &Events, should: &Events) -> Option<String> {
    let n = (0..is.len().max(should.len())).find(|&n| is.get(n) != should.get(n))?;
    let (is, should) = (is.get(n), should.get(n));
    Some(format!("event {n} is {is:02X?}, model {should:02X?}"))
}

/// What the port says of a line.
fn by_port(port: &dyn Port, case: &StreamCase, misfits: bool) -> Result<Events, String> {
    let mut panel = Panel::new(port, case, misfits);
    for piece in &case.pieces {
        match piece {
            Piece::Chunk(chunk) => panel.feed(chunk)?,
            Piece::Pause => panel.pause()?,
        }
    }
    Ok(panel.events)
}

/// What is wrong with the port's listener, with calls that do not fit between the others, or without.
fn port(port: &dyn Port, case: &StreamCase, misfits: bool) -> Option<String> {
    let should = model(case);
    note(case, &should);
    match by_port(port, case, misfits) {
        Err(why) => Some(why),
        Ok(is) => unlike(&is, &should),
    }
}

/// A light of the face with its page, and what happens on its line.
struct Face<'a> {
    case: &'a StreamCase,
    light: ihex::Light,
    page: Vec<u8>,
    marks: Vec<u8>,
    used: usize,
    events: Events,
}

impl<'a> Face<'a> {
    fn new(case: &'a StreamCase) -> Self {
        let light = case.light;
        Face {
            case,
            light: ihex::Light::new(light.first, light.length, light.high, light.low)
                .expect("places in the page"),
            page: vec![case.old; light.length],
            marks: vec![case.old; packed_length(light.length)],
            used: 0,
            events: vec![],
        }
    }

    fn intake(&self) -> Intake {
        let kind = match self.case.kind {
            TextKind::Intel => ihex::TextKind::IntelHex,
            TextKind::SRecords => ihex::TextKind::SRecords,
        };
        let begin = if self.case.known {
            Intake::new
        } else {
            Intake::joining
        };
        begin(kind, self.case.light.first, self.case.light.length).expect("a window")
    }

    /// A dump is decided, and committed if it is accepted.
    fn decided(&mut self, load: Result<Loaded, LoadError>) {
        let shown = self.light.after(load, &self.page, &self.marks);
        let event = Event::Decided {
            load: as_port(shown.load),
            color: number(shown.color),
            known: self.light.known().map_or(COUNT_UNKNOWN, u32::from),
            page: self.page.clone(),
            marks: self.marks.clone(),
        };
        self.events.push((self.used, event));
    }

    fn feed(&mut self, intake: &mut Intake, mut chunk: &[u8]) {
        while !chunk.is_empty() {
            let step = intake.feed(chunk);
            self.used += step.used;
            chunk = &chunk[step.used..];
            match step.fed {
                Fed::WantsMore => {}
                Fed::Passed => self.events.push((self.used, Event::Passed)),
                Fed::Refused(why) => self.decided(Err(why)),
                Fed::Ready(ready) => {
                    let load = ready.commit(&mut self.page, &mut self.marks);
                    self.decided(load);
                }
            }
        }
    }

    fn pause(&mut self, intake: &mut Intake) {
        match intake.pause() {
            Paused::Quiet => self.events.push((self.used, Event::Quiet)),
            Paused::Refused(why) => self.decided(Err(why)),
            Paused::Ready(ready) => {
                let load = ready.commit(&mut self.page, &mut self.marks);
                self.decided(load);
            }
        }
    }
}

/// What is wrong with an intake of the face.
fn face(case: &StreamCase) -> Option<String> {
    let mut face = Face::new(case);
    let mut intake = face.intake();
    for piece in &case.pieces {
        match piece {
            Piece::Chunk(chunk) => face.feed(&mut intake, chunk),
            Piece::Pause => face.pause(&mut intake),
        }
    }
    unlike(&face.events, &model(case))
}

/// The pieces of a case as a source: one for each read, and of a pause nothing is read.
struct Source<'a> {
    pieces: &'a [Piece],
}

impl Read for Source<'_> {
    fn read(&mut self, buffer: &mut [u8]) -> io::Result<usize> {
        let (first, rest) = match self.pieces.split_first() {
            None => return Ok(0),
            Some(two) => two,
        };
        self.pieces = rest;
        match first {
            Piece::Chunk(bytes) => bytes.as_slice().read(buffer),
            Piece::Pause => Ok(0),
        }
    }
}

/// The same case as a source can have it: no chunk is empty or longer than a read, and the end is a pause.
fn readable(case: &StreamCase) -> StreamCase {
    let mut pieces = Vec::new();
    for piece in &case.pieces {
        match piece {
            Piece::Pause => pieces.push(Piece::Pause),
            Piece::Chunk(bytes) => {
                pieces.extend(bytes.chunks(64).map(|part| Piece::Chunk(part.to_vec())));
            }
        }
    }
    pieces.push(Piece::Pause);
    StreamCase {
        pieces,
        ..case.clone()
    }
}

/// What is wrong with the dumps of a source: they are those of the model, without the places where they were decided.
fn dumps(case: &StreamCase) -> Option<String> {
    let case = readable(case);
    let mut face = Face::new(&case);
    let source = Source {
        pieces: &case.pieces,
    };
    // More pauses in a row than there are pieces: only the end has so many.
    let pauses = case.pieces.len() + 1;
    let mut dumps = Dumps::new(face.intake(), source).with_pauses(pauses);
    loop {
        match dumps.next_dump() {
            Err(why) => return Some(format!("an error: {why}")),
            Ok(None) => break,
            Ok(Some(dump)) => {
                let load = dump.commit(&mut face.page, &mut face.marks);
                face.decided(load);
            }
        }
    }
    let mut should = model(&case);
    should.retain(|(_, event)| matches!(event, Event::Decided { .. }));
    for (at, _) in &mut should {
        *at = 0;
    }
    unlike(&face.events, &should)
}

/// How many streams by chance a block has.
const FEW: u64 = 100;

/// A kind whose inputs are streams by chance.
fn by_chance<'a>(
    name: &'static str,
    plan: Plan,
    hundreds: u64,
    check: impl Fn(&StreamCase) -> Option<String> + Sync + 'a,
) -> Kind<'a> {
    let make = block_of(FEW, stream);
    by_block(name, plan, blocks(hundreds, plan), make, check)
}

/// A kind whose inputs are cut in two at every place.
fn everywhere<'a>(
    name: &'static str,
    plan: Plan,
    usual: u64,
    check: impl Fn(&StreamCase) -> Option<String> + Sync + 'a,
) -> Kind<'a> {
    let make = |_, chance: &mut _| stream_everywhere(chance);
    by_block(name, plan, blocks(usual, plan), make, check)
}

/// What is compared with the port.
pub fn of_port<'a>(port: &'a dyn Port, plan: Plan) -> Vec<Kind<'a>> {
    let check = move |case: &StreamCase| self::port(port, case, false);
    let misfits = move |case: &StreamCase| self::port(port, case, true);
    vec![
        by_chance("streams", plan, 1000, check),
        everywhere("streams, cut in two at every place", plan, 200, check),
        everywhere(
            "streams, with calls whose lengths do not fit",
            plan,
            300,
            misfits,
        ),
    ]
}

/// What is compared with the face.
pub fn of_face(plan: Plan) -> Vec<Kind<'static>> {
    vec![
        by_chance("face: streams", plan, 80, face),
        everywhere("face: streams, cut in two at every place", plan, 60, face),
        by_chance("face: streams, read from a source", plan, 80, dumps),
    ]
}
