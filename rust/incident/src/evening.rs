//! The evening: the receive buffer as it was time and again, through the gateway's loop and under the library's light.

use std::ffi::OsString;
use std::fs;
use std::io;
use std::path::Path;

use ihex::{Color, Light, Marks};

use crate::shown::{old_light, row, CRATES, NOTHING, TANK_3};
use crate::{by_crate, by_light, Side, FIRST, PLACES};

/// The places of the high and of the low byte of the controller's count.
const COUNT: [usize; 2] = [0x1E, 0x1F];

/// What the receive buffer held at a minute of the gateway's clock.
pub struct Buffer {
    pub minute: String,
    pub text: Vec<u8>,
}

impl Buffer {
    /// A buffer from a file whose name is its minute, as in `21-46.hex`.
    pub fn read(file: OsString) -> io::Result<Self> {
        let name = Path::new(&file).file_stem().unwrap_or_default();
        Ok(Buffer {
            minute: name.to_string_lossy().replace('-', ":"),
            text: fs::read(&file)?,
        })
    }
}

/// What a buffer comes to.
#[derive(Clone, PartialEq, Eq, Debug)]
pub struct Row {
    pub minute: String,
    /// The crate's side may not be at hand.
    pub of_crate: Option<Side>,
    pub of_port: Side,
    /// What the library's light shows.
    pub color: Color,
    /// The count that the light knew before the buffer, and the one that it knows after it.
    pub known: [Option<u16>; 2],
}

/// The buffers in their order, under one light that knows no count at first.
pub fn rows(buffers: &[Buffer], crate_at_hand: bool) -> Vec<Row> {
    let [high, low] = COUNT;
    let mut light = Light::new(FIRST, PLACES, high, low).expect("both places lie in the window");
    let rows = buffers.iter().map(|Buffer { minute, text }| {
        let before = light.known();
        let (color, of_port) = by_light(text, &mut light);
        Row {
            minute: minute.clone(),
            of_crate: crate_at_hand.then(|| by_crate(text, false)),
            of_port,
            color,
            known: [before, light.known()],
        }
    });
    rows.collect()
}

/// The count that a page states, if its dump was accepted and both bytes are marked.
pub fn count(side: &Side) -> Option<u16> {
    let marks = Marks::new(&side.marks, PLACES);
    let stated = side.answer.is_ok() && COUNT.iter().all(|&place| marks.is_marked(place));
    stated.then(|| u16::from_be_bytes(COUNT.map(|place| side.page[place])))
}

impl Row {
    /// Whether the old light is green, which goes by the crate's page.
    pub fn is_old_light_green(&self) -> bool {
        self.of_crate.as_ref().and_then(old_light).is_some()
    }

    /// Whether the old light is green beside a count that is not the dump's.
    pub fn is_count_old(&self) -> bool {
        let of_crate = self.of_crate.as_ref().and_then(count);
        self.is_old_light_green() && of_crate != count(&self.of_port)
    }

    /// Why the library's light has its color.
    fn why(&self) -> String {
        match (self.color, self.known, &self.of_port.answer) {
            (Color::Broken, _, Err(why)) => format!("refused, {why}"),
            (Color::NoCount, ..) => "accepted, and states no count".into(),
            (Color::First, ..) => "no count was known before".into(),
            (Color::Stale, ..) => "the count did not move".into(),
            (Color::Green, [Some(before), Some(count)], _) => {
                format!("the count moved forward by {}", count.wrapping_sub(before))
            }
            (_, [before, count], _) => {
                format!("the count went from {} to {}", told(before), told(count))
            }
        }
    }

    /// The cells of the crate's side.
    fn crates_cells(&self, side: &Side) -> String {
        let light = match self.is_old_light_green() {
            true => "green",
            false => "not green",
        };
        cells(light, &told(count(side)), &tank(side))
    }

    /// The line of the table.
    fn line(&self) -> String {
        let of_crate = self.of_crate.as_ref();
        let beside = of_crate.map_or(String::new(), |side| self.crates_cells(side));
        let (color, known) = (self.color.to_string(), told(self.known[1]));
        let of_port = cells(&color, &known, &tank(&self.of_port));
        let (minute, why) = (&self.minute, self.why());
        row(&format!("{minute:9}{beside}{of_port}{why}"))
    }
}

/// A count in digits.
fn told(count: Option<u16>) -> String {
    count.map_or(NOTHING.into(), |count| count.to_string())
}

/// The level of tank 3 that a page states, if its dump was accepted.
fn tank(side: &Side) -> String {
    let drawn = TANK_3.drawn(side).filter(|_| side.answer.is_ok());
    drawn.unwrap_or_else(|| NOTHING.into())
}

fn cells(light: &str, count: &str, tank: &str) -> String {
    format!("{light:11}{count:7}{tank:9}")
}

/// The text of the evening, or none if there are no buffers.
pub fn shown(rows: &[Row]) -> String {
    if rows.is_empty() {
        return String::new();
    }
    let both = rows.iter().all(|row| row.of_crate.is_some());
    let mut out = opening(both) + &heads(both);
    out.extend(rows.iter().map(Row::line));
    out + "\n" + &sums(rows, both)
}

/// What the table shows.
fn opening(both: bool) -> String {
    let [high, low] = COUNT.map(|place| FIRST + place as u32);
    let mut out = format!(
        "\nThe evening, buffer after buffer. The buffer is not cleared: a short dump leaves the tail of a longer\n\
         one after its end record. The controller keeps a count at {high:08X} and {low:08X}.\n"
    );
    if both {
        out += "The old light is green when the loop over the crate accepts the buffer and its page states a time.\n";
    }
    out + "The library's light goes by the count that the dump states before its end record.\n\n"
}

/// The heads of the table.
fn heads(both: bool) -> String {
    let (above, crates) = match both {
        true => (CRATES, cells("light", "count", "tank 3")),
        false => ("", String::new()),
    };
    let (width, port) = (crates.len(), cells("light", "known", "tank 3"));
    row(&format!("{:9}{above:width$}library's light", ""))
        + &row(&format!("{:9}{crates}{port}why", "buffer"))
}

/// How often each light is green.
fn sums(rows: &[Row], both: bool) -> String {
    let number = |such: fn(&Row) -> bool| rows.iter().filter(|row| such(row)).count();
    let (all, green) = (rows.len(), number(|row| row.color.is_green()));
    let mut out = String::new();
    if both {
        let (old, wrong) = (number(Row::is_old_light_green), number(Row::is_count_old));
        out += &format!(
            "The old light is green for {old} of {all} buffers. For {wrong} of these the count on the crate's page is old:\n\
             it comes from after the end record.\n"
        );
    }
    out + &format!("The library's light is green for {green} of {all} buffers.\n")
}
